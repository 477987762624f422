/* How much of a core each processor has now. On a shared machine another guest may compute on the same core: then what keeps a core busy gets
 * slower by far more than what waits for its own results. Nine simple operations that wait for nothing take 2.25 cycles on a core of four such
 * units, two multiplications that wait for each other take 6, whoever else is there. */
#define _GNU_SOURCE
#include <sched.h>
#include <stdint.h>
#include <stdio.h>
#include <time.h>

#define ROUNDS 20
#define TURNS 4000000

static double now(void)
{
    struct timespec at;
    clock_gettime(CLOCK_MONOTONIC, &at);
    return (double)at.tv_sec + 1e-9 * (double)at.tv_nsec;
}

/* the seconds of so many additions: eight in a turn, and the turn's own count */
static double busy(void)
{
    uint64_t a = 0, b = 0, c = 0, d = 0, e = 0, f = 0, g = 0, h = 0;
    double start = now();
    for (int turn = 0; turn < TURNS; turn++)
        __asm__ volatile("inc %0\n inc %1\n inc %2\n inc %3\n inc %4\n inc %5\n inc %6\n inc %7\n"
                         : "+r"(a), "+r"(b), "+r"(c), "+r"(d), "+r"(e), "+r"(f), "+r"(g), "+r"(h));
    return now() - start;
}

/* the seconds of as many pairs of multiplications, each of the one before */
static double waiting(void)
{
    uint64_t a = 1;
    double start = now();
    for (int turn = 0; turn < TURNS; turn++)
        __asm__ volatile("imul $3, %0, %0\n imul $3, %0, %0\n" : "+r"(a));
    return now() - start;
}

/* the least seconds of some rounds */
static double least(double (*work)(void))
{
    double found = work();
    for (int round = 1; round < ROUNDS; round++) {
        double took = work();
        found = took < found ? took : found;
    }
    return found;
}

int main(void)
{
    cpu_set_t all, one;
    if (sched_getaffinity(0, sizeof all, &all) != 0)
        return 1;
    for (int processor = 0; processor < CPU_SETSIZE; processor++) {
        if (!CPU_ISSET(processor, &all))
            continue;
        CPU_ZERO(&one);
        CPU_SET(processor, &one);
        if (sched_setaffinity(0, sizeof one, &one) != 0)
            return 1;
        printf("processor %d has %.2f of a core\n", processor, 2.25 / 6 * least(waiting) / least(busy));
    }
    return 0;
}
