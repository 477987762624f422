/* What a caller in C pays for a call: a timer that is armed again, cyclics that come and go, and expirations at high level.
 *
 *     calls again N same|last|turn|random [ROUNDS]     the one in the middle, the last one, each in turn, any of N
 *     calls apart N same|last|turn|random [ROUNDS]     the same of ids that are 7 apart, as on a CPU of several
 *     calls swing LOW HIGH PEAK [ROUNDS]               from LOW to HIGH cyclics and back, on a CPU that once had PEAK
 *     calls churn N same|last|turn|random [ROUNDS]     such a one goes, and a new one comes; in turn it is the oldest
 *     calls low N same|last|turn|random [ROUNDS]       the same at low level
 *     calls between N same|last|turn|random [ROUNDS]   such a one goes, and a new one comes whose id is between those of its neighbours
 *     calls fire N PEAK [ROUNDS]                       N that are left of PEAK, of one interval
 *     calls soft N PEAK [ROUNDS]                       the same at low level: each expiration is taken and finished too
 *     calls grow N add|go [ROUNDS]                     the longest single add on the way to N; the longest removal or add of 4N where in
 *                                                      turn the oldest goes and a new one comes
 *
 * It prints the nanoseconds of a call, the least of the rounds: 15 where no number is given. */
#include "cyclic.h"
#include <stdio.h>
#include <stdlib.h>
#include <string.h>
#include <time.h>

#define START 1000000000
#define CALLS 20000
#define MOST 4096

static cyclic_cpu cpu = CYCLIC_CLOSED;
/* from one id to the next */
static uint64_t gap = 1;
static uint32_t level = CYCLIC_HIGH;
static uint64_t state = 88172645463325252ull;

static uint64_t any(void)
{
    state ^= state << 13;
    state ^= state >> 7;
    state ^= state << 17;
    return state;
}

static double now(void)
{
    struct timespec time;
    clock_gettime(CLOCK_MONOTONIC, &time);
    return time.tv_sec * 1e9 + time.tv_nsec;
}

static void check(uint32_t answer)
{
    if (answer != 0) {
        fprintf(stderr, "calls: refused %u\n", answer);
        exit(1);
    }
}

static void add(uint64_t id, int64_t start)
{
    uint64_t busy, hand;
    check(cyclic_add(&cpu, id, level, start, 1000, 0, &busy));
    /* where the CPU grew, both soft sides follow */
    cyclic_take(&cpu, CYCLIC_LOCK, &hand);
    cyclic_take(&cpu, CYCLIC_LOW, &hand);
}

static void remove_now(uint64_t id)
{
    uint32_t kept;
    cyclic_receipt receipt;
    uint64_t busy;
    check(cyclic_begin_remove(&cpu, id, &kept, &receipt, &busy));
}

static uint64_t id_at(uint64_t position)
{
    return 1 + position * gap;
}

/* COUNT ids are there, on a CPU that had PEAK. */
static void fill(uint64_t count, uint64_t peak)
{
    uint64_t top = peak > count ? peak : count;
    for (uint64_t position = 0; position < top; position++)
        add(id_at(position), START);
    for (uint64_t position = top; position > count; position--)
        remove_now(id_at(position - 1));
}

static uint64_t position_of(char pattern, long call, uint64_t count)
{
    switch (pattern) {
    case 's': return count / 2;
    case 'l': return count - 1;
    case 't': return call % count;
    default: return any() % count;
    }
}

static long again(uint64_t count, char pattern)
{
    static int64_t moment = START;
    for (long call = 0; call < CALLS; call++) {
        uint64_t position = position_of(pattern, call, count);
        moment += any() & 1023;
        check(cyclic_reprogram(&cpu, id_at(position), moment));
    }
    return CALLS;
}

static long swing(uint64_t low, uint64_t high)
{
    static uint64_t next = 1000;
    long calls = 0;
    while (calls < CALLS) {
        for (uint64_t id = low; id < high; id++)
            add(next++, START + (any() & 0xffff));
        for (uint64_t id = low; id < high; id++)
            remove_now(--next);
        next += high - low;
        calls += 2 * (high - low);
    }
    return calls;
}

static long churn(uint64_t count, char pattern, int between)
{
    static uint64_t next = 1000000, ids[MOST];
    if (ids[0] == 0)
        for (uint64_t position = 0; position < count; position++)
            ids[position] = id_at(position);
    for (long call = 0; call < CALLS; call += 2) {
        uint64_t *id = &ids[position_of(pattern, call / 2, count)];
        remove_now(*id);
        *id = between ? *id + 1 : next++;
        add(*id, START + (any() & 0xffff));
    }
    return CALLS;
}

static long fire(void)
{
    static int64_t moment = START;
    cyclic_fired fired;
    long expired = 0;
    while (expired < CALLS) {
        moment += 1000;
        for (;;) {
            uint32_t answer = cyclic_fire(&cpu, moment, &fired);
            expired += fired.expired;
            if (answer == 0)
                break;
            if (answer != CYCLIC_HANDLER_REFUSED)
                check(answer);
        }
    }
    return expired;
}

static long soft(void)
{
    static int64_t moment = START;
    cyclic_fired fired;
    long expired = 0;
    while (expired < CALLS) {
        uint64_t hand;
        moment += 1000;
        check(cyclic_fire(&cpu, moment, &fired));
        expired += fired.expired;
        for (;;) {
            check(cyclic_take(&cpu, CYCLIC_LOW, &hand));
            if (hand == 0)
                break;
            check(cyclic_finish(&cpu, CYCLIC_LOW));
        }
    }
    return expired;
}

static double timed(int is_add, uint64_t id)
{
    double begin = now();
    if (is_add)
        check(cyclic_add(&cpu, id, level, START + (int64_t)id, 1000, 0, NULL));
    else
        remove_now(id);
    double took = now() - begin;
    uint64_t hand;
    cyclic_take(&cpu, CYCLIC_LOCK, &hand);
    cyclic_take(&cpu, CYCLIC_LOW, &hand);
    return took;
}

static double longer(double one, double other)
{
    return one > other ? one : other;
}

/* A CPU of its own each round. */
static double grow(uint64_t count, int goes)
{
    double longest = 0;
    check(cyclic_cpu_close(&cpu));
    check(cyclic_cpu_open(UINT32_MAX, UINT64_MAX, &cpu));
    for (uint64_t id = 1; id <= count; id++) {
        double took = timed(1, id);
        longest = goes ? 0 : longer(longest, took);
    }
    for (uint64_t id = 1; goes && id <= 2 * count; id++) {
        longest = longer(longest, timed(0, id));
        longest = longer(longest, timed(1, id + count));
    }
    return longest;
}

int main(int count, char **words)
{
    if (count < 4)
        return 2;
    const char *job = words[1];
    int is_swing = strcmp(job, "swing") == 0, is_fire = strcmp(job, "fire") == 0, is_low = strcmp(job, "low") == 0;
    int is_soft = strcmp(job, "soft") == 0, is_grow = strcmp(job, "grow") == 0;
    int is_between = strcmp(job, "between") == 0, is_churn = is_low || is_between || strcmp(job, "churn") == 0;
    uint64_t first = strtoull(words[2], NULL, 10), peak = strtoull(words[is_swing ? 4 : 3], NULL, 10);
    int rounds = count > 4 + is_swing ? atoi(words[4 + is_swing]) : 15;
    double least = 1e18;
    gap = strcmp(job, "apart") == 0 ? 7 : is_between ? 1 << 20 : 1;
    level = is_low || is_soft ? CYCLIC_LOW : CYCLIC_HIGH;
    check(cyclic_cpu_open(UINT32_MAX, UINT64_MAX, &cpu));
    fill(is_grow ? 0 : first, is_swing || is_fire || is_soft ? peak : 0);
    for (int round = 0; round < rounds; round++) {
        double begin = now();
        if (is_grow) {
            double longest = grow(first, words[3][0] == 'g');
            least = longest < least ? longest : least;
            continue;
        }
        long calls = is_swing ? swing(first, strtoull(words[3], NULL, 10)) : is_fire ? fire() : is_soft ? soft()
            : is_churn ? churn(first, words[3][0], is_between) : again(first, words[3][0]);
        double each = (now() - begin) / calls;
        if (each < least)
            least = each;
    }
    printf("%.2f\n", least);
    return 0;
}
