/* The bytes that a CPU, a CPU between its sides and a system of 16 CPUs have asked for, at several numbers of cyclics. The program is linked
 * with --wrap for malloc, realloc and free. */
#include "cyclic.h"
#include <stdio.h>
#include <stdlib.h>

void *__real_malloc(size_t size);
void *__real_realloc(void *block, size_t size);
void __real_free(void *block);
void *__wrap_malloc(size_t size);
void *__wrap_realloc(void *block, size_t size);
void __wrap_free(void *block);

/* crates/bench_loops: a system of so many cyclics, and so many operations on it */
uint64_t bench_system_reprogram(uint64_t cyclics, uint64_t operations);

/* What is asked for and not given back: now, and after the last request. Its size stands before each block. */
static size_t live, at_last;

#define BEFORE 16

static void *counted(char *block, size_t size)
{
    if (block == NULL)
        return NULL;
    *(size_t *)block = size;
    live += size;
    at_last = live;
    return block + BEFORE;
}

static char *uncounted(char *block)
{
    if (block == NULL)
        return NULL;
    live -= *(size_t *)(block - BEFORE);
    return block - BEFORE;
}

void *__wrap_malloc(size_t size)
{
    return counted(__real_malloc(size + BEFORE), size);
}

void *__wrap_realloc(void *block, size_t size)
{
    return counted(__real_realloc(uncounted(block), size + BEFORE), size);
}

void __wrap_free(void *block)
{
    __real_free(uncounted(block));
}

static void check(uint32_t answer)
{
    if (answer != 0) {
        fprintf(stderr, "bytes: refused %u\n", answer);
        exit(1);
    }
}

/* A CPU with so many cyclics, of all levels. */
static size_t of_cpu(uint64_t cyclics)
{
    cyclic_cpu cpu = CYCLIC_CLOSED;
    size_t before = live, bytes;
    check(cyclic_cpu_open(UINT32_MAX, UINT64_MAX, &cpu));
    for (uint64_t id = 1; id <= cyclics; id++) {
        uint64_t busy, hand;
        check(cyclic_add(&cpu, id, id % 3, 10, 10, 0, &busy));
        /* where the CPU grew, both soft levels follow */
        check(cyclic_take(&cpu, CYCLIC_LOW, &hand));
        check(cyclic_take(&cpu, CYCLIC_LOCK, &hand));
    }
    bytes = live - before;
    check(cyclic_cpu_close(&cpu));
    return bytes;
}

/* The same between its three sides: its levels are rings. */
static size_t of_sides(uint64_t cyclics)
{
    cyclic_firing firing = CYCLIC_CLOSED;
    cyclic_soft lock = CYCLIC_CLOSED, low = CYCLIC_CLOSED;
    size_t before = live, bytes;
    check(cyclic_open(UINT32_MAX, UINT64_MAX, &firing, &lock, &low));
    for (uint64_t id = 1; id <= cyclics; id++) {
        uint64_t busy, hand;
        check(cyclic_firing_add(&firing, id, id % 3, 10, 10, 0, &busy));
        check(cyclic_soft_take(&lock, &hand));
        check(cyclic_soft_take(&low, &hand));
    }
    bytes = live - before;
    check(cyclic_firing_drop(&firing));
    check(cyclic_soft_drop(&lock));
    check(cyclic_soft_drop(&low));
    return bytes;
}

/* A system of 16 CPUs over plain levels with so many cyclics together. */
static size_t of_system(uint64_t cyclics)
{
    size_t before = live;
    at_last = live;
    bench_system_reprogram(cyclics, 0);
    return at_last - before;
}

int main(void)
{
    static const uint64_t counts[] = {1, 16, 256, 4096};
    printf("| Cyclics on a CPU | A CPU, bytes | Between its sides, bytes | A system with so many on each of 16 CPUs, bytes |\n");
    printf("|--:|--:|--:|--:|\n");
    for (size_t k = 0; k < sizeof counts / sizeof counts[0]; k++)
        printf("| %llu | %zu | %zu | %zu |\n", (unsigned long long)counts[k], of_cpu(counts[k]), of_sides(counts[k]),
               of_system(16 * counts[k]));
    return 0;
}
