/*
 * Times an expiration by cyclic_fire from C, and a raise, take and finish from C, beside the same calls inside the library
 * (crates/bench_loops): a fire for each interval, over 16 and 256 cyclics of one interval. On both sides the handler counts its calls.
 */
#define _GNU_SOURCE
#include <stdio.h>
#include <stdlib.h>
#include <string.h>
#include <time.h>
#include "cyclic.h"

uint64_t bench_fire_high(const uint64_t *intervals, size_t count, uint64_t step, uint64_t fires);
uint64_t bench_fire_low(const uint64_t *intervals, size_t count, uint64_t step, uint64_t fires);

#define INTERVAL 1000
#define ROUNDS 15

static uint64_t calls[257];

static double seconds(void)
{
    struct timespec at;
    clock_gettime(CLOCK_MONOTONIC, &at);
    return (double)at.tv_sec + (double)at.tv_nsec / 1e9;
}

static cyclic_cpu started(uint32_t level, size_t count)
{
    cyclic_cpu cpu = CYCLIC_CLOSED;
    uint64_t busy, id;
    if (cyclic_cpu_open(UINT32_MAX, UINT64_MAX, &cpu) != 0)
        exit(1);
    for (uint64_t k = 1; k <= count; k++) {
        cyclic_take(&cpu, CYCLIC_LOW, &id);
        cyclic_take(&cpu, CYCLIC_LOCK, &id);
        if (cyclic_add(&cpu, k, level, INTERVAL, INTERVAL, 0, &busy) != 0)
            exit(1);
    }
    memset(calls, 0, sizeof calls);
    return cpu;
}

/* The nanoseconds of an expiration from C, with its call. */
static double from_c(uint32_t level, size_t count, uint64_t fires)
{
    cyclic_cpu cpu = started(level, count);
    cyclic_fired fired;
    uint64_t id;
    double begin = seconds(), end;
    for (uint64_t k = 1; k <= fires; k++) {
        while (cyclic_fire(&cpu, (int64_t)(k * INTERVAL), &fired) == CYCLIC_HANDLER_REFUSED)
            calls[fired.id]++;
        if (level == CYCLIC_LOW)
            while (cyclic_take(&cpu, CYCLIC_LOW, &id) == 0 && id != 0) {
                calls[id]++;
                cyclic_finish(&cpu, CYCLIC_LOW);
            }
    }
    end = seconds();
    for (size_t k = 1; k <= count; k++)
        if (calls[k] != fires)
            exit(1);
    cyclic_cpu_close(&cpu);
    return (end - begin) * 1e9 / (double)(fires * count);
}

/* The same inside the library. */
static double inside(uint32_t level, size_t count, uint64_t fires)
{
    static uint64_t intervals[256];
    double begin, end;
    for (size_t k = 0; k < count; k++)
        intervals[k] = INTERVAL;
    begin = seconds();
    if ((level == CYCLIC_LOW ? bench_fire_low : bench_fire_high)(intervals, count, INTERVAL, fires) == 0)
        exit(1);
    end = seconds();
    return (end - begin) * 1e9 / (double)(fires * count);
}

static int by_size(const void *a, const void *b)
{
    double x = *(const double *)a, y = *(const double *)b;
    return (x > y) - (x < y);
}

int main(void)
{
    puts("| Cyclics | Level | From C, ns | Inside, ns | The border, ns |\n|--|--|--|--|--|");
    for (size_t count = 16; count <= 256; count *= 16)
        for (uint32_t level = CYCLIC_LOW; level <= CYCLIC_HIGH; level += 2) {
            double c[ROUNDS], in[ROUNDS];
            uint64_t fires = 400000 / count;
            for (int k = 0; k < ROUNDS; k++) {
                c[k] = from_c(level, count, fires);
                in[k] = inside(level, count, fires);
            }
            qsort(c, ROUNDS, sizeof c[0], by_size);
            qsort(in, ROUNDS, sizeof in[0], by_size);
            printf("| %zu | %s | %.1f | %.1f | %.1f |\n", count, level == CYCLIC_LOW ? "low" : "high", c[ROUNDS / 2],
                   in[ROUNDS / 2], c[ROUNDS / 2] - in[ROUNDS / 2]);
        }
    return 0;
}
