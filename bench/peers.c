/*
 * Times an expiration with its call in C: of the proved CPU (include/cyclic.h), at high and at low level, beside libev's and
 * libevent's timers and Linux' timerfd, one descriptor for each timer. Each has 16, 256 and then 4,096 timers of one interval, and a round
 * makes the expirations that are due; the handler counts them.
 *
 * Each round of libev and libevent reads the clock and asks the kernel for events, and a round of timerfd asks the kernel for the
 * descriptors and reads each. A round of the CPU reads the clock once, and fires at the moment one interval after the last.
 */
#define _GNU_SOURCE
#include <stdio.h>
#include <stdlib.h>
#include <string.h>
#include <sys/epoll.h>
#include <sys/resource.h>
#include <sys/timerfd.h>
#include <time.h>
#include <unistd.h>
#include "cyclic.h"
#ifndef NO_LIBEV
#include <ev.h>
#endif
#ifndef NO_LIBEVENT
#include <event2/event.h>
#include <event2/event_struct.h>
#endif

#define INTERVAL 1000 /* nanoseconds */
#define TIMERS 4096
#define ROUNDS 15

static uint64_t calls[TIMERS + 1];

static double seconds(void)
{
    struct timespec at;
    clock_gettime(CLOCK_MONOTONIC, &at);
    return (double)at.tv_sec + (double)at.tv_nsec / 1e9;
}

static void need(int holds, const char *what)
{
    if (!holds) {
        fprintf(stderr, "bench/peers: %s\n", what);
        exit(1);
    }
}

static uint64_t all_calls(void)
{
    uint64_t all = 0;
    for (size_t k = 0; k <= TIMERS; k++)
        all += calls[k];
    return all;
}

/* The nanoseconds of a call, over all that were counted since. */
static double each(double begin)
{
    double spent = seconds() - begin;
    uint64_t all = all_calls();
    need(all > 0, "no timer expired");
    return spent * 1e9 / (double)all;
}

static double cyclic(uint32_t level, size_t count, uint64_t wanted)
{
    cyclic_cpu cpu = CYCLIC_CLOSED;
    cyclic_fired fired;
    uint64_t busy, id;
    int64_t now = 0;
    double begin, spent;
    need(cyclic_cpu_open(UINT32_MAX, UINT64_MAX, &cpu) == 0, "no CPU");
    for (uint64_t k = 1; k <= count; k++) {
        cyclic_take(&cpu, CYCLIC_LOW, &id);
        cyclic_take(&cpu, CYCLIC_LOCK, &id);
        need(cyclic_add(&cpu, k, level, INTERVAL, INTERVAL, 0, &busy) == 0, "no cyclic");
    }
    begin = seconds();
    for (uint64_t made = 0; made < wanted; made += count) {
        (void)seconds();
        now += INTERVAL;
        while (cyclic_fire(&cpu, now, &fired) == CYCLIC_HANDLER_REFUSED)
            calls[fired.id]++;
        if (level == CYCLIC_LOW)
            while (cyclic_take(&cpu, CYCLIC_LOW, &id) == 0 && id != 0) {
                calls[id]++;
                cyclic_finish(&cpu, CYCLIC_LOW);
            }
    }
    spent = each(begin);
    cyclic_cpu_close(&cpu);
    return spent;
}

static double high(size_t count, uint64_t wanted)
{
    return cyclic(CYCLIC_HIGH, count, wanted);
}

static double low(size_t count, uint64_t wanted)
{
    return cyclic(CYCLIC_LOW, count, wanted);
}

#ifdef NO_LIBEV
static double libev(size_t count, uint64_t wanted)
{
    (void)count, (void)wanted;
    return 0;
}
#else
static void on_ev(struct ev_loop *loop, ev_timer *timer, int events)
{
    (void)loop, (void)events;
    calls[(size_t)timer->data]++;
}

static double libev(size_t count, uint64_t wanted)
{
    static ev_timer timers[TIMERS];
    struct ev_loop *loop = ev_loop_new(0);
    double begin, spent;
    need(loop != NULL, "libev has no loop");
    for (size_t k = 0; k < count; k++) {
        ev_timer_init(&timers[k], on_ev, INTERVAL / 1e9, INTERVAL / 1e9);
        timers[k].data = (void *)(k + 1);
        ev_timer_start(loop, &timers[k]);
    }
    begin = seconds();
    while (all_calls() < wanted)
        for (int k = 0; k < 64; k++)
            ev_run(loop, EVRUN_NOWAIT);
    spent = each(begin);
    for (size_t k = 0; k < count; k++)
        ev_timer_stop(loop, &timers[k]);
    ev_loop_destroy(loop);
    return spent;
}
#endif

#ifdef NO_LIBEVENT
static double libevent(size_t count, uint64_t wanted)
{
    (void)count, (void)wanted;
    return 0;
}
#else
static void on_event(evutil_socket_t fd, short what, void *id)
{
    (void)fd, (void)what;
    calls[(size_t)id]++;
}

static double libevent(size_t count, uint64_t wanted)
{
    static struct event timers[TIMERS];
    struct event_config *config = event_config_new();
    struct event_base *base;
    struct timeval interval = { 0, INTERVAL / 1000 };
    double begin, spent;
    /* its default clock stands still for milliseconds */
    need(config != NULL && event_config_set_flag(config, EVENT_BASE_FLAG_PRECISE_TIMER) == 0, "libevent has no precise clock");
    base = event_base_new_with_config(config);
    need(base != NULL, "libevent has no base");
    event_config_free(config);
    for (size_t k = 0; k < count; k++) {
        event_assign(&timers[k], base, -1, EV_PERSIST, on_event, (void *)(k + 1));
        event_add(&timers[k], &interval);
    }
    begin = seconds();
    while (all_calls() < wanted)
        for (int k = 0; k < 64; k++)
            event_base_loop(base, EVLOOP_ONCE | EVLOOP_NONBLOCK);
    spent = each(begin);
    for (size_t k = 0; k < count; k++)
        event_del(&timers[k]);
    event_base_free(base);
    return spent;
}
#endif

static double timerfd(size_t count, uint64_t wanted)
{
    static int timers[TIMERS];
    struct itimerspec when = { { 0, INTERVAL }, { 0, INTERVAL } };
    struct epoll_event ready[TIMERS];
    int set = epoll_create1(0);
    double begin, spent;
    need(set >= 0, "no epoll set");
    for (size_t k = 0; k < count; k++) {
        struct epoll_event event = { .events = EPOLLIN, .data.u32 = (uint32_t)k };
        timers[k] = timerfd_create(CLOCK_MONOTONIC, TFD_NONBLOCK);
        need(timers[k] >= 0, "no timerfd");
        need(epoll_ctl(set, EPOLL_CTL_ADD, timers[k], &event) == 0, "no timerfd in the epoll set");
        need(timerfd_settime(timers[k], 0, &when, NULL) == 0, "no interval");
    }
    begin = seconds();
    while (all_calls() < wanted)
        for (int r = 0; r < 64; r++) {
            int found = epoll_wait(set, ready, TIMERS, 0);
            for (int k = 0; k < found; k++) {
                uint64_t expirations;
                if (read(timers[ready[k].data.u32], &expirations, sizeof expirations) == sizeof expirations)
                    calls[ready[k].data.u32 + 1]++;
            }
        }
    spent = each(begin);
    for (size_t k = 0; k < count; k++)
        close(timers[k]);
    close(set);
    return spent;
}

static int by_size(const void *a, const void *b)
{
    double x = *(const double *)a, y = *(const double *)b;
    return (x > y) - (x < y);
}

int main(void)
{
    static double (*const sides[])(size_t, uint64_t) = { high, low, libev, libevent, timerfd };
    enum { SIDES = sizeof sides / sizeof sides[0] };
    /* a descriptor for each timer */
    struct rlimit files;
    if (getrlimit(RLIMIT_NOFILE, &files) == 0) {
        files.rlim_cur = files.rlim_max;
        setrlimit(RLIMIT_NOFILE, &files);
    }
    puts("| Timers | `cyclic_fire` at high level, ns | at low level, taken and finished, ns | libev, ns | libevent, ns | timerfd, ns |\n"
         "|--:|--:|--:|--:|--:|--:|");
    for (size_t count = 16; count <= TIMERS; count *= 16) {
        double times[SIDES][ROUNDS];
        for (size_t k = 0; k < ROUNDS; k++)
            for (size_t s = 0; s < SIDES; s++) {
                memset(calls, 0, sizeof calls);
                times[s][k] = sides[s](count, s == SIDES - 1 ? 10000 : 200000);
            }
        printf("| %zu |", count);
        for (size_t s = 0; s < SIDES; s++) {
            qsort(times[s], ROUNDS, sizeof times[s][0], by_size);
            if (times[s][ROUNDS / 2] > 0)
                printf(" %.1f |", times[s][ROUNDS / 2]);
            else
                printf(" none |");
        }
        puts("");
    }
    return 0;
}
