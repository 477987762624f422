/*
 * A timer service on CLOCK_MONOTONIC: one thread sleeps until the next moment and fires, and two threads drain the soft levels at
 * two priorities. It runs three cyclics for the given number of seconds, removes one on the way, and prints for each what
 * expired, was called and was lost, with the latencies of its calls. It ends with 1 if a sum differs.
 *
 *     examples/embed/ticker 5
 */
#define _GNU_SOURCE
#include <errno.h>
#include <pthread.h>
#include <semaphore.h>
#include <stdatomic.h>
#include <stdio.h>
#include <stdlib.h>
#include <time.h>
#include "cyclic.h"

#define SECOND INT64_C(1000000000)
#define KEPT 65536

/* A cyclic: what its handler does, and what it has seen. Only the thread that calls the handler writes it. */
struct timer {
    const char *name;
    uint32_t level;
    int64_t interval;
    uint64_t calls;
    int64_t late[KEPT];
};

static struct timer timers[] = {
    {"tick", CYCLIC_HIGH, SECOND / 1000, 0, {0}},
    {"poll", CYCLIC_LOCK, SECOND / 250, 0, {0}},
    {"flush", CYCLIC_LOW, SECOND / 100, 0, {0}},
};

#define TIMERS (sizeof timers / sizeof timers[0])

static int64_t begin;

static int64_t now(void)
{
    struct timespec at;
    clock_gettime(CLOCK_MONOTONIC, &at);
    return (int64_t)at.tv_sec * SECOND + at.tv_nsec - begin;
}

/* The handler: how long after the last moment of its series it is called. */
static void call(uint64_t id)
{
    struct timer *timer = &timers[id - 1];
    timer->late[timer->calls++ % KEPT] = now() % timer->interval;
}

static void fail(const char *what)
{
    fprintf(stderr, "ticker: %s\n", what);
    exit(1);
}

/* Every answer has to be 0. */
static void done(uint32_t answer)
{
    if (answer != 0)
        fail(cyclic_refusal_text(answer));
}

/* A soft side: it sleeps until it is woken, and serves its level until no call waits. */
struct drainer {
    cyclic_soft soft;
    sem_t wake;
    atomic_bool stop;
};

static void *drain(void *argument)
{
    struct drainer *drainer = argument;
    bool last = false;
    while (!last) {
        uint64_t id;
        while (sem_wait(&drainer->wake) != 0 && errno == EINTR)
            ;
        last = atomic_load(&drainer->stop);
        while (done(cyclic_soft_take(&drainer->soft, &id)), id != 0) {
            call(id);
            done(cyclic_soft_finish(&drainer->soft));
        }
    }
    return NULL;
}

static int by_size(const void *a, const void *b)
{
    int64_t x = *(const int64_t *)a, y = *(const int64_t *)b;
    return (x > y) - (x < y);
}

/* That of the low level and that of the lock level. The handles stay where they are: they are never copied. */
static struct drainer drainers[2] = {{.soft = CYCLIC_CLOSED}, {.soft = CYCLIC_CLOSED}};

static void wake_both(void)
{
    sem_post(&drainers[0].wake);
    sem_post(&drainers[1].wake);
}

/* Fires what is due and sleeps until the next moment, at most until `until`. */
static void fire_until(cyclic_firing *firing, int64_t until)
{
    for (;;) {
        cyclic_fired fired;
        int64_t moment = now(), next;
        struct timespec at;
        uint32_t answer;
        if (moment >= until)
            return;
        while ((answer = cyclic_firing_fire(firing, moment, &fired)) == CYCLIC_CALL_HANDLER)
            call(fired.id);
        done(answer);
        wake_both();
        next = (fired.next < until ? fired.next : until) + begin;
        at.tv_sec = next / SECOND;
        at.tv_nsec = next % SECOND;
        clock_nanosleep(CLOCK_MONOTONIC, TIMER_ABSTIME, &at, NULL);
    }
}

/* Prints a line, and says whether the sums agree. */
static int report(size_t k, uint64_t expired, uint64_t lost)
{
    struct timer *timer = &timers[k];
    size_t kept = timer->calls < KEPT ? timer->calls : KEPT;
    int64_t zero = 0, *late = kept ? timer->late : &zero;
    qsort(timer->late, kept, sizeof timer->late[0], by_size);
    printf("%-5s expired %llu called %llu lost %llu; late p50 %lld p99 %lld worst %lld us\n", timer->name,
           (unsigned long long)expired, (unsigned long long)timer->calls, (unsigned long long)lost,
           (long long)late[kept / 2] / 1000, (long long)late[kept ? kept * 99 / 100 : 0] / 1000,
           (long long)late[kept ? kept - 1 : 0] / 1000);
    return expired == timer->calls + lost;
}

int main(int count, char **words)
{
    int seconds = count > 1 ? atoi(words[1]) : 5, agree = 1;
    cyclic_firing firing = CYCLIC_CLOSED;
    cyclic_books books = CYCLIC_CLOSED;
    cyclic_receipt removed;
    cyclic_totals_of high;
    pthread_t threads[2];
    uint32_t kept;

    if (seconds < 1)
        fail("give a number of seconds, from 1 on");
    begin = now();
    done(cyclic_open(1000, UINT64_MAX, &firing, &drainers[1].soft, &drainers[0].soft));
    for (int k = 0; k < 2; k++) {
        pthread_attr_t priority;
        struct sched_param param;
        sem_init(&drainers[k].wake, 0, 0);
        /* The lock level has the higher priority, where the process may set one. */
        pthread_attr_init(&priority);
        pthread_attr_setinheritsched(&priority, PTHREAD_EXPLICIT_SCHED);
        pthread_attr_setschedpolicy(&priority, SCHED_FIFO);
        param.sched_priority = 1 + k;
        pthread_attr_setschedparam(&priority, &param);
        if (pthread_create(&threads[k], &priority, drain, &drainers[k]) != 0 &&
            pthread_create(&threads[k], NULL, drain, &drainers[k]) != 0)
            fail("no thread");
        pthread_attr_destroy(&priority);
    }
    for (size_t k = 0; k < TIMERS; k++) {
        uint32_t answer;
        while ((answer = cyclic_firing_add(&firing, k + 1, timers[k].level, 0, timers[k].interval, now(), NULL)) ==
               CYCLIC_EXPANDING)
            wake_both();
        done(answer);
    }

    /* Half of the time for all three, and then the last is removed. */
    fire_until(&firing, seconds * SECOND / 2);
    done(cyclic_firing_begin_remove(&firing, TIMERS, &kept, &removed, NULL));
    while (removed.id == 0) {
        wake_both();
        done(cyclic_firing_poll_remove(&firing, &removed));
    }
    agree &= report(TIMERS - 1, removed.expired, removed.lost);
    fire_until(&firing, seconds * SECOND);
    for (int k = 0; k < 2; k++) {
        atomic_store(&drainers[k].stop, true);
        sem_post(&drainers[k].wake);
        pthread_join(threads[k], NULL);
    }

    done(cyclic_firing_totals(&firing, 1, &high));
    agree &= report(0, high.expired, high.lost);
    done(cyclic_close(&firing, &drainers[1].soft, &drainers[0].soft, &books));
    for (uint32_t index = 0; index < CYCLIC_CYCLICS; index++) {
        cyclic_book_of book;
        done(cyclic_book(&books, CYCLIC_LOCK, index, &book));
        if (book.id != 0)
            agree &= report(book.id - 1, book.expired, book.lost) && book.pending == 0;
    }
    done(cyclic_books_close(&books));
    return agree ? 0 : 1;
}
