/* A CPU between threads: every function with good and bad arguments, a close with calls outstanding, and hand-overs between
 * three threads whose sums are exact. The first argument is the number of expirations, a million where there is none. */
#include <pthread.h>
#include <sched.h>
#include <stdatomic.h>
#include <stdio.h>
#include <stdlib.h>
#include "cyclic.h"

#define WANT(what, wanted)                                                                        \
    do {                                                                                          \
        long long got_ = (long long)(what), wanted_ = (long long)(wanted);                        \
        if (got_ != wanted_) {                                                                    \
            fprintf(stderr, "pair.c:%d: %s is %lld, not %lld\n", __LINE__, #what, got_, wanted_); \
            exit(1);                                                                              \
        }                                                                                         \
    } while (0)

#define CYCLICS 16

static void every_answer(void)
{
    cyclic_firing firing = CYCLIC_CLOSED;
    cyclic_soft lock = CYCLIC_CLOSED, low = CYCLIC_CLOSED;
    cyclic_books books = CYCLIC_CLOSED;
    cyclic_book_of book = {7, 7, 7, 7, 7, true};
    cyclic_fired fired;
    cyclic_receipt receipt;
    cyclic_totals_of totals;
    uint64_t busy, id;
    uint32_t kept, pending;
    int64_t moment;

    WANT(cyclic_close(&firing, &lock, &low, &books), CYCLIC_MISUSED);
    WANT(cyclic_soft_take(&lock, &id), CYCLIC_MISUSED);
    WANT(cyclic_soft_finish(&lock), CYCLIC_MISUSED);
    WANT(cyclic_soft_hand(&lock, &id), CYCLIC_MISUSED);
    WANT(cyclic_book(&books, 0, 0, &book), CYCLIC_MISUSED);
    WANT(cyclic_books_close(&books), CYCLIC_MISUSED);
    busy = 7;
    WANT(cyclic_firing_add(&firing, 1, CYCLIC_LOW, 1, 1, 0, &busy), CYCLIC_MISUSED);
    WANT(cyclic_firing_add(&firing, 1, CYCLIC_LOW, 1, 1, 0, NULL), CYCLIC_MISUSED);
    WANT(cyclic_firing_reprogram(&firing, 1, 1), CYCLIC_MISUSED);
    WANT(cyclic_firing_begin_remove(&firing, 1, &kept, &receipt, &busy), CYCLIC_MISUSED);
    WANT(cyclic_firing_begin_remove(&firing, 1, &kept, &receipt, NULL), CYCLIC_MISUSED);
    WANT(busy, 7);
    WANT(cyclic_firing_poll_remove(&firing, &receipt), CYCLIC_MISUSED);
    WANT(cyclic_firing_fire(&firing, 1, &fired), CYCLIC_MISUSED);
    WANT(cyclic_firing_suspend(&firing), CYCLIC_MISUSED);
    WANT(cyclic_firing_resume(&firing), CYCLIC_MISUSED);
    WANT(cyclic_firing_pending(&firing, 1, &pending), CYCLIC_MISUSED);
    WANT(cyclic_firing_totals(&firing, 1, &totals), CYCLIC_MISUSED);
    WANT(cyclic_firing_next(&firing, &moment), CYCLIC_MISUSED);
    WANT(cyclic_open(0, 1, &firing, &lock, &low), CYCLIC_MISUSED);
    WANT(cyclic_open(1, 0, &firing, &lock, &low), CYCLIC_MISUSED);
    WANT(cyclic_open(2, UINT64_MAX, &firing, &lock, &low), 0);
    WANT(cyclic_open(2, UINT64_MAX, &firing, &lock, &low), CYCLIC_MISUSED);

    WANT(cyclic_firing_add(&firing, 0, CYCLIC_LOW, 1, 1, 0, &busy), CYCLIC_MISUSED);
    WANT(cyclic_firing_add(&firing, 5, CYCLIC_LOW, -1, 1, 0, &busy), CYCLIC_BAD_WHEN);
    WANT(cyclic_firing_add(&firing, 5, CYCLIC_LOW, 1, 0, 0, &busy), CYCLIC_BAD_INTERVAL);
    WANT(cyclic_firing_add(&firing, 5, CYCLIC_LOW, 1, 1, CYCLIC_NEVER, &busy), CYCLIC_BAD_NOW);
    WANT(cyclic_firing_add(&firing, 5, CYCLIC_LOW, 1, 10, 0, &busy), 0);
    WANT(cyclic_firing_add(&firing, 5, CYCLIC_LOW, 1, 10, 0, &busy), CYCLIC_TAKEN);
    WANT(busy, 0);
    WANT(cyclic_firing_add(&firing, 5, CYCLIC_LOW, 1, 10, 0, NULL), CYCLIC_TAKEN);
    WANT(cyclic_firing_fire(&firing, 1, &fired), 0);
    WANT(fired.expired, 1);
    WANT(fired.next, 11);
    WANT(cyclic_firing_add(&firing, 6, CYCLIC_LOW, 2, 10, 1, &busy), 0);
    WANT(cyclic_firing_add(&firing, 7, CYCLIC_LOW, 2, 10, 1, &busy), CYCLIC_EXPANDING);
    WANT(cyclic_firing_fire(&firing, 2, &fired), 0);
    WANT(cyclic_soft_finish(&low), CYCLIC_MISUSED);
    WANT(cyclic_soft_hand(&low, &id), 0);
    WANT(id, 0);
    WANT(cyclic_soft_take(&low, &id), 0);
    WANT(id, 5);
    WANT(cyclic_soft_hand(&low, &id), 0);
    WANT(id, 5);
    WANT(cyclic_soft_take(&low, &id), 0);
    WANT(id, 5);
    WANT(cyclic_soft_finish(&low), 0);
    WANT(cyclic_soft_hand(&low, &id), 0);
    WANT(id, 0);
    WANT(cyclic_soft_finish(&low), CYCLIC_MISUSED);
    WANT(cyclic_firing_totals(&firing, 5, &totals), 0);
    WANT(totals.expired, 1);
    WANT(totals.pending, 0);
    WANT(cyclic_firing_pending(&firing, 6, &pending), 0);
    WANT(pending, 1);
    WANT(cyclic_soft_take(&lock, &id), 0);
    WANT(id, 0);
    WANT(cyclic_firing_begin_remove(&firing, 6, &kept, &receipt, &busy), 0);
    WANT(kept, 1);
    WANT(cyclic_firing_begin_remove(&firing, 5, &kept, &receipt, NULL), CYCLIC_BUSY);
    WANT(kept, 0);
    WANT(busy, 0);
    WANT(cyclic_firing_begin_remove(&firing, 5, &kept, &receipt, &busy), CYCLIC_BUSY);
    WANT(busy, 6);
    busy = 7;
    WANT(cyclic_firing_add(&firing, 7, CYCLIC_LOW, 2, 10, 1, NULL), CYCLIC_BUSY);
    WANT(busy, 7);
    WANT(cyclic_firing_add(&firing, 7, CYCLIC_LOW, 2, 10, 1, &busy), CYCLIC_BUSY);
    WANT(busy, 6);
    WANT(cyclic_firing_poll_remove(&firing, &receipt), 0);
    WANT(receipt.id, 0);
    WANT(cyclic_soft_take(&low, &id), 0);
    WANT(id, 6);
    WANT(cyclic_soft_finish(&low), 0);
    WANT(cyclic_firing_poll_remove(&firing, &receipt), 0);
    WANT(receipt.id, 6);
    WANT(receipt.expired, 1);
    WANT(cyclic_firing_begin_remove(&firing, 6, &kept, &receipt, &busy), CYCLIC_NO_CYCLIC);
    WANT(cyclic_firing_reprogram(&firing, 5, 20), 0);
    WANT(cyclic_firing_next(&firing, &moment), 0);
    WANT(moment, 20);
    WANT(cyclic_firing_add(&firing, 9, CYCLIC_HIGH, 40, 10, 2, NULL), 0);
    WANT(cyclic_firing_fire(&firing, 40, &fired), CYCLIC_HANDLER_REFUSED);
    WANT(fired.id, 9);
    WANT(fired.expired, 3);
    WANT(fired.lost, 1);
    WANT(cyclic_firing_fire(&firing, 40, &fired), 0);
    WANT(fired.expired, 1);

    /* Two calls of 5 are outstanding: one in hand, one behind it. */
    WANT(cyclic_soft_take(&low, &id), 0);
    WANT(id, 5);
    WANT(cyclic_close(&firing, &lock, &low, &books), 0);
    WANT(cyclic_soft_take(&low, &id), CYCLIC_MISUSED);
    WANT(cyclic_book(&books, 2, 0, &book), CYCLIC_MISUSED);
    WANT(cyclic_book(&books, 0, CYCLIC_CYCLICS, &book), CYCLIC_MISUSED);
    WANT(book.id, 7);
    WANT(cyclic_book(&books, CYCLIC_LOW, 0, &book), 0);
    WANT(book.id, 5);
    WANT(book.expired, 4);
    WANT(book.done, 1);
    WANT(book.lost, 1);
    WANT(book.pending, 2);
    WANT(book.removed, false);
    WANT(cyclic_book(&books, CYCLIC_LOW, CYCLIC_CYCLICS - 1, &book), 0);
    WANT(book.id, 0);
    WANT(cyclic_book(&books, CYCLIC_LOCK, 0, &book), 0);
    WANT(book.id, 0);
    WANT(cyclic_books_close(&books), 0);
    WANT(cyclic_books_close(&books), CYCLIC_MISUSED);

    /* Sides that are given up one by one. */
    WANT(cyclic_open(2, 2, &firing, &lock, &low), 0);
    WANT(cyclic_soft_drop(&low), 0);
    WANT(cyclic_soft_drop(&low), CYCLIC_MISUSED);
    WANT(cyclic_close(&firing, &lock, &low, &books), CYCLIC_MISUSED);
    WANT(cyclic_firing_drop(&firing), 0);
    WANT(cyclic_firing_drop(&firing), CYCLIC_MISUSED);
    WANT(cyclic_soft_drop(&lock), 0);

    /* With a null `busy` a removal is done, too. */
    WANT(cyclic_open(2, 2, &firing, &lock, &low), 0);
    WANT(cyclic_firing_add(&firing, 1, CYCLIC_LOW, 1, 10, 0, NULL), 0);
    WANT(cyclic_firing_begin_remove(&firing, 1, &kept, &receipt, NULL), 0);
    WANT(receipt.id, 1);
    WANT(cyclic_firing_begin_remove(&firing, 1, &kept, &receipt, NULL), CYCLIC_NO_CYCLIC);
    WANT(cyclic_firing_drop(&firing), 0);
    WANT(cyclic_soft_drop(&lock), 0);
    WANT(cyclic_soft_drop(&low), 0);
}

/* A suspended firing side makes no fire, and keeps what it handed out; its soft sides go on. */
static void a_suspended_side(void)
{
    cyclic_firing firing = CYCLIC_CLOSED;
    cyclic_soft lock = CYCLIC_CLOSED, low = CYCLIC_CLOSED;
    cyclic_fired fired;
    cyclic_totals_of totals;
    uint64_t id;

    WANT(cyclic_open(8, UINT64_MAX, &firing, &lock, &low), 0);
    WANT(cyclic_firing_add(&firing, 1, CYCLIC_LOW, 10, 10, 0, NULL), 0);
    WANT(cyclic_firing_fire(&firing, 10, &fired), 0);
    WANT(cyclic_firing_add(&firing, 2, CYCLIC_HIGH, 15, 10, 10, NULL), 0);
    WANT(cyclic_firing_fire(&firing, 15, &fired), CYCLIC_CALL_HANDLER);
    WANT(fired.id, 2);
    WANT(cyclic_firing_suspend(&firing), 0);
    WANT(cyclic_firing_fire(&firing, 15, &fired), CYCLIC_SUSPENDED);
    WANT(fired.expired, 0);
    WANT(fired.id, 0);
    WANT(cyclic_soft_take(&low, &id), 0);
    WANT(id, 1);
    WANT(cyclic_soft_finish(&low), 0);
    WANT(cyclic_firing_fire(&firing, CYCLIC_NEVER, &fired), CYCLIC_SUSPENDED);
    WANT(cyclic_firing_totals(&firing, 2, &totals), 0);
    WANT(totals.expired, 0);
    WANT(cyclic_firing_resume(&firing), 0);

    /* At 31: 2 at 15, whose call was made, 1 at 20, 2 at 25, 1 at 30. */
    WANT(cyclic_firing_fire(&firing, 31, &fired), CYCLIC_CALL_HANDLER);
    WANT(fired.id, 2);
    WANT(fired.expired, 2);
    WANT(cyclic_firing_fire(&firing, 31, &fired), 0);
    WANT(fired.expired, 2);
    WANT(fired.next, 35);
    WANT(cyclic_firing_totals(&firing, 2, &totals), 0);
    WANT(totals.expired, 2);
    WANT(cyclic_firing_drop(&firing), 0);
    WANT(cyclic_soft_drop(&lock), 0);
    WANT(cyclic_soft_drop(&low), 0);
}

/* A soft side with the calls that its thread makes, and the word that tells it to end. */
struct drainer {
    cyclic_soft soft;
    uint64_t calls[CYCLICS + 1];
    atomic_bool *stop;
};

static void *drain(void *argument)
{
    struct drainer *drainer = argument;
    for (;;) {
        bool last = atomic_load(drainer->stop);
        uint64_t id;
        WANT(cyclic_soft_take(&drainer->soft, &id), 0);
        if (id != 0) {
            drainer->calls[id]++;
            WANT(cyclic_soft_finish(&drainer->soft), 0);
        } else if (last) {
            return NULL;
        } else {
            sched_yield();
        }
    }
}

/* Fires until so many expirations were made, the odd cyclics at the lock level and the even ones at the low level. */
static void hand_overs(uint64_t wanted)
{
    static struct drainer drainers[2] = {{.soft = CYCLIC_CLOSED}, {.soft = CYCLIC_CLOSED}};
    static atomic_bool stop;
    cyclic_firing firing = CYCLIC_CLOSED;
    cyclic_books books = CYCLIC_CLOSED;
    cyclic_fired fired;
    uint64_t busy, made = 0, lost = 0, done = 0;
    uint32_t pending;
    pthread_t threads[2];

    drainers[0].stop = drainers[1].stop = &stop;
    WANT(cyclic_open(1000, UINT64_MAX, &firing, &drainers[1].soft, &drainers[0].soft), 0);
    for (int k = 0; k < 2; k++)
        WANT(pthread_create(&threads[k], NULL, drain, &drainers[k]), 0);
    for (uint64_t id = 1; id <= CYCLICS; id++) {
        uint32_t answer;
        while ((answer = cyclic_firing_add(&firing, id, (uint32_t)(id % 2), 1, 1, 0, &busy)) == CYCLIC_EXPANDING)
            sched_yield();
        WANT(answer, 0);
    }
    for (int64_t now = 1; made < wanted; now++) {
        WANT(cyclic_firing_fire(&firing, now, &fired), 0);
        WANT(fired.expired, CYCLICS);
        made += fired.expired;
        lost += fired.lost;
        /* A soft side that is far behind is waited for, so that most expirations are handed over. */
        for (;;) {
            WANT(cyclic_firing_pending(&firing, 1 + (uint64_t)now % CYCLICS, &pending), 0);
            if (pending <= 500)
                break;
            sched_yield();
        }
    }
    atomic_store(&stop, true);
    for (int k = 0; k < 2; k++)
        WANT(pthread_join(threads[k], NULL), 0);

    WANT(cyclic_close(&firing, &drainers[1].soft, &drainers[0].soft, &books), 0);
    for (uint32_t level = 0; level < 2; level++)
        for (uint32_t index = 0; index < CYCLIC_CYCLICS; index++) {
            cyclic_book_of book;
            WANT(cyclic_book(&books, level, index, &book), 0);
            if (book.id == 0)
                continue;
            WANT(book.pending, 0);
            WANT(book.expired, made / CYCLICS);
            WANT(book.done + book.lost, book.expired);
            WANT(book.done, drainers[level].calls[book.id]);
            done += book.done;
            lost -= book.lost;
        }
    WANT(lost, 0);
    WANT(cyclic_books_close(&books), 0);
    printf("pair: %llu expirations, %llu calls in two threads\n", (unsigned long long)made, (unsigned long long)done);
}

int main(int count, char **words)
{
    every_answer();
    a_suspended_side();
    hand_overs(count > 1 ? strtoull(words[1], NULL, 10) : 1000000);
    return 0;
}
