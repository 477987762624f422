/* Refuses each request for memory in turn: an open, an add and a close answer CYCLIC_MEMORY, change nothing and lose no block. The
 * program is linked with --wrap for malloc, realloc and free. */
#include <stdio.h>
#include <stdlib.h>
#include "cyclic.h"

void *__real_malloc(size_t size);
void *__real_realloc(void *block, size_t size);
void __real_free(void *block);
void *__wrap_malloc(size_t size);
void *__wrap_realloc(void *block, size_t size);
void __wrap_free(void *block);

static long requests, refused_one, blocks;

static int refused(void)
{
    return ++requests == refused_one;
}

void *__wrap_malloc(size_t size)
{
    void *block = refused() ? NULL : __real_malloc(size);
    blocks += block != NULL;
    return block;
}

void *__wrap_realloc(void *block, size_t size)
{
    void *grown = refused() ? NULL : __real_realloc(block, size);
    blocks += block == NULL && grown != NULL;
    return grown;
}

void __wrap_free(void *block)
{
    blocks -= block != NULL;
    __real_free(block);
}

#define WANT(what, wanted)                                                                          \
    do {                                                                                            \
        long long got_ = (long long)(what), wanted_ = (long long)(wanted);                          \
        if (got_ != wanted_) {                                                                      \
            fprintf(stderr, "memory.c:%d: %s is %lld, not %lld\n", __LINE__, #what, got_, wanted_); \
            exit(1);                                                                                \
        }                                                                                           \
    } while (0)

/* The requests of an open, each refused once. */
static long opens(void)
{
    for (long n = 1;; n++) {
        cyclic_cpu cpu = CYCLIC_CLOSED;
        uint32_t answer;
        blocks = requests = 0;
        refused_one = n;
        answer = cyclic_cpu_open(3, 3, &cpu);
        refused_one = 0;
        if (answer == 0) {
            WANT(cyclic_cpu_close(&cpu), 0);
            WANT(blocks, 0);
            return n - 1;
        }
        WANT(answer, CYCLIC_MEMORY);
        WANT(blocks, 0);
        WANT(cyclic_cpu_close(&cpu), CYCLIC_MISUSED);
    }
}

/* The requests of the adds of so many cyclics, each refused once: the refused add is made again, and then done. */
static long adds(uint64_t cyclics)
{
    for (long n = 1;; n++) {
        cyclic_cpu cpu = CYCLIC_CLOSED;
        uint64_t busy, id;
        uint32_t pending;
        int was_refused = 0;
        blocks = 0;
        WANT(cyclic_cpu_open(3, 3, &cpu), 0);
        requests = 0;
        refused_one = n;
        for (uint64_t k = 1; k <= cyclics; k++) {
            uint32_t answer = cyclic_add(&cpu, k, CYCLIC_LOW, 5, 5, 0, &busy);
            if (answer != 0) {
                WANT(answer, CYCLIC_MEMORY);
                WANT(was_refused, 0);
                was_refused = 1;
                WANT(cyclic_pending(&cpu, k, &pending), CYCLIC_NO_CYCLIC);
                WANT(cyclic_add(&cpu, k, CYCLIC_LOW, 5, 5, 0, &busy), 0);
            }
            WANT(cyclic_take(&cpu, CYCLIC_LOW, &id), 0);
            WANT(cyclic_take(&cpu, CYCLIC_LOCK, &id), 0);
        }
        refused_one = 0;
        WANT(cyclic_cpu_close(&cpu), 0);
        WANT(blocks, 0);
        if (!was_refused)
            return n - 1;
    }
}

/* The requests of a close between threads, each refused once: the refused close has changed nothing, and is made again. */
static long closes(void)
{
    for (long n = 1;; n++) {
        cyclic_firing firing = CYCLIC_CLOSED;
        cyclic_soft lock = CYCLIC_CLOSED, low = CYCLIC_CLOSED;
        cyclic_books books = CYCLIC_CLOSED;
        cyclic_book_of book;
        cyclic_fired fired;
        uint64_t busy, id;
        uint32_t answer;
        blocks = 0;
        WANT(cyclic_open(3, 3, &firing, &lock, &low), 0);
        WANT(cyclic_firing_add(&firing, 1, CYCLIC_LOW, 5, 5, 0, &busy), 0);
        WANT(cyclic_firing_fire(&firing, 10, &fired), 0);
        WANT(cyclic_soft_take(&low, &id), 0);
        WANT(id, 1);
        requests = 0;
        refused_one = n;
        answer = cyclic_close(&firing, &lock, &low, &books);
        refused_one = 0;
        if (answer != 0) {
            WANT(answer, CYCLIC_MEMORY);
            WANT(cyclic_book(&books, CYCLIC_LOW, 0, &book), CYCLIC_MISUSED);
            WANT(cyclic_soft_hand(&low, &id), 0);
            WANT(id, 1);
            WANT(cyclic_soft_finish(&low), 0);
            WANT(cyclic_close(&firing, &lock, &low, &books), 0);
        }
        WANT(cyclic_book(&books, CYCLIC_LOW, 0, &book), 0);
        WANT(book.id, 1);
        WANT(book.expired, 2);
        WANT(book.done, answer == 0 ? 0 : 1);
        WANT(cyclic_books_close(&books), 0);
        WANT(blocks, 0);
        if (answer == 0)
            return n - 1;
    }
}

int main(void)
{
    long opened = opens(), added = adds(20), closed = closes();
    printf("memory: %ld requests of an open, %ld of 20 adds and %ld of a close, each refused once\n", opened, added, closed);
    return 0;
}
