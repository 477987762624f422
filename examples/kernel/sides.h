/* The two sides of the CPU: the timer's interrupt fires, and the main loop is both soft sides. */
#ifndef SIDES_H
#define SIDES_H

#include "cyclic.h"
#include "machine.h"

/* The ids are from 1 below this. */
#define IDS 1024

enum state { NONE, LIVE, MARKED, REMOVED };

/* A cyclic, at the place of its id. What its handler counts, only the side that calls the handler writes. */
struct timer {
    volatile enum state state;
    uint32_t level;
    int64_t due, interval;   /* its series, kept beside the library */
    uint64_t expected;       /* the expirations that were due by its series */
    volatile uint64_t calls; /* of its handler */
    cyclic_totals_of totals; /* at the end */
    cyclic_receipt receipt;
};

struct sides {
    cyclic_firing firing;
    cyclic_soft lock, low;
    struct timer timers[IDS];
    uint64_t last;         /* the greatest id so far */
    volatile uint64_t open_removal;
    uint64_t histogram[64]; /* of expirations: how many came from 2^(k-1) on and below 2^k nanoseconds late */
    uint64_t fires, expirations, high_calls, soft_calls;
    uint64_t receipts, kept_removals, kept, rearmed;
    uint64_t memory_requests; /* those from the interrupt */
    uint64_t in_library;      /* interrupts that came inside the library */
};
extern struct sides sides;
extern uint64_t wrongs; /* how many things were wrong so far */

/* What the main loop asks of the interrupt, one at a time: the removal of a cyclic, or another next expiration. */
enum wish { NOTHING, REMOVE, REARM };
struct request {
    volatile enum wish wish;
    volatile uint64_t id;
    volatile int64_t delay;
};
extern struct request request;

/* Says what is wrong, and remembers that something is. */
void wrong(const char *what, uint64_t id);

/* Opens the CPU, with no cyclic. */
void sides_open(uint32_t ceiling);

/* Adds the next cyclic; interrupts are held off. Answers what the library has answered; `start` as there. */
uint32_t sides_add(uint32_t level, int64_t start, int64_t interval, int64_t now);

/* The soft interrupts of both levels: up to 64 calls of the lock level, and one call of the low level at a time. `ended` is called in each
 * handler, with the id of its cyclic. */
void sides_serve(void (*ended)(uint64_t id));

/* Fires at this moment, does what was asked, and polls the open removal: the work of the timer's interrupt. */
void sides_fire(int64_t moment);

/* Closes the CPU, and compares the sums of each cyclic: what the library has counted, what the kernel has, and the books. Where it is
 * to show them it prints them. */
void sides_close(bool show);

#endif
