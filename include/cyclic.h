/*
 * cyclic.h: the proved cyclic subsystem for programs in C and C++.
 *
 * Interval timers of one CPU, as in the illumos kernel: each cyclic expires from a start on, once an interval. At high level its
 * handler is called as it expires. At the two soft levels its pend is raised, and a soft interrupt makes the calls afterwards.
 *
 * What stays proved on this side of the border: each function below answers and changes what its text here says; a call is never
 * doubled and never lost uncounted; and once a removal has answered, no call of its cyclic is handed out. The proof speaks of
 * this library's code. What the caller owes is said at each function; nothing checks it. The sentences that hold for all:
 *
 *   - A pointer points to a value of its type that no other thread uses meanwhile, and is never null. Only `busy` may be null: then
 *     the id that it would get isn't written, and the call does and answers the same.
 *   - A handle is used by one thread at a time, and never copied. Only this library writes its fields.
 *   - The program has malloc, realloc and free from one allocator, and links c/liblibc_c.a of the Rattle kit (see
 *     docs/embedding.md). No function here is called from a signal handler, or in the forked child of a process with threads.
 *
 * Moments and intervals are nanoseconds, from 0 to CYCLIC_NEVER, on any clock that never goes back. An id is a number that the
 * caller gives to a cyclic, from 1 to CYCLIC_LAST_ID: as a position in its own table of handlers. It is the caller's to give
 * no id twice.
 *
 * No function here calls a handler, waits or takes a lock; those that take memory say so. Every one but cyclic_version answers 0 where
 * it is done, and else the number of its refusal. A refused call changes nothing, where its text says nothing else.
 *
 * Where each call may stand is said at its end, and for all calls together in docs/theory.md. An interrupt of a kernel counts as a
 * thread of its own here, and so does each soft interrupt: what it interrupts, between any two instructions, is a call that another thread
 * has begun. A place is one of these:
 *
 *   - Alone: no side of the CPU is in use. The call takes memory or gives it back, so it stands in no interrupt that may come in the
 *     middle of the program's malloc, realloc or free.
 *   - The CPU's thread, for a cyclic_cpu: whoever has the CPU. No other call on this CPU runs meanwhile, so an interrupt that fires is
 *     held off.
 *   - The firing side: whoever has the cyclic_firing. In a kernel the timer's interrupt, at the highest of the three levels; elsewhere
 *     with that interrupt held off. Both soft sides may be inside a call meanwhile, or come in the middle of this one.
 *   - A soft side: whoever has the cyclic_soft. In a kernel the soft interrupt of that level. The firing side may make any of its calls
 *     meanwhile, in the middle of this one too, and so may the other soft side.
 */
#ifndef CYCLIC_H
#define CYCLIC_H

#include <stdbool.h>
#include <stdint.h>

#ifdef __cplusplus
extern "C" {
#endif

/* The version of this header and of the library that stands beside it. */
#define CYCLIC_VERSION_MAJOR 0
#define CYCLIC_VERSION_MINOR 1
#define CYCLIC_VERSION_PATCH 0
#define CYCLIC_VERSION "0.1.0"

/* The same as one number: a million for each major, a thousand for each minor, and the patch. */
#define CYCLIC_VERSION_NUMBER \
    (CYCLIC_VERSION_MAJOR * UINT32_C(1000000) + CYCLIC_VERSION_MINOR * UINT32_C(1000) + CYCLIC_VERSION_PATCH)

/* The cyclics that a CPU can hold; a level has as many indexes. */
#define CYCLIC_CYCLICS 4096u

/* The refusals. */
#define CYCLIC_MEMORY 1u          /* a growth of memory was refused */
#define CYCLIC_BAD_WHEN 2u        /* a start or a moment is negative */
#define CYCLIC_BAD_INTERVAL 3u    /* an interval is below 1 */
#define CYCLIC_BAD_NOW 4u         /* the moment of a fire or an add is CYCLIC_NEVER */
#define CYCLIC_FULL 5u            /* the CPU holds 4,096 cyclics */
#define CYCLIC_EXPANDING 6u       /* a soft level has not followed the last doubling: take from both until they are idle */
#define CYCLIC_BUSY 7u            /* a removal is open: poll it until it answers */
#define CYCLIC_NO_CYCLIC 8u       /* there is no such cyclic, or its removal is open */
#define CYCLIC_COUNT_SPENT 11u    /* the cyclic has expired as often as it may */
#define CYCLIC_HANDLER_REFUSED 12u /* the handler of a cyclic is to be called: see cyclic_fire */
#define CYCLIC_SUSPENDED 25u      /* the CPU is suspended: see cyclic_suspend */
#define CYCLIC_MISUSED 64u        /* the handle is closed or open where it should not be, an argument is out of its range, or
                                     the call is out of turn */
#define CYCLIC_TAKEN 65u          /* a cyclic here has this id */

/* What CYCLIC_HANDLER_REFUSED asks for here: call the handler now. No handler was called or has refused. */
#define CYCLIC_CALL_HANDLER CYCLIC_HANDLER_REFUSED

/* All refusals: each number, its name in the definition (crates/cyc_types), but for the last two, and what it says. */
#define CYCLIC_REFUSALS(EACH)                                                                                                \
    EACH(CYCLIC_MEMORY, "Memory", "a growth of memory was refused")                                                          \
    EACH(CYCLIC_BAD_WHEN, "BadWhen", "a start or a moment is negative")                                                      \
    EACH(CYCLIC_BAD_INTERVAL, "BadInterval", "an interval is below 1")                                                       \
    EACH(CYCLIC_BAD_NOW, "BadNow", "the moment of a fire or an add is never")                                                \
    EACH(CYCLIC_FULL, "Full", "the CPU holds 4,096 cyclics")                                                                 \
    EACH(CYCLIC_EXPANDING, "Expanding", "a soft level has not followed the last doubling: take from both until they are idle") \
    EACH(CYCLIC_BUSY, "Busy", "a removal is open: poll it until it answers")                                                 \
    EACH(CYCLIC_NO_CYCLIC, "NoCyclic", "there is no such cyclic, or its removal is open")                                    \
    EACH(CYCLIC_COUNT_SPENT, "CountSpent", "the cyclic has expired as often as it may")                                      \
    EACH(CYCLIC_HANDLER_REFUSED, "HandlerRefused", "the handler of a cyclic is to be called")                                \
    EACH(CYCLIC_SUSPENDED, "Suspended", "the CPU is suspended")                                                              \
    EACH(CYCLIC_MISUSED, "Misused", "a handle, an argument or the turn of the call is not as it should be")                  \
    EACH(CYCLIC_TAKEN, "Taken", "a cyclic here has this id")

#define CYCLIC_CASE_NAME_(number, name, text) case number: return name;
#define CYCLIC_CASE_TEXT_(number, name, text) case number: return text;

/* The name of a refusal, and what it says; of 0 "Done" and "done", of another number that it is no answer. Both stand anywhere. */
static inline const char *cyclic_refusal_name(uint32_t answer)
{
    switch (answer) {
    CYCLIC_REFUSALS(CYCLIC_CASE_NAME_)
    default: return answer == 0 ? "Done" : "NoAnswer";
    }
}

static inline const char *cyclic_refusal_text(uint32_t answer)
{
    switch (answer) {
    CYCLIC_REFUSALS(CYCLIC_CASE_TEXT_)
    default: return answer == 0 ? "done" : "no answer of this library";
    }
}

#undef CYCLIC_CASE_NAME_
#undef CYCLIC_CASE_TEXT_

/* The moment that is never due (CY_INFINITY of sys/cyclic.h). As an interval it makes a one-shot. */
#define CYCLIC_NEVER INT64_MAX
/* The greatest id. */
#define CYCLIC_LAST_ID ((UINT64_C(1) << 52) - 1)

/* The levels (CY_LOW_LEVEL, CY_LOCK_LEVEL and CY_HIGH_LEVEL of sys/cyclic.h). The first two are the soft levels. */
#define CYCLIC_LOW 0u
#define CYCLIC_LOCK 1u
#define CYCLIC_HIGH 2u

/* A CPU. It begins as CYCLIC_CLOSED; its fields are the library's. */
typedef struct cyclic_cpu {
    void *held;
    bool open;
} cyclic_cpu;

#define CYCLIC_CLOSED { 0, false }

/* What a fire did. */
typedef struct cyclic_fired {
    uint64_t expired; /* the expirations that this call has made */
    uint64_t lost;    /* those of them that were lost at the ceiling, and counted */
    int64_t next;     /* the least expiration from now on, where the fire is done; else 0 */
    uint64_t id;      /* the cyclic in front of which it stopped, 0 where it is done */
} cyclic_fired;

/* The counts of a cyclic. */
typedef struct cyclic_totals_of {
    uint64_t expired; /* its expirations */
    uint64_t lost;    /* those of them that were lost at the ceiling */
    uint32_t pending; /* its calls that are outstanding: pending, in hand, or kept for its removal */
} cyclic_totals_of;

/* What a removal answers. The calls that were made are expired - lost. */
typedef struct cyclic_receipt {
    uint64_t id;      /* the cyclic, 0 where no removal has answered */
    uint64_t expired;
    uint64_t lost;
} cyclic_receipt;

/*
 * The version of the library that is linked, as CYCLIC_VERSION_NUMBER of the header that belongs to it.
 * Stands anywhere.
 */
uint32_t cyclic_version(void);

/*
 * Opens a CPU with no cyclic. `ceiling` is the greatest pend of a cyclic at a soft level, from 1 on: an expiration that finds
 * that many calls outstanding is lost, and counted. No cyclic expires more than `most` times, from 1 on.
 * Takes memory. Refuses with CYCLIC_MISUSED where the handle is open, or a number is 0; then with CYCLIC_MEMORY.
 * Stands alone.
 */
uint32_t cyclic_cpu_open(uint32_t ceiling, uint64_t most, cyclic_cpu *cpu);

/*
 * Closes the CPU and gives its memory back, also where calls are outstanding, which are then never handed out.
 * Refuses with CYCLIC_MISUSED where it is closed.
 * Stands alone: no interrupt fires any more.
 */
uint32_t cyclic_cpu_close(cyclic_cpu *cpu);

/*
 * Adds a cyclic of this id at this level (cyclic_add). It expires from `start` on, also where that has passed, once each
 * `interval`; a start of 0 stands for the next multiple of the interval above `now`, the moment of this call.
 * Takes memory where the CPU's size doubles, and then it switches both soft levels to a greater buffer.
 * Refuses with CYCLIC_MISUSED where the level or the id is none, then CYCLIC_BAD_WHEN for the start, CYCLIC_BAD_INTERVAL,
 * CYCLIC_BAD_WHEN for a negative `now`, CYCLIC_TAKEN, CYCLIC_BAD_NOW, CYCLIC_FULL, and where the size must double CYCLIC_BUSY,
 * CYCLIC_EXPANDING and CYCLIC_MEMORY. `*busy` gets the id of the open removal where it is busy, else 0; where the handle is closed it
 * stays. `busy` may be null.
 * Stands in the CPU's thread, outside of interrupts since it takes memory, and in no handler of a high cyclic.
 */
uint32_t cyclic_add(cyclic_cpu *cpu, uint64_t id, uint32_t level, int64_t start, int64_t interval, int64_t now,
                    uint64_t *busy);

/*
 * Gives the cyclic another next expiration, and changes nothing else (cyclic_reprogram).
 * Refuses with CYCLIC_BAD_WHEN where the moment is negative, then with CYCLIC_NO_CYCLIC.
 * Stands in the CPU's thread, and in no handler of a high cyclic.
 */
uint32_t cyclic_reprogram(cyclic_cpu *cpu, uint64_t id, int64_t moment);

/*
 * Begins the removal of a cyclic (cyclic_remove): from now on it never expires. Where no call of it is outstanding it is done:
 * `*receipt` has its counts, and `*kept` is 0. Else `*kept` gets those calls, the receipt's id is 0, and the removal is open
 * until they are made: go on with cyclic_take and cyclic_finish, and poll it. One removal may be open.
 * Refuses with CYCLIC_NO_CYCLIC, also for a cyclic whose removal has answered; then with CYCLIC_BUSY, and `*busy` gets the id
 * of the open removal, which may be this one. Where it does not refuse so, `*busy` is 0; where the handle is closed it stays. `busy` may
 * be null.
 * Stands in the CPU's thread, and in no handler of a high cyclic. Other calls may stand between it and the answer.
 */
uint32_t cyclic_begin_remove(cyclic_cpu *cpu, uint64_t id, uint32_t *kept, cyclic_receipt *receipt, uint64_t *busy);

/*
 * Ends the open removal where the last of its calls was made: `*receipt` has its counts. Else the receipt's id is 0: calls are
 * outstanding, or no removal is open. Once it has answered, no call of the cyclic is handed out.
 * Stands in the CPU's thread, and in no handler of a high cyclic.
 */
uint32_t cyclic_poll_remove(cyclic_cpu *cpu, cyclic_receipt *receipt);

/*
 * Makes the expirations that are due at `now`, in the order of their moments and ids (cyclic_fire), up to the next one at high
 * level. Answers 0 where all were made; `fired->next` is the moment at which to fire next.
 * Answers CYCLIC_CALL_HANDLER where it stops in front of a high one: `fired->id` is its cyclic. The caller then calls its
 * handler, and calls cyclic_fire again with the same `now`, which counts that expiration and goes on. The counts of the
 * parts of a fire add up to those of one fire.
 * The caller owes: after this answer it has called the handler before it fires again, and meanwhile it makes no other call on
 * this CPU, unless it suspends it: see cyclic_suspend.
 * Refuses with CYCLIC_BAD_WHEN where `now` is negative, and `*fired` stays; with CYCLIC_SUSPENDED while the CPU is suspended, and then
 * with CYCLIC_BAD_NOW: both make nothing, and what was handed out stays handed out; and with CYCLIC_COUNT_SPENT at an expiration of a
 * cyclic that has expired as often as it may, `fired->id`: those before it were made and are counted.
 * Stands in the CPU's thread: in the timer's interrupt where this comes between the other calls on the CPU and never in the middle of
 * one. The handlers of high cyclics stand in the fire.
 */
uint32_t cyclic_fire(cyclic_cpu *cpu, int64_t now, cyclic_fired *fired);

/*
 * Suspends the CPU (cyclic_suspend), as before a machine sleeps: until cyclic_resume no fire is made on it, and cyclic_fire answers
 * CYCLIC_SUSPENDED, with the counts 0. All else goes on: cyclics are added, reprogrammed and removed, calls are taken and finished,
 * and cyclic_next tells the moment that comes next.
 * Where a high expiration was handed out (CYCLIC_CALL_HANDLER) and no fire has counted it, it stays handed out: the refused fires
 * leave it as it was, the first fire that is made after cyclic_resume counts it, and it isn't handed out a second time. So no
 * expiration is called twice, and none is lost. The caller owes: it has called the handler before that fire, and until then it makes
 * no cyclic_add, cyclic_reprogram or cyclic_begin_remove on this CPU.
 * Where the CPU is suspended it changes nothing. Refuses with CYCLIC_MISUSED where the handle is closed. Takes no memory.
 * Stands in the CPU's thread, also in the handler of a high cyclic.
 */
uint32_t cyclic_suspend(cyclic_cpu *cpu);

/*
 * Resumes the CPU (cyclic_resume): fires are made again. The next one makes all that is due by then, as any fire that comes late: a
 * cyclic that is more than a second late expires once. Where the CPU is not suspended it changes nothing.
 * Refuses with CYCLIC_MISUSED where the handle is closed. Takes no memory.
 * Stands where cyclic_suspend does.
 */
uint32_t cyclic_resume(cyclic_cpu *cpu);

/*
 * Takes the cyclic whose handler is to be called next at this soft level, in the order in which they were raised: `*id` is its
 * id, or 0 where no call waits. The caller calls its handler and then cyclic_finish; a take before that answers the same.
 * Refuses with CYCLIC_MISUSED where the level is no soft level, and `*id` stays.
 * Stands in the CPU's thread, and in no handler of a high cyclic. A fire may come between a take and its finish.
 */
uint32_t cyclic_take(cyclic_cpu *cpu, uint32_t level, uint64_t *id);

/*
 * Counts the call that was taken at this soft level. The caller owes: its handler has been called once since the take.
 * Refuses with CYCLIC_MISUSED where the level is no soft level, or nothing was taken there.
 * Stands where cyclic_take does.
 */
uint32_t cyclic_finish(cyclic_cpu *cpu, uint32_t level);

/*
 * The calls of the cyclic that are outstanding, 0 at high level. Refuses with CYCLIC_NO_CYCLIC, and `*pending` is 0.
 * Stands in the CPU's thread, and in no handler of a high cyclic.
 */
uint32_t cyclic_pending(cyclic_cpu *cpu, uint64_t id, uint32_t *pending);

/*
 * The counts of the cyclic, also while its removal is open. Refuses with CYCLIC_NO_CYCLIC, and `*totals` stays.
 * Stands in the CPU's thread, and in no handler of a high cyclic.
 */
uint32_t cyclic_totals(cyclic_cpu *cpu, uint64_t id, cyclic_totals_of *totals);

/*
 * The least expiration of all cyclics, CYCLIC_NEVER where there is none: the moment at which to fire.
 * Stands in the CPU's thread, and in no handler of a high cyclic.
 */
uint32_t cyclic_next(cyclic_cpu *cpu, int64_t *moment);

/*
 * A CPU between three threads: one has the firing side, and one each soft side. Each handle is used by one thread at a time; calls
 * on different handles run side by side, take no lock and wait for nothing. To wake a soft side after a fire is the caller's.
 * A handle may go to another thread by a lock, a thread's start or join, or a sequentially consistent atomic.
 */

/* The firing side. It begins as CYCLIC_CLOSED; its fields are the library's. */
typedef struct cyclic_firing {
    void *held;
    bool open;
} cyclic_firing;

/* The soft side of one level. It begins as CYCLIC_CLOSED; its fields are the library's. */
typedef struct cyclic_soft {
    void *held;
    bool open;
} cyclic_soft;

/* The books of a closed CPU. They begin as CYCLIC_CLOSED; their fields are the library's. */
typedef struct cyclic_books {
    void *held;
    bool open;
} cyclic_books;

/* What a closed CPU says of the cyclic at one index of a soft level: expired = done + pending + lost. */
typedef struct cyclic_book_of {
    uint64_t id;      /* the cyclic, 0 where none is */
    uint64_t expired; /* its expirations */
    uint64_t done;    /* the calls that are done */
    uint64_t lost;    /* those of its expirations that were lost at the ceiling */
    uint32_t pending; /* its calls that are outstanding */
    bool removed;     /* its removal is open */
} cyclic_book_of;

/*
 * Opens a CPU with no cyclic for three threads. As cyclic_cpu_open; refuses with CYCLIC_MISUSED where one of the handles is open.
 * Takes all the memory that the soft levels will use.
 * Stands alone.
 */
uint32_t cyclic_open(uint32_t ceiling, uint64_t most, cyclic_firing *firing, cyclic_soft *lock, cyclic_soft *low);

/*
 * Takes the three handles back, also where calls are outstanding, and gives the books. The caller owes: the three are of one
 * cyclic_open, and no other thread uses one of them any more.
 * Refuses with CYCLIC_MISUSED where one of them is closed or the books are open; takes memory for the books, and refuses with
 * CYCLIC_MEMORY where there is none. Then nothing is changed, and it may be called again.
 * Stands alone: no interrupt uses one of the sides any more. Its stack is the deepest of all (docs/embedding.md).
 */
uint32_t cyclic_close(cyclic_firing *firing, cyclic_soft *lock, cyclic_soft *low, cyclic_books *books);

/*
 * The book of the cyclic at an index, below CYCLIC_CYCLICS, of a soft level; its id is 0 where none is.
 * Refuses with CYCLIC_MISUSED where the books are closed, or the level or the index is none, and `*book` stays.
 * Stands in the thread that has the books, also in an interrupt: it takes no memory.
 */
uint32_t cyclic_book(cyclic_books *books, uint32_t level, uint32_t index, cyclic_book_of *book);

/* Gives the memory of the books back. Refuses with CYCLIC_MISUSED where they are closed. Stands alone. */
uint32_t cyclic_books_close(cyclic_books *books);

/*
 * Gives up a side whose CPU is not to be closed. The memory is given back with the last of the three sides; there are no books.
 * Refuses with CYCLIC_MISUSED where the handle is closed.
 * Stands where no call of this side runs, and outside of interrupts, since it may give memory back; the other sides go on meanwhile.
 */
uint32_t cyclic_firing_drop(cyclic_firing *firing);
uint32_t cyclic_soft_drop(cyclic_soft *soft);

/*
 * The calls of the firing side, each as the one above without `firing` in its name. What is said of calls that are outstanding
 * is what the loads of this call have found; the soft sides go on meanwhile.
 * While the CPU is suspended the soft sides go on.
 * Each stands on the firing side, and none but cyclic_firing_suspend and cyclic_firing_resume in the handler of a high cyclic, which
 * stands in the fire. cyclic_firing_add takes memory, so it stands outside of interrupts, with the timer's interrupt held off; the others
 * may stand in that interrupt, behind the fire.
 */
uint32_t cyclic_firing_add(cyclic_firing *firing, uint64_t id, uint32_t level, int64_t start, int64_t interval, int64_t now,
                           uint64_t *busy);
uint32_t cyclic_firing_reprogram(cyclic_firing *firing, uint64_t id, int64_t moment);
uint32_t cyclic_firing_begin_remove(cyclic_firing *firing, uint64_t id, uint32_t *kept, cyclic_receipt *receipt, uint64_t *busy);
uint32_t cyclic_firing_poll_remove(cyclic_firing *firing, cyclic_receipt *receipt);
uint32_t cyclic_firing_fire(cyclic_firing *firing, int64_t now, cyclic_fired *fired);
uint32_t cyclic_firing_suspend(cyclic_firing *firing);
uint32_t cyclic_firing_resume(cyclic_firing *firing);
uint32_t cyclic_firing_pending(cyclic_firing *firing, uint64_t id, uint32_t *pending);
uint32_t cyclic_firing_totals(cyclic_firing *firing, uint64_t id, cyclic_totals_of *totals);
uint32_t cyclic_firing_next(cyclic_firing *firing, int64_t *moment);

/*
 * Takes the cyclic whose handler is to be called next: `*id` is its id, or 0 where no call waits. The caller calls its
 * handler and then cyclic_soft_finish; a take before that answers the same.
 * Stands on its soft side, in its soft interrupt.
 */
uint32_t cyclic_soft_take(cyclic_soft *soft, uint64_t *id);

/*
 * The cyclic in hand, whose call was taken and is not finished: `*id` is its id, or 0 where none is. Changes nothing.
 * Stands on its soft side, also in the handler that was called.
 */
uint32_t cyclic_soft_hand(cyclic_soft *soft, uint64_t *id);

/*
 * Counts the call that was taken. The caller owes: its handler has been called once since the take.
 * Refuses with CYCLIC_MISUSED where nothing is in hand.
 * Stands on its soft side, behind the handler.
 */
uint32_t cyclic_soft_finish(cyclic_soft *soft);

#ifdef __cplusplus
}
#endif

#endif
