/* Calls every function of cyclic.h with good and bad arguments. Ends with 1 at the first answer that differs. */
#include <stdio.h>
#include <stdlib.h>
#include "cyclic.h"

#define WANT(what, wanted)                                                                        \
    do {                                                                                          \
        long long got_ = (long long)(what), wanted_ = (long long)(wanted);                        \
        if (got_ != wanted_) {                                                                    \
            fprintf(stderr, "cpu.c:%d: %s is %lld, not %lld\n", __LINE__, #what, got_, wanted_);  \
            exit(1);                                                                              \
        }                                                                                         \
    } while (0)

static uint64_t busy, id;
static uint32_t kept, pending;
static cyclic_receipt receipt;
static cyclic_fired fired;
static cyclic_totals_of totals;
static int64_t moment;

static void opened(cyclic_cpu *cpu, uint32_t ceiling, uint64_t most)
{
    cyclic_cpu closed = CYCLIC_CLOSED;
    *cpu = closed;
    WANT(cyclic_cpu_open(ceiling, most, cpu), 0);
}

/* Serves a level until it is idle or `budget` calls were made, and gives the calls. */
static uint32_t serve(cyclic_cpu *cpu, uint32_t level, uint32_t budget)
{
    uint32_t calls = 0;
    while (calls < budget) {
        WANT(cyclic_take(cpu, level, &id), 0);
        if (id == 0)
            break;
        WANT(cyclic_finish(cpu, level), 0);
        calls++;
    }
    return calls;
}

static void a_closed_handle_is_refused(void)
{
    cyclic_cpu cpu = CYCLIC_CLOSED;
    WANT(cyclic_cpu_close(&cpu), CYCLIC_MISUSED);
    busy = 7;
    WANT(cyclic_add(&cpu, 1, CYCLIC_LOW, 1, 1, 0, &busy), CYCLIC_MISUSED);
    WANT(cyclic_add(&cpu, 1, CYCLIC_LOW, 1, 1, 0, NULL), CYCLIC_MISUSED);
    WANT(cyclic_reprogram(&cpu, 1, 1), CYCLIC_MISUSED);
    WANT(cyclic_begin_remove(&cpu, 1, &kept, &receipt, &busy), CYCLIC_MISUSED);
    WANT(cyclic_begin_remove(&cpu, 1, &kept, &receipt, NULL), CYCLIC_MISUSED);
    WANT(busy, 7);
    WANT(cyclic_poll_remove(&cpu, &receipt), CYCLIC_MISUSED);
    WANT(cyclic_fire(&cpu, 1, &fired), CYCLIC_MISUSED);
    WANT(cyclic_suspend(&cpu), CYCLIC_MISUSED);
    WANT(cyclic_resume(&cpu), CYCLIC_MISUSED);
    WANT(cyclic_take(&cpu, CYCLIC_LOW, &id), CYCLIC_MISUSED);
    WANT(cyclic_finish(&cpu, CYCLIC_LOW), CYCLIC_MISUSED);
    WANT(cyclic_pending(&cpu, 1, &pending), CYCLIC_MISUSED);
    WANT(cyclic_totals(&cpu, 1, &totals), CYCLIC_MISUSED);
    WANT(cyclic_next(&cpu, &moment), CYCLIC_MISUSED);
    WANT(cyclic_cpu_open(0, 1, &cpu), CYCLIC_MISUSED);
    WANT(cyclic_cpu_open(1, 0, &cpu), CYCLIC_MISUSED);
    WANT(cyclic_cpu_open(1, 1, &cpu), 0);
    WANT(cyclic_cpu_open(1, 1, &cpu), CYCLIC_MISUSED);
    WANT(cyclic_cpu_close(&cpu), 0);
    WANT(cyclic_cpu_close(&cpu), CYCLIC_MISUSED);
    WANT(cyclic_cpu_open(1, 1, &cpu), 0);
    WANT(cyclic_cpu_close(&cpu), 0);
}

static void an_add_is_refused_in_order(void)
{
    cyclic_cpu cpu;
    opened(&cpu, UINT32_MAX, UINT64_MAX);
    WANT(cyclic_add(&cpu, 1, 3, 1, 1, 0, &busy), CYCLIC_MISUSED);
    WANT(cyclic_add(&cpu, 0, CYCLIC_LOW, -1, 1, 0, &busy), CYCLIC_MISUSED);
    WANT(cyclic_add(&cpu, CYCLIC_LAST_ID + 1, CYCLIC_LOW, 1, 1, 0, &busy), CYCLIC_MISUSED);
    WANT(cyclic_add(&cpu, 1, CYCLIC_LOW, -1, 0, 0, &busy), CYCLIC_BAD_WHEN);
    WANT(cyclic_add(&cpu, 1, CYCLIC_LOW, 0, 0, -1, &busy), CYCLIC_BAD_INTERVAL);
    WANT(cyclic_add(&cpu, 1, CYCLIC_LOW, 0, 1, -1, &busy), CYCLIC_BAD_WHEN);
    WANT(cyclic_add(&cpu, 1, CYCLIC_LOW, 0, 1, CYCLIC_NEVER, &busy), CYCLIC_BAD_NOW);
    WANT(cyclic_add(&cpu, CYCLIC_LAST_ID, CYCLIC_HIGH, 5, 10, 0, &busy), 0);
    WANT(cyclic_add(&cpu, CYCLIC_LAST_ID, CYCLIC_LOW, 5, 10, CYCLIC_NEVER, &busy), CYCLIC_TAKEN);
    WANT(cyclic_add(&cpu, CYCLIC_LAST_ID, CYCLIC_LOW, 5, 10, CYCLIC_NEVER, NULL), CYCLIC_TAKEN);
    WANT(cyclic_cpu_close(&cpu), 0);
}

static void a_full_cpu_is_refused(void)
{
    cyclic_cpu cpu;
    opened(&cpu, 1, 1);
    for (uint64_t k = 1; k <= CYCLIC_CYCLICS; k++) {
        WANT(cyclic_add(&cpu, k, (uint32_t)(k % 3), 10, 10, 0, &busy), 0);
        WANT(serve(&cpu, CYCLIC_LOW, 1), 0);
        WANT(serve(&cpu, CYCLIC_LOCK, 1), 0);
    }
    WANT(cyclic_add(&cpu, CYCLIC_CYCLICS + 1, CYCLIC_LOW, 10, 10, 0, &busy), CYCLIC_FULL);
    WANT(cyclic_cpu_close(&cpu), 0);
}

static void an_add_waits_for_both_levels(void)
{
    cyclic_cpu cpu;
    opened(&cpu, 8, 8);
    WANT(cyclic_add(&cpu, 1, CYCLIC_LOW, 1, 10, 0, &busy), 0);
    WANT(cyclic_add(&cpu, 2, CYCLIC_LOW, 2, 10, 0, &busy), 0);
    WANT(cyclic_add(&cpu, 3, CYCLIC_LOW, 3, 10, 0, &busy), CYCLIC_EXPANDING);
    WANT(serve(&cpu, CYCLIC_LOW, 8), 0);
    WANT(cyclic_add(&cpu, 3, CYCLIC_LOW, 3, 10, 0, &busy), CYCLIC_EXPANDING);
    WANT(serve(&cpu, CYCLIC_LOCK, 8), 0);
    WANT(cyclic_add(&cpu, 3, CYCLIC_LOW, 3, 10, 0, &busy), 0);
    WANT(cyclic_cpu_close(&cpu), 0);
}

static void a_fire_stops_in_front_of_each_high_call(void)
{
    cyclic_cpu cpu;
    opened(&cpu, 2, 4);
    WANT(cyclic_next(&cpu, &moment), 0);
    WANT(moment, CYCLIC_NEVER);
    WANT(cyclic_add(&cpu, 1, CYCLIC_HIGH, 10, 10, 0, &busy), 0);
    WANT(cyclic_add(&cpu, 2, CYCLIC_HIGH, 10, 10, 0, &busy), 0);
    WANT(serve(&cpu, CYCLIC_LOW, 1), 0);
    WANT(serve(&cpu, CYCLIC_LOCK, 1), 0);
    WANT(cyclic_add(&cpu, 3, CYCLIC_LOCK, 5, 5, 0, &busy), 0);
    WANT(cyclic_next(&cpu, &moment), 0);
    WANT(moment, 5);
    WANT(cyclic_fire(&cpu, -1, &fired), CYCLIC_BAD_WHEN);
    WANT(cyclic_fire(&cpu, CYCLIC_NEVER, &fired), CYCLIC_BAD_NOW);
    WANT(fired.expired, 0);

    /* At 20: 3 at 5; 1, 2, 3 at 10; 3 at 15; 1, 2, 3 at 20. Two calls of 3 are outstanding at most. */
    WANT(cyclic_fire(&cpu, 20, &fired), CYCLIC_HANDLER_REFUSED);
    WANT(fired.id, 1);
    WANT(fired.expired, 1);
    WANT(fired.lost, 0);
    WANT(fired.next, 0);
    WANT(cyclic_fire(&cpu, 20, &fired), CYCLIC_HANDLER_REFUSED);
    WANT(fired.id, 2);
    WANT(fired.expired, 1);
    WANT(cyclic_fire(&cpu, 20, &fired), CYCLIC_HANDLER_REFUSED);
    WANT(fired.id, 1);
    WANT(fired.expired, 3);
    WANT(fired.lost, 1);
    WANT(cyclic_fire(&cpu, 20, &fired), CYCLIC_HANDLER_REFUSED);
    WANT(fired.id, 2);
    WANT(fired.expired, 1);
    WANT(cyclic_fire(&cpu, 20, &fired), 0);
    WANT(fired.id, 0);
    WANT(fired.expired, 2);
    WANT(fired.lost, 1);
    WANT(fired.next, 25);
    WANT(cyclic_fire(&cpu, 20, &fired), 0);
    WANT(fired.expired, 0);
    WANT(cyclic_totals(&cpu, 3, &totals), 0);
    WANT(totals.expired, 4);
    WANT(totals.lost, 2);
    WANT(totals.pending, 2);
    WANT(cyclic_totals(&cpu, 1, &totals), 0);
    WANT(totals.expired, 2);
    WANT(cyclic_pending(&cpu, 3, &pending), 0);
    WANT(pending, 2);
    WANT(cyclic_pending(&cpu, 1, &pending), 0);
    WANT(pending, 0);

    /* 3 has expired as often as it may. */
    WANT(cyclic_fire(&cpu, 25, &fired), CYCLIC_COUNT_SPENT);
    WANT(fired.id, 3);
    WANT(fired.expired, 0);
    WANT(cyclic_pending(&cpu, 4, &pending), CYCLIC_NO_CYCLIC);
    WANT(pending, 0);
    WANT(cyclic_pending(&cpu, 0, &pending), CYCLIC_NO_CYCLIC);
    WANT(cyclic_totals(&cpu, 4, &totals), CYCLIC_NO_CYCLIC);
    WANT(cyclic_totals(&cpu, UINT64_MAX, &totals), CYCLIC_NO_CYCLIC);
    WANT(totals.expired, 2);

    /* Calls are outstanding, and the memory is given back. */
    WANT(cyclic_cpu_close(&cpu), 0);
}

static void a_call_is_taken_and_finished(void)
{
    cyclic_cpu cpu;
    opened(&cpu, 8, UINT64_MAX);
    WANT(cyclic_take(&cpu, CYCLIC_HIGH, &id), CYCLIC_MISUSED);
    WANT(cyclic_finish(&cpu, 7), CYCLIC_MISUSED);
    WANT(cyclic_take(&cpu, CYCLIC_LOCK, &id), 0);
    WANT(id, 0);
    WANT(cyclic_finish(&cpu, CYCLIC_LOCK), CYCLIC_MISUSED);
    WANT(cyclic_add(&cpu, 9, CYCLIC_LOW, 1, 1, 0, &busy), 0);
    WANT(cyclic_fire(&cpu, 2, &fired), 0);
    WANT(fired.expired, 2);
    WANT(cyclic_take(&cpu, CYCLIC_LOCK, &id), 0);
    WANT(id, 0);
    WANT(cyclic_take(&cpu, CYCLIC_LOW, &id), 0);
    WANT(id, 9);
    WANT(cyclic_take(&cpu, CYCLIC_LOW, &id), 0);
    WANT(id, 9);
    WANT(cyclic_finish(&cpu, CYCLIC_LOCK), CYCLIC_MISUSED);
    WANT(cyclic_finish(&cpu, CYCLIC_LOW), 0);
    WANT(cyclic_finish(&cpu, CYCLIC_LOW), CYCLIC_MISUSED);
    WANT(cyclic_pending(&cpu, 9, &pending), 0);
    WANT(pending, 1);
    WANT(serve(&cpu, CYCLIC_LOW, 8), 1);
    WANT(cyclic_reprogram(&cpu, 9, -1), CYCLIC_BAD_WHEN);
    WANT(cyclic_reprogram(&cpu, 8, 1), CYCLIC_NO_CYCLIC);
    WANT(cyclic_reprogram(&cpu, 0, 1), CYCLIC_NO_CYCLIC);
    WANT(cyclic_reprogram(&cpu, 9, 70), 0);
    WANT(cyclic_next(&cpu, &moment), 0);
    WANT(moment, 70);
    WANT(cyclic_reprogram(&cpu, 9, CYCLIC_NEVER), 0);
    WANT(cyclic_fire(&cpu, CYCLIC_NEVER - 1, &fired), 0);
    WANT(fired.expired, 0);
    WANT(fired.next, CYCLIC_NEVER);
    WANT(cyclic_cpu_close(&cpu), 0);
}

static void a_removal_waits_for_its_calls(void)
{
    cyclic_cpu cpu;
    opened(&cpu, 8, UINT64_MAX);
    WANT(cyclic_poll_remove(&cpu, &receipt), 0);
    WANT(receipt.id, 0);
    WANT(cyclic_begin_remove(&cpu, 1, &kept, &receipt, &busy), CYCLIC_NO_CYCLIC);
    WANT(cyclic_begin_remove(&cpu, 0, &kept, &receipt, &busy), CYCLIC_NO_CYCLIC);
    WANT(cyclic_add(&cpu, 1, CYCLIC_LOW, 1, 1, 0, &busy), 0);
    WANT(cyclic_fire(&cpu, 3, &fired), 0);
    WANT(cyclic_begin_remove(&cpu, 1, &kept, &receipt, &busy), 0);
    WANT(kept, 3);
    WANT(receipt.id, 0);
    WANT(cyclic_begin_remove(&cpu, 1, &kept, &receipt, &busy), CYCLIC_BUSY);
    WANT(busy, 1);
    WANT(kept, 0);
    WANT(cyclic_add(&cpu, 2, CYCLIC_HIGH, 1, 1, 3, &busy), CYCLIC_BUSY);
    WANT(busy, 1);
    WANT(cyclic_reprogram(&cpu, 1, 9), CYCLIC_NO_CYCLIC);
    WANT(cyclic_fire(&cpu, 9, &fired), 0);
    WANT(fired.expired, 0);
    WANT(serve(&cpu, CYCLIC_LOW, 2), 2);
    WANT(cyclic_poll_remove(&cpu, &receipt), 0);
    WANT(receipt.id, 0);
    WANT(serve(&cpu, CYCLIC_LOW, 8), 1);
    WANT(cyclic_poll_remove(&cpu, &receipt), 0);
    WANT(receipt.id, 1);
    WANT(receipt.expired, 3);
    WANT(receipt.lost, 0);
    WANT(cyclic_begin_remove(&cpu, 1, &kept, &receipt, &busy), CYCLIC_NO_CYCLIC);
    WANT(busy, 0);
    WANT(cyclic_add(&cpu, 2, CYCLIC_HIGH, 10, 10, 9, &busy), 0);
    WANT(busy, 0);
    WANT(cyclic_fire(&cpu, 10, &fired), CYCLIC_HANDLER_REFUSED);
    WANT(cyclic_fire(&cpu, 10, &fired), 0);
    WANT(cyclic_begin_remove(&cpu, 2, &kept, &receipt, &busy), 0);
    WANT(kept, 0);
    WANT(receipt.id, 2);
    WANT(receipt.expired, 1);
    WANT(cyclic_cpu_close(&cpu), 0);
}

/* Each answer is the same with a null `busy`, and what happened too. */
static void busy_may_be_null(void)
{
    cyclic_cpu cpu;
    opened(&cpu, 8, UINT64_MAX);
    WANT(cyclic_begin_remove(&cpu, 1, &kept, &receipt, NULL), CYCLIC_NO_CYCLIC);
    WANT(cyclic_add(&cpu, 1, CYCLIC_LOW, 1, 1, 0, NULL), 0);
    WANT(cyclic_fire(&cpu, 3, &fired), 0);
    WANT(cyclic_begin_remove(&cpu, 1, &kept, &receipt, NULL), 0);
    WANT(kept, 3);
    WANT(receipt.id, 0);
    busy = 7;
    WANT(cyclic_begin_remove(&cpu, 1, &kept, &receipt, NULL), CYCLIC_BUSY);
    WANT(kept, 0);
    WANT(cyclic_add(&cpu, 2, CYCLIC_HIGH, 1, 1, 3, NULL), CYCLIC_BUSY);
    WANT(busy, 7);
    WANT(cyclic_add(&cpu, 2, CYCLIC_HIGH, 1, 1, 3, &busy), CYCLIC_BUSY);
    WANT(busy, 1);
    WANT(serve(&cpu, CYCLIC_LOW, 8), 3);
    WANT(cyclic_poll_remove(&cpu, &receipt), 0);
    WANT(receipt.id, 1);
    WANT(cyclic_add(&cpu, 2, CYCLIC_HIGH, 1, 1, 3, NULL), 0);
    WANT(cyclic_begin_remove(&cpu, 2, &kept, &receipt, NULL), 0);
    WANT(receipt.id, 2);
    WANT(cyclic_cpu_close(&cpu), 0);
}

/* A fire of a suspended CPU, which writes no count and no id. */
static void asleep(cyclic_cpu *cpu, int64_t now)
{
    cyclic_fired written = {7, 7, 7, 7};
    WANT(cyclic_fire(cpu, now, &written), CYCLIC_SUSPENDED);
    WANT(written.expired, 0);
    WANT(written.lost, 0);
    WANT(written.next, 0);
    WANT(written.id, 0);
}

/* A whole fire: the expirations of its parts. The handlers of high cyclics are called in between. */
static uint64_t fire_whole(cyclic_cpu *cpu, int64_t now, uint64_t *calls)
{
    uint64_t expired = 0;
    uint32_t answer;
    while ((answer = cyclic_fire(cpu, now, &fired)) == CYCLIC_CALL_HANDLER) {
        expired += fired.expired;
        ++*calls;
    }
    WANT(answer, 0);
    return expired + fired.expired;
}

static void a_suspended_cpu_makes_no_fire(void)
{
    cyclic_cpu cpu;
    uint64_t calls = 0;
    opened(&cpu, 8, UINT64_MAX);
    WANT(cyclic_add(&cpu, 1, CYCLIC_HIGH, 10, 10, 0, &busy), 0);
    WANT(serve(&cpu, CYCLIC_LOW, 1), 0);
    WANT(serve(&cpu, CYCLIC_LOCK, 1), 0);
    WANT(cyclic_add(&cpu, 2, CYCLIC_LOW, 10, 10, 0, &busy), 0);
    WANT(fire_whole(&cpu, 15, &calls), 2);
    WANT(calls, 1);
    WANT(cyclic_suspend(&cpu), 0);
    WANT(cyclic_suspend(&cpu), 0);
    asleep(&cpu, 35);
    asleep(&cpu, CYCLIC_NEVER);
    WANT(cyclic_fire(&cpu, -1, &fired), CYCLIC_BAD_WHEN);
    WANT(cyclic_totals(&cpu, 1, &totals), 0);
    WANT(totals.expired, 1);

    /* All else goes on. */
    WANT(serve(&cpu, CYCLIC_LOW, 8), 1);
    WANT(serve(&cpu, CYCLIC_LOCK, 8), 0);
    WANT(cyclic_add(&cpu, 3, CYCLIC_HIGH, 25, 25, 15, &busy), 0);
    WANT(cyclic_reprogram(&cpu, 3, 27), 0);
    WANT(cyclic_begin_remove(&cpu, 2, &kept, &receipt, &busy), 0);
    WANT(receipt.id, 2);
    WANT(receipt.expired, 1);
    WANT(cyclic_next(&cpu, &moment), 0);
    WANT(moment, 20);
    asleep(&cpu, 35);

    /* At 36 what was missed: 1 at 20, 3 at 27, 1 at 30. */
    WANT(cyclic_resume(&cpu), 0);
    WANT(cyclic_resume(&cpu), 0);
    WANT(fire_whole(&cpu, 36, &calls), 3);
    WANT(calls, 4);
    WANT(fired.next, 40);
    WANT(cyclic_cpu_close(&cpu), 0);

    /* More than a second late it expires once. */
    calls = 0;
    opened(&cpu, 8, UINT64_MAX);
    WANT(cyclic_add(&cpu, 1, CYCLIC_HIGH, 100000000, 100000000, 0, &busy), 0);
    WANT(cyclic_suspend(&cpu), 0);
    asleep(&cpu, 1200000001);
    WANT(cyclic_resume(&cpu), 0);
    WANT(fire_whole(&cpu, 1200000001, &calls), 1);
    WANT(calls, 1);
    WANT(cyclic_cpu_close(&cpu), 0);
}

static void what_was_handed_out_stays_so(void)
{
    cyclic_cpu cpu;
    opened(&cpu, 8, UINT64_MAX);
    WANT(cyclic_add(&cpu, 1, CYCLIC_HIGH, 10, 10, 0, &busy), 0);
    WANT(serve(&cpu, CYCLIC_LOW, 1), 0);
    WANT(serve(&cpu, CYCLIC_LOCK, 1), 0);
    WANT(cyclic_add(&cpu, 2, CYCLIC_HIGH, 10, 10, 0, &busy), 0);
    WANT(cyclic_fire(&cpu, 10, &fired), CYCLIC_CALL_HANDLER);
    WANT(fired.id, 1);
    WANT(cyclic_suspend(&cpu), 0);
    asleep(&cpu, 10);
    asleep(&cpu, 12);
    asleep(&cpu, CYCLIC_NEVER);
    WANT(cyclic_fire(&cpu, -1, &fired), CYCLIC_BAD_WHEN);
    WANT(cyclic_totals(&cpu, 1, &totals), 0);
    WANT(totals.expired, 0);
    WANT(cyclic_next(&cpu, &moment), 0);
    WANT(moment, 10);
    WANT(cyclic_resume(&cpu), 0);
    WANT(cyclic_suspend(&cpu), 0);
    asleep(&cpu, 12);
    WANT(cyclic_resume(&cpu), 0);

    /* 1 is counted, and not handed out again. A fire at never leaves what is handed out, too. */
    WANT(cyclic_fire(&cpu, 13, &fired), CYCLIC_CALL_HANDLER);
    WANT(fired.id, 2);
    WANT(fired.expired, 1);
    WANT(cyclic_fire(&cpu, CYCLIC_NEVER, &fired), CYCLIC_BAD_NOW);
    WANT(fired.expired, 0);
    WANT(cyclic_fire(&cpu, 13, &fired), 0);
    WANT(fired.expired, 1);
    WANT(fired.next, 20);
    WANT(cyclic_totals(&cpu, 1, &totals), 0);
    WANT(totals.expired, 1);
    WANT(cyclic_totals(&cpu, 2, &totals), 0);
    WANT(totals.expired, 1);
    WANT(cyclic_cpu_close(&cpu), 0);
}

int main(void)
{
    a_closed_handle_is_refused();
    an_add_is_refused_in_order();
    a_full_cpu_is_refused();
    an_add_waits_for_both_levels();
    a_fire_stops_in_front_of_each_high_call();
    a_call_is_taken_and_finished();
    a_removal_waits_for_its_calls();
    busy_may_be_null();
    a_suspended_cpu_makes_no_fire();
    what_was_handed_out_stays_so();
    puts("cpu: every answer is as it should be");
    return 0;
}
