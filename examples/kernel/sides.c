/* The two sides of the CPU, as sides.h says. */
#include "sides.h"

struct sides sides;
uint64_t wrongs;
struct request request;

void wrong(const char *what, uint64_t id)
{
    if (wrongs++ < 20)
        print("kernel: WRONG: %s (cyclic %llu)\n", what, (unsigned long long)id);
}

void sides_open(uint32_t ceiling)
{
    memset(&sides, 0, sizeof sides);
    memset(&request, 0, sizeof request);
    if (cyclic_open(ceiling, UINT64_MAX, &sides.firing, &sides.lock, &sides.low) != 0)
        wrong("the CPU was not opened", 0);
}

/* The handler of a cyclic: it counts its calls, and no call may follow the receipt. */
static void call(uint64_t id, bool high)
{
    struct timer *timer = &sides.timers[id < IDS ? id : 0];
    if (timer->state == NONE || (timer->level == CYCLIC_HIGH) != high)
        wrong("a call of no cyclic of this level", id);
    if (timer->state == REMOVED)
        wrong("a call after the receipt", id);
    timer->calls++;
    *(high ? &sides.high_calls : &sides.soft_calls) += 1;
}

/* ---- the firing side: in the interrupt, or with it held off ---- */

uint32_t sides_add(uint32_t level, int64_t start, int64_t interval, int64_t now)
{
    uint64_t id = sides.last + 1;
    struct timer *timer = &sides.timers[id];
    uint32_t answer = cyclic_firing_add(&sides.firing, id, level, start, interval, now, NULL);
    if (answer != 0)
        return answer;
    timer->level = level;
    timer->interval = interval;
    timer->due = start != 0 ? start : (now / interval + 1) * interval;
    timer->state = LIVE;
    sides.last = id;
    return 0;
}

static void count_late(int64_t late)
{
    sides.histogram[late == 0 ? 0 : 64 - __builtin_clzll((uint64_t)late)]++;
}

/* Counts the expirations of a cyclic by its series alone, by the rule of docs/theory.md. */
static uint64_t due_by_series(struct timer *timer, int64_t moment)
{
    uint64_t count = 0;
    while (timer->due <= moment) {
        count_late(moment - timer->due);
        count++;
        timer->due = timer->interval > CYCLIC_NEVER - timer->due ? CYCLIC_NEVER : timer->due + timer->interval;
        if (moment - timer->due > SECOND)
            timer->due += ((moment - timer->due) / timer->interval + 1) * timer->interval;
    }
    timer->expected += count;
    return count;
}

static void fire(int64_t moment)
{
    cyclic_fired fired;
    uint64_t made = 0, due = 0;
    uint32_t answer;
    while ((answer = cyclic_firing_fire(&sides.firing, moment, &fired)) == CYCLIC_CALL_HANDLER) {
        made += fired.expired;
        call(fired.id, true);
    }
    if (answer != 0)
        wrong("a fire was refused", fired.id);
    made += fired.expired;
    for (uint64_t id = 1; id <= sides.last; id++)
        if (sides.timers[id].state == LIVE)
            due += due_by_series(&sides.timers[id], moment);
    if (made != due)
        wrong("a fire has not made what was due", 0);
    sides.expirations += made;
    sides.fires++;
}

static void keep_receipt(const cyclic_receipt *receipt)
{
    struct timer *timer = &sides.timers[receipt->id < IDS ? receipt->id : 0];
    if (timer->state != LIVE && timer->state != MARKED)
        wrong("a receipt of no cyclic", receipt->id);
    timer->receipt = *receipt;
    timer->state = REMOVED;
    sides.receipts++;
}

static void remove_one(void)
{
    cyclic_receipt receipt;
    uint32_t kept, answer = cyclic_firing_begin_remove(&sides.firing, request.id, &kept, &receipt, NULL);
    if (answer == CYCLIC_BUSY)
        return;
    if (answer != 0) {
        wrong("a removal was refused", request.id);
    } else if (receipt.id != 0) {
        keep_receipt(&receipt);
    } else {
        sides.timers[request.id].state = MARKED;
        sides.open_removal = request.id;
        sides.kept_removals++;
        sides.kept += kept;
    }
    request.wish = NOTHING;
}

static void rearm_one(int64_t moment)
{
    int64_t next = moment + request.delay;
    if (cyclic_firing_reprogram(&sides.firing, request.id, next) != 0)
        wrong("a cyclic was not armed anew", request.id);
    sides.timers[request.id].due = next;
    sides.rearmed++;
    request.wish = NOTHING;
}

static void poll_removal(void)
{
    cyclic_receipt receipt;
    if (cyclic_firing_poll_remove(&sides.firing, &receipt) != 0)
        wrong("a poll was refused", sides.open_removal);
    if (receipt.id == 0)
        return;
    if (receipt.id != sides.open_removal)
        wrong("another removal has answered", receipt.id);
    keep_receipt(&receipt);
    sides.open_removal = 0;
}

void sides_fire(int64_t moment)
{
    uint64_t before = memory.mallocs + memory.reallocs + memory.frees;
    fire(moment);
    if (sides.open_removal != 0)
        poll_removal();
    if (request.wish == REMOVE)
        remove_one();
    else if (request.wish == REARM)
        rearm_one(moment);
    sides.memory_requests += memory.mallocs + memory.reallocs + memory.frees - before;
}

/* ---- the soft sides: in the main loop ---- */

static void serve_lock(void (*ended)(uint64_t id))
{
    uint64_t id;
    for (int budget = 64; budget > 0 && cyclic_soft_take(&sides.lock, &id) == 0 && id != 0; budget--) {
        call(id, false);
        ended(id);
        if (cyclic_soft_finish(&sides.lock) != 0)
            wrong("a call was not finished", id);
    }
}

void sides_serve(void (*ended)(uint64_t id))
{
    uint64_t id, hand;
    serve_lock(ended);
    if (cyclic_soft_take(&sides.low, &id) != 0 || id == 0)
        return;
    call(id, false);
    ended(id);
    /* The lock level comes in between, as its soft interrupt does. */
    serve_lock(ended);
    if (cyclic_soft_hand(&sides.low, &hand) != 0 || hand != id)
        wrong("another cyclic is in hand", id);
    if (cyclic_soft_finish(&sides.low) != 0)
        wrong("a call was not finished", id);
}
