/*
 * A kernel of one CPU over the proved cyclic subsystem: the timer's interrupt is the firing side, the main loop the two soft sides.
 * See docs/embedding.md, 'In a kernel'. Its words are the way to run, the seconds, and a number from which all choices follow:
 *
 *     run 5 1        the soft sides serve their levels; cyclics come, go and are armed anew
 *     starved 5 1    the soft sides serve nothing, so that expirations are lost at the ceiling
 *     stepped        a fire, a growth or a removal in front of each instruction of a soft interrupt
 *     stack          how deep the stack of each call goes
 */
#include "kernel.h"

#define MICROSECOND INT64_C(1000)
#define MOST_LIVE 96

static uint64_t wished; /* the cyclic that is to ask for its removal in its handler */
static uint64_t expanding, busy_adds;
static uint8_t seen[1 << 20]; /* the addresses of the library in front of which an interrupt came */

uint64_t places;

bool in_library(uint64_t address)
{
    extern char library_begin[], library_end[];
    uint64_t place = address - (uint64_t)library_begin;
    if (address < (uint64_t)library_begin || address >= (uint64_t)library_end)
        return false;
    if (place < sizeof seen && !seen[place]) {
        seen[place] = 1;
        places++;
    }
    return true;
}

void timer_interrupt(const struct interrupted *at)
{
    int64_t next;
    machine_interrupt_begins();
    sides.in_library += in_library(at->rip);
    sides_fire(machine_now());
    if (cyclic_firing_next(&sides.firing, &next) != 0)
        wrong("the next moment was refused", 0);
    machine_arm(next);
    machine_interrupt_ends();
}

static uint64_t seed; /* never 0 */

static uint64_t random_below(uint64_t bound)
{
    seed ^= seed << 13;
    seed ^= seed >> 7;
    seed ^= seed << 17;
    return seed % bound;
}

static void ask(enum wish wish, uint64_t id)
{
    request.id = id;
    request.delay = (int64_t)(1 + random_below(100)) * 100 * MICROSECOND;
    request.wish = wish;
}

/* What the soft handlers do besides: some take longer than the shortest interval, and the cyclic that was chosen asks for its
 * removal and goes on when that has begun, so that this call of it is kept. */
static void handled(uint64_t id)
{
    if (id % 16 == 7 && sides.timers[id].interval >= 2000 * MICROSECOND)
        for (int64_t until = machine_now() + 250 * MICROSECOND; machine_now() < until;)
            ;
    if (id != wished || request.wish != NOTHING)
        return;
    wished = 0;
    ask(REMOVE, id);
    while (request.wish != NOTHING && sides.open_removal == 0)
        ;
}

/* Adds the next cyclic, with interrupts held off: the first of each level every 100 microseconds, the others from there to 10
 * milliseconds, or one-shots. */
static void add_next(int64_t delay)
{
    static int64_t interval;
    uint64_t id = sides.last + 1;
    int64_t now = machine_now();
    uint32_t answer;
    if (interval == 0)
        interval = id <= 3 ? 100 * MICROSECOND : id % 8 == 0 ? CYCLIC_NEVER : (int64_t)(1 + random_below(100)) * 100 * MICROSECOND;
    answer = sides_add((uint32_t)(id % 3), delay != 0 || interval == CYCLIC_NEVER ? now + delay : 0, interval, now);
    if (answer == 0)
        interval = 0;
    else if (answer == CYCLIC_EXPANDING)
        expanding++;
    else if (answer == CYCLIC_BUSY)
        busy_adds++;
    else
        wrong("an add was refused", id);
}

static uint64_t any_live(void)
{
    uint64_t id = sides.last < 4 ? 0 : 4 + random_below(sides.last - 3);
    return sides.timers[id].state == LIVE ? id : 0;
}

/* One change: some adds, and a removal or another moment, which the interrupt is asked for. */
static void change(uint64_t turn)
{
    uint64_t id = any_live();
    machine_hold();
    for (int k = 0; k < 3 && sides.last + 1 < IDS && sides.last - sides.receipts < MOST_LIVE; k++)
        add_next((int64_t)random_below(2) * 1000 * MICROSECOND);
    machine_arm(0);
    machine_let();
    if (id == 0 || wished != 0 || request.wish != NOTHING)
        return;
    if (turn % 2 == 0)
        ask(REARM, id);
    else if (sides.timers[id].interval == CYCLIC_NEVER || sides.timers[id].level == CYCLIC_HIGH)
        ask(REMOVE, id);
    else
        wished = id;
}

static void report(void)
{
    print("late by, in ns, at most   expirations\n");
    for (int k = 0; k < 64; k++)
        if (sides.histogram[k] != 0)
            print("%23llu %13llu\n", (1ULL << k) - 1, (unsigned long long)sides.histogram[k]);
    print("kernel: %llu fires; %llu came inside the library, in front of %llu different instructions\n",
          (unsigned long long)sides.fires, (unsigned long long)sides.in_library, (unsigned long long)places);
    print("kernel: %llu removals kept %llu calls; %llu armed anew; adds put off: %llu expanding, %llu busy\n",
          (unsigned long long)sides.kept_removals, (unsigned long long)sides.kept, (unsigned long long)sides.rearmed,
          (unsigned long long)expanding, (unsigned long long)busy_adds);
    print("kernel: memory: %llu bytes at most, none asked for in the interrupt; its stack: %llu bytes\n",
          (unsigned long long)memory.most, (unsigned long long)machine_interrupt_depth());
}

static void run(int64_t seconds)
{
    int64_t until, next = 0;
    uint64_t turn = 0;
    sides_open(UINT32_MAX);
    until = machine_now() + seconds * SECOND;
    for (int64_t now; (now = machine_now()) < until;) {
        sides_serve(handled);
        if (now >= next) {
            change(turn++);
            next = now + 10000 * MICROSECOND;
        }
    }
    machine_hold();
    sides_close(true);
    report();
}

static void starved(int64_t seconds)
{
    int64_t until;
    sides_open(3);
    /* The soft sides follow each growth before the first fire, and serve nothing from then on. */
    while (sides.last < MOST_LIVE) {
        add_next(1000 * MICROSECOND);
        sides_serve(handled);
    }
    until = machine_now() + seconds * SECOND;
    machine_arm(0);
    machine_let();
    while (machine_now() < until - seconds * SECOND / 2)
        ;
    /* A removal at high level answers at once; one at the lock level stays open. */
    ask(REMOVE, 5);
    while (request.wish != NOTHING)
        ;
    ask(REMOVE, 4);
    while (machine_now() < until)
        ;
    machine_hold();
    if (sides.soft_calls != 0 || sides.open_removal != 4)
        wrong("a soft side has served", 4);
    sides_close(true);
    report();
}

static bool begins(const char *text, const char *word)
{
    while (*word != 0)
        if (*text++ != *word++)
            return false;
    return true;
}

/* The n-th number of the text, from 0 on, or another one where it has none or 0. */
static uint64_t number_in(const char *text, int n, uint64_t otherwise)
{
    uint64_t number = 0;
    for (; *text != 0; text++) {
        bool digit = *text >= '0' && *text <= '9';
        if (digit && n == 0)
            number = 10 * number + (uint64_t)(*text - '0');
        if (digit && (text[1] < '0' || text[1] > '9'))
            n--;
    }
    return number != 0 ? number : otherwise;
}

/* By PVH, the start information has the address of the command line at 24. */
_Noreturn void kernel_main(const uint8_t *start);

_Noreturn void kernel_main(const uint8_t *start)
{
    const char *words;
    int64_t seconds;
    memcpy(&words, start + 24, sizeof words);
    if (words == NULL)
        words = "";
    machine_begin();
    seconds = (int64_t)number_in(words, 0, 5);
    seed = number_in(words, 1, 1);
    print("kernel: %s\n", words);
    if (begins(words, "starved"))
        starved(seconds);
    else if (begins(words, "stepped"))
        stepped();
    else if (begins(words, "stack"))
        stack_use();
    else
        run(seconds);
    if (wrongs != 0) {
        print("kernel: %llu things are wrong\n", (unsigned long long)wrongs);
        machine_end(1);
    }
    print("kernel: all sums are equal\n");
    machine_end(16);
}
