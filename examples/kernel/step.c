/*
 * The interrupt in front of each instruction: the processor's trap flag interrupts the soft sides after each instruction, and
 * in front of the k-th of the library the firing side does one thing; for k = 1, 2, .. until the soft sides end before. All sums are
 * compared each time.
 */
#include "kernel.h"

#define TRAP UINT64_C(0x100)

static uint64_t left; /* instructions of the library, until the firing side has its turn */
static void (*turn)(void);

void step_interrupt(struct interrupted *at)
{
    if (!in_library(at->rip) || --left != 0)
        return;
    at->flags &= ~TRAP;
    turn();
}

static void set_trap(bool on)
{
    uint64_t flags;
    __asm__ volatile("pushfq; popq %0" : "=r"(flags)::"memory");
    flags = on ? flags | TRAP : flags & ~TRAP;
    __asm__ volatile("pushq %0; popfq" ::"r"(flags) : "memory", "cc");
}

static void nothing(uint64_t id)
{
    (void)id;
}

/* Five cyclics of the soft levels, each every 10 nanoseconds or more, and one at high level. The last growth is not followed. */
static void begin(void)
{
    static const uint32_t levels[] = {CYCLIC_LOW, CYCLIC_LOCK, CYCLIC_HIGH, CYCLIC_LOW};
    sides_open(2);
    for (uint64_t k = 0; k < 4; k++) {
        if (sides_add(levels[k], 10 + (int64_t)k, 10, 1) != 0)
            wrong("an add was refused", k);
        if (k < 2)
            sides_serve(nothing);
    }
    sides_fire(20);
    if (sides_add(CYCLIC_LOW, 31, 10, 21) != CYCLIC_EXPANDING)
        wrong("a growth was not put off", 5);
}

/* What the firing side does in its turn. */
static void fires(void)
{
    sides_fire(30);
}

static void removes(void)
{
    request.id = 1;
    request.wish = REMOVE;
    sides_fire(20);
}

static void removes_and_fires(void)
{
    removes();
    sides_fire(60);
}

static void grows_and_fires(void)
{
    if (sides_add(CYCLIC_LOW, 25, 10, 21) == 0)
        sides_fire(40);
}

/* The rest is served, and the removal answers. */
static void end(void)
{
    for (uint64_t served = ~UINT64_C(0); served != sides.soft_calls;) {
        served = sides.soft_calls;
        sides_serve(nothing);
    }
    sides_fire(60);
    if (sides.open_removal != 0)
        wrong("a removal has not answered", sides.open_removal);
    sides_close(false);
}

/* One thing in front of each instruction. Answers how many there are. */
static uint64_t in_front_of_each(void (*what)(void))
{
    turn = what;
    for (uint64_t k = 1;; k++) {
        begin();
        left = k;
        set_trap(true);
        for (int n = 0; n < 5; n++)
            sides_serve(nothing);
        set_trap(false);
        end();
        if (left != 0)
            return k - 1;
    }
}

void stepped(void)
{
    static const struct {
        const char *name;
        void (*what)(void);
    } turns[] = {{"a fire", fires}, {"a removal", removes}, {"a removal and a fire", removes_and_fires},
                 {"a growth and a fire", grows_and_fires}};
    for (size_t k = 0; k < sizeof turns / sizeof turns[0]; k++)
        print("kernel: %s, in front of each of %llu instructions of a soft interrupt\n", turns[k].name,
              (unsigned long long)in_front_of_each(turns[k].what));
    print("kernel: they are %llu different instructions of the library\n", (unsigned long long)places);
}
