/* How deep the stack of each call goes: it is made on a stack that was filled with a pattern, in all its cases that matter. */
#include "kernel.h"

/* A call that goes no deeper than MOST, and one that may: to look through a deep stack takes its time. */
#define DEEP(call, ...) deep(#call, (const void *)call, (const uint64_t[7]){__VA_ARGS__}, MOST)
#define DEEPEST(call, ...) deep(#call, (const void *)call, (const uint64_t[7]){__VA_ARGS__}, sizeof stack)
#define AT(value) (uint64_t)&(value)
#define MOST 8192

static uint64_t stack[65536] __attribute__((aligned(16)));
static struct {
    const char *name;
    const void *call;
    size_t depth;
    uint64_t requests; /* for memory, or to give it back */
} calls[40];

static cyclic_cpu cpu;
static cyclic_firing firing;
static cyclic_soft lock, low;
static cyclic_books books;
static cyclic_fired fired;
static cyclic_receipt receipt;
static cyclic_totals_of totals;
static cyclic_book_of book;
static uint64_t busy, id;
static uint32_t kept, pending;
static int64_t moment;

/* Makes the call. Its depth is from its return address on, which is 16 bytes below the top. */
static uint32_t deep(const char *name, const void *call, const uint64_t arguments[7], size_t most)
{
    uint64_t *end = stack + (sizeof stack - most) / 8;
    uint64_t before = memory.mallocs + memory.reallocs + memory.frees;
    uint32_t answer;
    size_t depth, k = 0;
    stack_fill(end, most);
    answer = call_on((uint8_t *)stack + sizeof stack, call, arguments);
    depth = stack_depth(end, most) - 16;
    if (depth > most - 64)
        wrong("a call goes deeper", depth);
    while (calls[k].call != NULL && calls[k].call != call)
        k++;
    calls[k].name = name;
    calls[k].call = call;
    if (calls[k].depth < depth)
        calls[k].depth = depth;
    calls[k].requests += memory.mallocs + memory.reallocs + memory.frees - before;
    return answer;
}

/* Cyclics of a CPU on one thread: as many as it holds, fired in time and too late, and each removed. */
static void cpu_calls(void)
{
    DEEP(cyclic_version, 0);
    DEEPEST(cyclic_cpu_open, 100, UINT64_MAX, AT(cpu));
    for (uint64_t k = 1; k <= CYCLIC_CYCLICS + 1; k++) {
        DEEP(cyclic_add, AT(cpu), k, k % 3, k % 2 == 0 ? 0 : k, 10 + k % 7, 1, AT(busy));
        DEEP(cyclic_take, AT(cpu), CYCLIC_LOW, AT(id));
        DEEP(cyclic_take, AT(cpu), CYCLIC_LOCK, AT(id));
    }
    for (int64_t now = 1; now < 5 * SECOND; now += now < 200 ? 50 : 2 * SECOND)
        while (DEEP(cyclic_fire, AT(cpu), (uint64_t)now, AT(fired)) == CYCLIC_CALL_HANDLER)
            ;
    DEEP(cyclic_suspend, AT(cpu));
    DEEP(cyclic_fire, AT(cpu), (uint64_t)(5 * SECOND), AT(fired));
    DEEP(cyclic_resume, AT(cpu));
    DEEP(cyclic_next, AT(cpu), AT(moment));
    for (uint64_t k = 1; k <= CYCLIC_CYCLICS + 1; k++) {
        DEEP(cyclic_reprogram, AT(cpu), k, (uint64_t)(9 * SECOND) - k);
        DEEP(cyclic_pending, AT(cpu), k, AT(pending));
        DEEP(cyclic_totals, AT(cpu), k, AT(totals));
        DEEP(cyclic_begin_remove, AT(cpu), k, AT(kept), AT(receipt), AT(busy));
        for (uint64_t level = CYCLIC_LOW; level <= CYCLIC_LOCK; level++)
            while (DEEP(cyclic_take, AT(cpu), level, AT(id)) == 0 && id != 0)
                DEEP(cyclic_finish, AT(cpu), level);
        DEEP(cyclic_poll_remove, AT(cpu), AT(receipt));
    }
    DEEPEST(cyclic_cpu_close, AT(cpu));
}

static void serve(cyclic_soft *soft)
{
    while (DEEP(cyclic_soft_take, (uint64_t)soft, AT(id)) == 0 && id != 0) {
        DEEP(cyclic_soft_hand, (uint64_t)soft, AT(id));
        DEEP(cyclic_soft_finish, (uint64_t)soft);
    }
}

/* The same for a CPU between three sides. */
static void pair_calls(void)
{
    DEEPEST(cyclic_open, 100, UINT64_MAX, AT(firing), AT(lock), AT(low));
    for (uint64_t k = 1; k <= CYCLIC_CYCLICS + 1; k++) {
        DEEP(cyclic_firing_add, AT(firing), k, k % 3, k % 2 == 0 ? 0 : k, 10 + k % 7, 1, AT(busy));
        DEEP(cyclic_soft_take, AT(low), AT(id));
        DEEP(cyclic_soft_take, AT(lock), AT(id));
    }
    for (int64_t now = 1; now < 5 * SECOND; now += now < 200 ? 50 : 2 * SECOND)
        while (DEEP(cyclic_firing_fire, AT(firing), (uint64_t)now, AT(fired)) == CYCLIC_CALL_HANDLER)
            ;
    DEEP(cyclic_firing_suspend, AT(firing));
    DEEP(cyclic_firing_fire, AT(firing), (uint64_t)(5 * SECOND), AT(fired));
    DEEP(cyclic_firing_resume, AT(firing));
    DEEP(cyclic_firing_next, AT(firing), AT(moment));
    for (uint64_t k = 1; k <= CYCLIC_CYCLICS - 6; k++) {
        DEEP(cyclic_firing_reprogram, AT(firing), k, (uint64_t)(9 * SECOND) - k);
        DEEP(cyclic_firing_pending, AT(firing), k, AT(pending));
        DEEP(cyclic_firing_totals, AT(firing), k, AT(totals));
        DEEP(cyclic_firing_begin_remove, AT(firing), k, AT(kept), AT(receipt), AT(busy));
        serve(&low);
        serve(&lock);
        DEEP(cyclic_firing_poll_remove, AT(firing), AT(receipt));
    }
    DEEPEST(cyclic_close, AT(firing), AT(lock), AT(low), AT(books));
    for (uint64_t index = 0; index < CYCLIC_CYCLICS; index++)
        DEEP(cyclic_book, AT(books), CYCLIC_LOW, index, AT(book));
    DEEPEST(cyclic_books_close, AT(books));
    DEEPEST(cyclic_open, 100, UINT64_MAX, AT(firing), AT(lock), AT(low));
    DEEPEST(cyclic_soft_drop, AT(lock));
    DEEPEST(cyclic_firing_drop, AT(firing));
    DEEPEST(cyclic_soft_drop, AT(low));
}

void stack_use(void)
{
    cpu_calls();
    pair_calls();
    print("call                        bytes of stack  requests for memory\n");
    for (size_t k = 0; calls[k].call != NULL; k++)
        print("%-28s %13llu %20llu\n", calls[k].name, (unsigned long long)calls[k].depth, (unsigned long long)calls[k].requests);
    if (memory.used != 0)
        wrong("memory was not given back", memory.used);
}
