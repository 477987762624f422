/* The sums of each cyclic at the end, as sides.h says of sides_close. */
#include "sides.h"

static struct {
    uint64_t expired, calls, pending, lost, books;
    bool show;
} all;

/* One cyclic: expirations = calls + pending + lost, and the expirations are those of its series. */
static void compare(uint64_t id, const char *how, uint64_t expired, uint64_t pending, uint64_t lost)
{
    static const char *const levels[] = {"low", "lock", "high"};
    const struct timer *timer = &sides.timers[id];
    if (expired != timer->calls + pending + lost)
        wrong("expirations aren't calls + pending + lost", id);
    if (expired != timer->expected)
        wrong("other expirations than its series has", id);
    all.expired += expired;
    all.calls += timer->calls;
    all.pending += pending;
    all.lost += lost;
    if (!all.show)
        return;
    print("%4llu %-4s ", (unsigned long long)id, levels[timer->level]);
    if (timer->interval == CYCLIC_NEVER)
        print(" one-shot");
    else
        print("%6llu us", (unsigned long long)timer->interval / 1000);
    print(" %-7s %9llu %9llu %9llu %9llu\n", how, (unsigned long long)expired, (unsigned long long)timer->calls,
          (unsigned long long)pending, (unsigned long long)lost);
}

/* Those that were removed, by their receipts, and those that are there, by the counts of the firing side. */
static void compare_counts(void)
{
    for (uint64_t id = 1; id <= sides.last; id++) {
        struct timer *timer = &sides.timers[id];
        if (timer->state == REMOVED)
            compare(id, "receipt", timer->receipt.expired, 0, timer->receipt.lost);
        else if (cyclic_firing_totals(&sides.firing, id, &timer->totals) != 0)
            wrong("it has no totals", id);
        else if (timer->level == CYCLIC_HIGH)
            compare(id, "high", timer->totals.expired, timer->totals.pending, timer->totals.lost);
    }
}

/* The book of one that stands at a soft level. */
static void compare_book(const cyclic_book_of *book, uint32_t level)
{
    const struct timer *timer = &sides.timers[book->id < IDS ? book->id : 0];
    if (timer->level != level || timer->state != (book->removed ? MARKED : LIVE))
        wrong("a book of no cyclic of this level", book->id);
    if (book->expired != book->done + book->pending + book->lost || book->done != timer->calls)
        wrong("the book differs", book->id);
    if (book->expired != timer->totals.expired || book->pending != timer->totals.pending || book->lost != timer->totals.lost)
        wrong("the book differs from the totals", book->id);
    compare(book->id, book->removed ? "removal" : "book", book->expired, book->pending, book->lost);
    all.books++;
}

static void compare_books(void)
{
    cyclic_books books = CYCLIC_CLOSED;
    uint64_t soft = 0;
    for (uint64_t id = 1; id <= sides.last; id++)
        soft += sides.timers[id].state != REMOVED && sides.timers[id].level != CYCLIC_HIGH;
    if (cyclic_close(&sides.firing, &sides.lock, &sides.low, &books) != 0)
        wrong("the CPU was not closed", 0);
    for (uint32_t level = CYCLIC_LOW; level <= CYCLIC_LOCK; level++)
        for (uint32_t index = 0; index < CYCLIC_CYCLICS; index++) {
            cyclic_book_of book;
            if (cyclic_book(&books, level, index, &book) != 0)
                wrong("a book was refused", index);
            else if (book.id != 0)
                compare_book(&book, level);
        }
    if (cyclic_books_close(&books) != 0)
        wrong("the books were not closed", 0);
    if (all.books != soft)
        wrong("there are other books than cyclics", all.books);
}

void sides_close(bool show)
{
    memset(&all, 0, sizeof all);
    all.show = show;
    if (show)
        print("  id level interval how      expired    called   pending      lost\n");
    compare_counts();
    compare_books();
    if (all.expired != sides.expirations || all.calls != sides.high_calls + sides.soft_calls)
        wrong("the fires and the handlers have other sums", 0);
    if (sides.memory_requests != 0)
        wrong("memory was asked for in the interrupt", sides.memory_requests);
    if (memory.used != 0)
        wrong("memory was not given back", memory.used);
    if (show)
        print("kernel: %llu expirations = %llu calls + %llu pending + %llu lost; %llu receipts\n", (unsigned long long)all.expired,
              (unsigned long long)all.calls, (unsigned long long)all.pending, (unsigned long long)all.lost,
              (unsigned long long)sides.receipts);
}
