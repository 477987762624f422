/* Memory, as a kernel would give it: blocks of powers of two from one region, and a list of the free ones of each size. */
#include "machine.h"

#define REGION (UINT64_C(16) << 20)
#define HEAD 16

struct block {
    uint64_t size; /* of the block with this head, a power of two */
    struct block *next;
};

struct memory memory;
static uint8_t region[REGION] __attribute__((aligned(4096)));
static uint64_t given;
static struct block *unused[64];

static int list_of(uint64_t size)
{
    return __builtin_ctzll(size);
}

void *malloc(size_t size)
{
    uint64_t whole = 32;
    struct block *block;
    memory.mallocs++;
    if (size > REGION)
        return NULL;
    while (whole < size + HEAD)
        whole *= 2;
    block = unused[list_of(whole)];
    if (block != NULL) {
        unused[list_of(whole)] = block->next;
    } else if (whole <= REGION - given) {
        block = (struct block *)(region + given);
        block->size = whole;
        given += whole;
    } else {
        return NULL;
    }
    memory.used += whole;
    if (memory.used > memory.most)
        memory.most = memory.used;
    return (uint8_t *)block + HEAD;
}

void free(void *at)
{
    struct block *block = (struct block *)((uint8_t *)at - HEAD);
    memory.frees++;
    if (at == NULL)
        return;
    memory.used -= block->size;
    block->next = unused[list_of(block->size)];
    unused[list_of(block->size)] = block;
}

void *realloc(void *at, size_t size)
{
    uint64_t room = at == NULL ? 0 : ((struct block *)((uint8_t *)at - HEAD))->size - HEAD;
    void *grown;
    memory.reallocs++;
    if (at != NULL && size <= room)
        return at;
    grown = malloc(size);
    memory.mallocs--;
    if (grown != NULL && at != NULL) {
        memcpy(grown, at, room);
        free(at);
        memory.frees--;
    }
    return grown;
}

void *memcpy(void *to, const void *from, size_t size)
{
    void *begin = to;
    __asm__ volatile("rep movsb" : "+D"(to), "+S"(from), "+c"(size)::"memory");
    return begin;
}

void *memmove(void *to, const void *from, size_t size)
{
    uint8_t *last_to = (uint8_t *)to + size - 1;
    const uint8_t *last_from = (const uint8_t *)from + size - 1;
    if ((uint64_t)to - (uint64_t)from >= size)
        return memcpy(to, from, size);
    __asm__ volatile("std; rep movsb; cld" : "+D"(last_to), "+S"(last_from), "+c"(size)::"memory");
    return to;
}

void *memset(void *to, int byte, size_t size)
{
    void *begin = to;
    __asm__ volatile("rep stosb" : "+D"(to), "+c"(size) : "a"(byte) : "memory");
    return begin;
}

int memcmp(const void *a, const void *b, size_t size)
{
    const uint8_t *x = a, *y = b;
    for (; size != 0; size--, x++, y++)
        if (*x != *y)
            return *x < *y ? -1 : 1;
    return 0;
}
