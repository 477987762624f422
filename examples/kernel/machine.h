/* The machine under the kernel: serial port, clock, the local APIC's timer, interrupts, memory, and a stack to make a call on. */
#ifndef MACHINE_H
#define MACHINE_H

#include <stdbool.h>
#include <stddef.h>
#include <stdint.h>

#define SECOND INT64_C(1000000000)

/* What the processor pushes when it interrupts. */
struct interrupted {
    uint64_t rip, cs, flags, rsp, ss;
};

/* Sets up interrupts, which are held off, the clock and the timer, which is still. */
void machine_begin(void);

/* Ends the machine: QEMU ends with 2 * status + 1. */
_Noreturn void machine_end(uint8_t status);

/* Nanoseconds since machine_begin, by the time stamp counter. */
int64_t machine_now(void);

/* Arms the timer for this moment, at the least 5 microseconds and at the most a second from now: in its interrupt timer_interrupt is
 * called. */
void machine_arm(int64_t moment);

/* The timer's interrupt begins: the timer is still until it is armed again, so that it can't come anew while this one goes on. It ends. */
void machine_interrupt_begins(void);
void machine_interrupt_ends(void);

/* Holds interrupts off, and lets them come. */
static inline void machine_hold(void)
{
    __asm__ volatile("cli" ::: "memory");
}

static inline void machine_let(void)
{
    __asm__ volatile("sti" ::: "memory");
}

/* Writes to the serial port. The formats are those of printf, as far as %s, %llu and %llx with a width and a '-' go. */
__attribute__((format(printf, 1, 2))) void print(const char *format, ...);

/* What the kernel gives: the timer's interrupt, and the one after each instruction while the trap flag stands. */
void timer_interrupt(const struct interrupted *at);
void step_interrupt(struct interrupted *at);

/* Makes a call on another stack: see boot.S. */
uint32_t call_on(void *top, const void *call, const uint64_t arguments[7]);

/* Fills a stack with a pattern; how many bytes from its end on have been written since, to a multiple of 8. */
void stack_fill(uint64_t *stack, size_t bytes);
size_t stack_depth(const uint64_t *stack, size_t bytes);

/* The depth of the interrupt's stack so far, with the 672 bytes of its entry. */
size_t machine_interrupt_depth(void);

/* The allocator's requests so far, its bytes that are in use, and the most that were. */
struct memory {
    uint64_t mallocs, reallocs, frees, used, most;
};
extern struct memory memory;

void *malloc(size_t size);
void *realloc(void *block, size_t size);
void free(void *block);
void *memcpy(void *to, const void *from, size_t size);
void *memmove(void *to, const void *from, size_t size);
void *memset(void *to, int byte, size_t size);
int memcmp(const void *a, const void *b, size_t size);

#endif
