/* The machine under the kernel, as machine.h says. */
#include <stdarg.h>
#include "machine.h"

#define SERIAL 0x3f8
#define EXIT 0xf4
#define TIMER_VECTOR 0x20
#define SPURIOUS_VECTOR 0xff

static inline void out(uint16_t port, uint8_t byte)
{
    __asm__ volatile("outb %0, %1" ::"a"(byte), "Nd"(port));
}

static inline uint8_t in(uint16_t port)
{
    uint8_t byte;
    __asm__ volatile("inb %1, %0" : "=a"(byte) : "Nd"(port));
    return byte;
}

_Noreturn void machine_end(uint8_t status)
{
    machine_hold();
    for (;;)
        out(EXIT, status);
}

/* ---- the serial port ---- */

static void put(char letter)
{
    while (!(in(SERIAL + 5) & 0x20))
        ;
    out(SERIAL, (uint8_t)letter);
}

static void put_text(const char *text, int width, bool left)
{
    int length = 0;
    while (text[length] != 0)
        length++;
    for (int k = length; !left && k < width; k++)
        put(' ');
    for (int k = 0; k < length; k++)
        put(text[k]);
    for (int k = length; left && k < width; k++)
        put(' ');
}

static void put_number(unsigned long long number, unsigned base, int width)
{
    char digits[24];
    int at = sizeof digits - 1;
    digits[at] = 0;
    do {
        digits[--at] = "0123456789abcdef"[number % base];
        number /= base;
    } while (number != 0);
    put_text(&digits[at], width, false);
}

void print(const char *format, ...)
{
    va_list list;
    va_start(list, format);
    for (; *format != 0; format++) {
        bool left = false;
        int width = 0;
        if (*format != '%') {
            put(*format);
            continue;
        }
        if (*++format == '-') {
            left = true;
            format++;
        }
        for (; *format >= '0' && *format <= '9'; format++)
            width = 10 * width + *format - '0';
        if (*format == 's') {
            put_text(va_arg(list, const char *), width, left);
        } else {
            format += 2;
            put_number(va_arg(list, unsigned long long), *format == 'x' ? 16 : 10, width);
        }
    }
    va_end(list);
}

/* ---- interrupts ---- */

struct gate {
    uint16_t offset_0, selector;
    uint8_t stack, kind;
    uint16_t offset_16;
    uint32_t offset_32, zero;
};

static struct gate gates[256] __attribute__((aligned(16)));
static struct {
    uint32_t zero_0;
    uint64_t stacks[3], zero_1, interrupt_stacks[7], zero_2;
    uint16_t zero_3, permissions;
} __attribute__((packed)) task = {.permissions = sizeof task};
static uint64_t timer_stack[8192] __attribute__((aligned(16))), fault_stack[2048] __attribute__((aligned(16)));

extern uint64_t segments[];
extern char fault_entries[], timer_entry[], step_entry[], spurious_entry[];

static void set_gate(int vector, const void *entry, uint8_t stack)
{
    uint64_t at = (uint64_t)entry;
    gates[vector] = (struct gate){(uint16_t)at, 0x08, stack, 0x8e, (uint16_t)(at >> 16), (uint32_t)(at >> 32), 0};
}

static void begin_interrupts(void)
{
    struct __attribute__((packed)) {
        uint16_t limit;
        uint64_t at;
    } table = {sizeof gates - 1, (uint64_t)gates};
    uint64_t at = (uint64_t)&task;

    task.interrupt_stacks[0] = (uint64_t)timer_stack + sizeof timer_stack;
    task.interrupt_stacks[1] = (uint64_t)fault_stack + sizeof fault_stack;
    segments[3] = (sizeof task - 1) | (at & 0xffffff) << 16 | UINT64_C(0x89) << 40 | (at >> 24 & 0xff) << 56;
    segments[4] = at >> 32;
    for (int vector = 0; vector < 32; vector++)
        set_gate(vector, fault_entries + 16 * vector, 2);
    set_gate(1, step_entry, 1);
    set_gate(TIMER_VECTOR, timer_entry, 1);
    set_gate(SPURIOUS_VECTOR, spurious_entry, 2);
    __asm__ volatile("lidt %0; ltr %w1" ::"m"(table), "r"(0x18));
    out(0x21, 0xff); /* both of the old controllers are silent */
    out(0xa1, 0xff);
}

_Noreturn void machine_fault(uint64_t vector, uint64_t code, uint64_t rip, uint64_t address);

_Noreturn void machine_fault(uint64_t vector, uint64_t code, uint64_t rip, uint64_t address)
{
    print("kernel: fault %llu with code %llx at %llx, address %llx\n", (unsigned long long)vector, (unsigned long long)code,
          (unsigned long long)rip, (unsigned long long)address);
    machine_end(2);
}

/* ---- the clock and the timer ---- */

static volatile uint32_t *const apic = (volatile uint32_t *)0xfee00000;
enum { APIC_END = 0xb0 / 4, APIC_SPURIOUS = 0xf0 / 4, APIC_TIMER = 0x320 / 4, APIC_FIRST = 0x380 / 4, APIC_COUNT = 0x390 / 4,
       APIC_DIVIDE = 0x3e0 / 4 };

/* The least delay, so that the interrupts leave some time to what they interrupt. */
#define NEAREST 5000

static uint64_t first_stamp;
static uint64_t nanoseconds; /* in one stamp, times 2^32 */
static uint64_t ticks;       /* of the timer in one nanosecond, times 2^32 */

static uint64_t stamp(void)
{
    uint32_t low, high;
    __asm__ volatile("lfence; rdtsc" : "=a"(low), "=d"(high)::"memory");
    return (uint64_t)high << 32 | low;
}

int64_t machine_now(void)
{
    return (int64_t)((unsigned __int128)(stamp() - first_stamp) * nanoseconds >> 32);
}

/* Both rates by the old timer's second channel, which counts 59659 at 1193182 Hz: 50 milliseconds. */
static void begin_clock(void)
{
    const uint64_t window = 50000000;
    uint64_t stamps, counts;

    apic[APIC_SPURIOUS] = 0x100 | SPURIOUS_VECTOR;
    apic[APIC_DIVIDE] = 0xb; /* by one */
    apic[APIC_TIMER] = 0x10000 | TIMER_VECTOR;
    out(0x61, (uint8_t)((in(0x61) & ~2) | 1));
    out(0x43, 0xb0);
    out(0x42, 59659 & 0xff);
    out(0x42, 59659 >> 8);
    apic[APIC_FIRST] = UINT32_MAX;
    first_stamp = stamp();
    while (!(in(0x61) & 0x20))
        ;
    stamps = stamp() - first_stamp;
    counts = UINT32_MAX - apic[APIC_COUNT];
    apic[APIC_FIRST] = 0;
    apic[APIC_TIMER] = TIMER_VECTOR;
    nanoseconds = (window << 32) / stamps;
    ticks = (counts << 32) / window;
}

void machine_arm(int64_t moment)
{
    int64_t delay = moment - machine_now();
    if (delay > SECOND)
        delay = SECOND;
    if (delay < NEAREST)
        delay = NEAREST;
    apic[APIC_FIRST] = (uint32_t)((uint64_t)delay * ticks >> 32);
}

void machine_interrupt_begins(void)
{
    apic[APIC_FIRST] = 0;
}

void machine_interrupt_ends(void)
{
    apic[APIC_END] = 0;
}

/* ---- stacks ---- */

#define PATTERN UINT64_C(0x5ac35ac35ac35ac3)

void stack_fill(uint64_t *stack, size_t bytes)
{
    for (size_t k = 0; k < bytes / 8; k++)
        stack[k] = PATTERN;
}

size_t stack_depth(const uint64_t *stack, size_t bytes)
{
    size_t k = 0;
    while (k < bytes / 8 && stack[k] == PATTERN)
        k++;
    return bytes - 8 * k;
}

size_t machine_interrupt_depth(void)
{
    return stack_depth(timer_stack, sizeof timer_stack);
}

void machine_begin(void)
{
    stack_fill(timer_stack, sizeof timer_stack);
    begin_interrupts();
    begin_clock();
}
