/* board.c: start-up code for a Cortex-M without an operating system or a C library: vectors, memory, a serial line, a counter
 * of instructions, and how deep the stack went. Of qemu are the addresses of the serial line, and how a run ends. */
#include "board.h"
#include "string.h"
#include <stdbool.h>

#define REGISTER(address) (*(volatile uint32_t *)(address))
#define SERIAL_DATA REGISTER(0x40004000)
#define SERIAL_CONTROL REGISTER(0x40004008)
#define SERIAL_DIVIDER REGISTER(0x40004010)
#define COUNTER_CONTROL REGISTER(0xE000E010) /* SysTick: 24 bits, downwards, by the processor's clock of 25 MHz */
#define COUNTER_RELOAD REGISTER(0xE000E014)
#define COUNTER REGISTER(0xE000E018)
#define INTERRUPT_STATE REGISTER(0xE000ED04)
#define CONFIGURATION REGISTER(0xE000ED14)
enum { PAINT = 0xA5, TICK = 40, EXIT = 0x20, EXIT_REASON = 0x20026 };

/* Where link.ld puts all of it. */
extern uint8_t data_begin[], data_end[], data_in_flash[], zeros_begin[], zeros_end[], stack_end[], stack_begin[];

/* ---- what mscp.c, port.c and the compiler want of a C library */

/* A word of memory, of whatever type: these move words, where the processor may. */
#ifdef ALIGNED_ALONE
typedef uint32_t __attribute__((may_alias)) word;
#define IN_WORDS(bits) (((bits) & 3) == 0)
#else
typedef uint32_t __attribute__((may_alias, aligned(1))) word;
#define IN_WORDS(bits) true
#endif

void *memcpy(void *to, const void *from, size_t count)
{
    uint8_t *put = to;
    const uint8_t *get = from, *const end = get + count;
    if (IN_WORDS((uintptr_t)put | (uintptr_t)get)) {
        for (; end - get >= 16; put += 16, get += 16) {
            const word *const in = (const word *)get, one = in[0], two = in[1], three = in[2], four = in[3];
            word *const out = (word *)put;
            out[0] = one, out[1] = two, out[2] = three, out[3] = four;
        }
        for (; end - get >= 4; put += 4, get += 4)
            *(word *)put = *(const word *)get;
    }
    while (get != end)
        *put++ = *get++;
    return to;
}

void *memmove(void *to, const void *from, size_t count)
{
    uint8_t *put = (uint8_t *)to + count;
    const uint8_t *get = (const uint8_t *)from + count;
    if ((uintptr_t)to <= (uintptr_t)from)
        return memcpy(to, from, count);
    while (get != from)
        *--put = *--get;
    return to;
}

void *memset(void *to, int byte, size_t count)
{
    const word all = (uint8_t)byte * 0x01010101u;
    uint8_t *put = to, *const end = put + count;
    if (IN_WORDS((uintptr_t)put)) {
        for (; end - put >= 16; put += 16)
            ((word *)put)[0] = all, ((word *)put)[1] = all, ((word *)put)[2] = all, ((word *)put)[3] = all;
        for (; end - put >= 4; put += 4)
            *(word *)put = all;
    }
    while (put != end)
        *put++ = (uint8_t)byte;
    return to;
}

int memcmp(const void *one, const void *other, size_t count)
{
    const uint8_t *a = one, *b = other;
    for (; count > 0; count--, a++, b++)
        if (*a != *b)
            return *a < *b ? -1 : 1;
    return 0;
}

/* ---- the serial line */

void say(const char *text)
{
    while (*text != 0)
        SERIAL_DATA = (uint8_t)*text++;
}

void say_number(uint32_t number)
{
    if (number >= 10)
        say_number(number / 10);
    SERIAL_DATA = '0' + number % 10;
}

void say_hex(uint32_t number, unsigned digits)
{
    while (digits-- > 0)
        SERIAL_DATA = (uint8_t)"0123456789abcdef"[number >> 4 * digits & 15];
}

/* ---- figures */

uint32_t instructions(void)
{
    static uint32_t last;
    const uint32_t now = COUNTER, went = (last - now) & 0xFFFFFF;
    last = now;
    return TICK * went;
}

__attribute__((noinline)) void paint_stack(void)
{
    volatile uint8_t *const top = (uint8_t *)__builtin_frame_address(0) - 64; /* this function's own is above that */
    for (volatile uint8_t *at = stack_end; at < top; at++)
        *at = PAINT;
}

__attribute__((noinline)) uint32_t stack_taken(void)
{
    const uint8_t *const top = __builtin_frame_address(0), *at = stack_end;
    while (at < top && *at == PAINT)
        at++;
    return (uint32_t)(top - at);
}

/* ---- interrupts: PendSV is the line of a bus */

void raise_bus_interrupt(void)
{
    INTERRUPT_STATE = 1u << 28;
    __asm__ volatile("dsb\n\tisb" ::: "memory");
}

void mask_interrupts(void) { __asm__ volatile("cpsid i" ::: "memory"); }
void unmask_interrupts(void) { __asm__ volatile("cpsie i\n\tisb" ::: "memory"); }

/* ---- the beginning and the end */

/* Ends qemu with this status, by semihosting. */
static void finish(int status)
{
    uint32_t words[2] = {EXIT_REASON, (uint32_t)status};
    register uint32_t call __asm__("r0") = EXIT;
    register uint32_t *of __asm__("r1") = words;
    __asm__ volatile("bkpt 0xab" : "+r"(call) : "r"(of) : "memory");
    for (;;) {}
}

static void fault(void)
{
    say("a fault of the processor\n");
    finish(3);
}

/* mscp.c is compiled with -DMSCP_TRAP=trapped: it is proved that nobody comes here. */
void trapped(void);
void trapped(void)
{
    say("a trap of mscp.c\n");
    finish(4);
}

void start(void);
void start(void)
{
    memcpy(data_begin, data_in_flash, (size_t)(data_end - data_begin));
    memset(zeros_begin, 0, (size_t)(zeros_end - zeros_begin));
    SERIAL_DIVIDER = 16;
    SERIAL_CONTROL = 1;
#ifdef ALIGNED_ALONE
    CONFIGURATION |= 1u << 3; /* an access that isn't aligned is a fault, as it is on a Cortex-M0+ */
    __asm__ volatile("dsb\n\tisb" ::: "memory");
#endif
    COUNTER_RELOAD = 0xFFFFFF;
    COUNTER = 0;
    COUNTER_CONTROL = 5;
    finish(run());
}

__attribute__((section(".vectors"), used)) static void (*const VECTORS[16])(void) = {
    (void (*)(void))stack_begin, start, fault, fault, fault, fault, fault, [11] = fault, [14] = bus_interrupt, [15] = fault,
};
