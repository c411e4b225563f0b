/* board.h: what this firmware asks of its board, a Cortex-M of qemu's mps2-an385 without an operating system. board.c has
 * it. */
#ifndef BOARD_H
#define BOARD_H
#include <stddef.h>
#include <stdint.h>

/* Writes to the serial line. */
void say(const char *text);
void say_number(uint32_t number);
void say_hex(uint32_t number, unsigned digits);

/* The instructions since the last call, in steps of 40 if qemu counts them (-icount shift=0). */
uint32_t instructions(void);

/* Paints what lies below the caller's frame, down to the end of the stack; and the bytes of it that were written since. */
void paint_stack(void);
uint32_t stack_taken(void);

/* Interrupts the processor, as a line of a bus would: bus_interrupt runs at once. mask and unmask put that off. */
void raise_bus_interrupt(void);
void bus_interrupt(void);
void mask_interrupts(void);
void unmask_interrupts(void);

/* Whether all went well, which is the status of qemu. */
int run(void);
#endif
