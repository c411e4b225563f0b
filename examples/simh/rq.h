/* rq.h: what pdp11_rq.c takes from its neighbours. */
#ifndef RQ_H
#define RQ_H
#include "mscp.h"
#include <stdbool.h>
#include <stdio.h>

/* rq_show.c: who waits in a port, of which unit, how long at most, and why. The units have the name of the device, and
 * numbers from the first one on, at which it counts from 0. */
void rq_show_queue (FILE *to, const struct mscp_port *port, const char *name, uint16_t first);

/* The vector by which a port interrupts its host, in octal. */
void rq_show_vector (FILE *to, const struct mscp_port *port);

/* A line that says what a message from the host or to it is, of the device of this name. */
void rq_show_message (FILE *to, const char *name, bool is_to_host, const uint8_t *bytes, uint32_t length);

/* rq_pdp11.c or rq_vax.c: the machine's memory, by addresses of the bus. */
enum mscp_outcome rq_read_memory (void *machine, uint32_t address, uint8_t *bytes, uint32_t count);
enum mscp_outcome rq_write_memory (void *machine, uint32_t address, const uint8_t *bytes, uint32_t count);

/* Puts the boot code into memory, for the unit of this number at the controller of this address, where the processor
 * begins with it. Whether there is such code: a VAX boots by its console. */
bool rq_boot (uint16_t number, uint16_t address);

/* Whether the units of all controllers together have numbers. */
#ifdef VM_VAX
enum { RQ_NUMBERS_RISE = 0 };
#else
enum { RQ_NUMBERS_RISE = 1 };
#endif
#endif
