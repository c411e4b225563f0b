/* emulator.h: an emulated disk controller over a disk image, as examples/emulator.c has it. */
#ifndef EMULATOR_H
#define EMULATOR_H
#include "mscp.h"
#include <stdbool.h>
#include <stdio.h>

#define EMULATOR_RING 4u    /* slots of each ring */
#define EMULATOR_CREDITS 8u /* of its controller */

/* Where the host wants the data of a command: an address in its memory. */
struct buffer {
    uint32_t reference;
    uint32_t address;
};

/* A command in the ring, with the address of its data beside it. */
struct posted {
    uint8_t message[MSCP_MESSAGE_MAX];
    size_t length;
    uint32_t address;
};

/* The block that the drive has in work. */
struct job {
    struct mscp_upcoming next;
    uint16_t status;
    uint8_t bytes[MSCP_BLOCK];
};

/* A port with a ring of commands and a ring of ends, a controller, a drive with an image, and the memory of the host. */
struct emulator {
    struct mscp *mscp;
    FILE *image;
    uint8_t *memory;
    uint32_t memory_bytes;
    struct buffer buffers[MSCP_CREDITS_MAX];
    unsigned buffers_count;
    struct posted commands[EMULATOR_RING];
    unsigned commands_count;
    struct mscp_packet ends[EMULATOR_RING];
    unsigned ends_count;
    FILE *log; /* for what the controller gets and answers, or NULL */
    unsigned port_errors; /* messages that are no command messages, or have a number that is in use */
};

/* Opens the image for an emulator whose host has this memory. Each whole block of the image is one of unit 0. Whether it
 * could be done; if not, a line on standard error says why. */
bool emulator_open(struct emulator *emulator, const char *path, uint8_t *memory, uint32_t memory_bytes);
void emulator_close(struct emulator *emulator);

/* From now on each event of the controller is written here, for ./mscpjudge: before its first one, and up to a reset. */
void emulator_log(struct emulator *emulator, FILE *log);

/* The host's side of the port: puts a command into its ring, takes the oldest end out of the other. Whether there was room
 * for one, or one. Each end hands a credit back to the host. */
bool emulator_post(struct emulator *emulator, const uint8_t *message, size_t length, uint32_t address);
bool emulator_next(struct emulator *emulator, struct mscp_packet *end);

/* The controller's side: takes commands in, as many as have a credit; puts ends into the ring, as many as have a slot. */
void emulator_receive(struct emulator *emulator);
void emulator_deliver(struct emulator *emulator);

/* The drive: begins a block, if a command waits, and moves it; and then says that it is through. In between anything may
 * come. */
bool emulator_begin(struct emulator *emulator, struct job *job);
bool emulator_finish(struct emulator *emulator, struct job *job);

/* All of it: commands in, so many blocks at most, ends out. How many blocks there were. */
unsigned emulator_serve(struct emulator *emulator, unsigned most);

/* The same with one block. Whether there was one. */
bool emulator_turn(struct emulator *emulator);

/* The host resets the port. */
void emulator_reset(struct emulator *emulator);

/* The little-endian numbers of messages and ends. */
void put_number(uint8_t *to, unsigned bytes, uint32_t number);
uint32_t get_number(const uint8_t *from, unsigned bytes);
#endif
