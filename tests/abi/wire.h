/* wire.h: what goes over a port's wire, as a log for ./mscpjudge wire (docs/JUDGE.md). Call these beside the calls of
 * the port that they name. The log is that of one port, and goes into the file that WIRE names in the environment. */
#ifndef WIRE_H
#define WIRE_H
#include "log.h"
#include <stdlib.h>
#include <string.h>

enum { WIRE_ENVELOPE = 4, WIRE_CODE = WIRE_ENVELOPE + 8, WIRE_IS_END = 0x80 };

static struct {
    FILE *log;
    const char *word; /* what a slot that is given back says: a `send` or an `end` of these bytes, or NULL */
    uint8_t bytes[64];
    size_t length;
} wire;

static inline void wire_keep(const char *word, const uint8_t *bytes, size_t length)
{
    wire.word = word;
    wire.length = length;
    memcpy(wire.bytes, bytes, length);
}

static inline void wire_tell(const char *word, size_t length)
{
    const char *name = getenv("WIRE");
    if (name == NULL)
        return;
    if (wire.log == NULL && (wire.log = fopen(name, "w")) == NULL) {
        perror(name);
        exit(1);
    }
    fputs(word, wire.log);
    log_bytes(wire.log, wire.bytes, length);
    fflush(wire.log); /* the machine may stop at any time */
}

/* After mscp_port_write_ip, if it answers MSCP_DONE. */
static inline void wire_reset(void)
{
    wire_tell("reset", 0);
}

/* Around mscp_port_was_read or mscp_port_went, if the action was done: what it answered, which this answers too, the
 * action, and the bytes that were read or written.
 *
 * The last text or end has gone over the wire when its slot is given back by a WRITE of four bytes: a command that
 * has no credit stays in its slot, and is read again. No address is needed: a text and a packet have 12 bytes at
 * least, a slot and an envelope four, and an interrupt word two. An attention message is no end, since it answers no
 * command, and neither are 64 zeros, which clear the rings and come before four of them. */
static inline int32_t wire_action(int32_t status, const struct mscp_action *action, const uint8_t *bytes)
{
    if (status != MSCP_DONE)
        return status;
    if (action->kind == MSCP_ACTION_READ && action->count > WIRE_ENVELOPE) {
        wire_keep("send ", bytes, action->count);
    } else if (action->kind == MSCP_ACTION_WRITE && action->count > WIRE_CODE) {
        const char *word = bytes[WIRE_CODE] & WIRE_IS_END ? "end " : NULL;
        wire_keep(word, bytes + WIRE_ENVELOPE, action->count - WIRE_ENVELOPE);
    } else if (action->kind == MSCP_ACTION_WRITE && action->count == WIRE_ENVELOPE && wire.word != NULL) {
        wire_tell(wire.word, wire.length);
    }
    return status;
}
#endif
