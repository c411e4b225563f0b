/* stepping.h: what beginning.c, judging.c and sharing.c share: a controller, a call each, and what it must answer. */
#ifndef STEPPING_H
#define STEPPING_H
#include "trying.h"
#include <stdbool.h>

enum { NO_BLOCK = -1, GOOD = 0, NO_END = -1 };

/* The controller on trial, of unit 0 with 1000 blocks, 20 of them a cylinder. Its budget is 16 blocks. */
static struct mscp *mscp;

static inline void make(uint32_t credits, uint32_t second, uint32_t picker)
{
    static const struct mscp_unit unit = {1, 1000, 0, 1, 0, 10, 2, 1};
    const struct mscp_limits limits = {1, 16, credits, second, 8, 60};
    size_t size = MSCP_HEAD + mscp_size();
    mscp = mscp_in_memory(memory_of(size), size);
    is("init", mscp_init(mscp, &limits, &unit, 1, picker), MSCP_DONE);
}

static inline void drop(void) { free(mscp); }

/* ---- messages */

/* The command is queued or answered, or refused for this. It aborts none. */
static inline void sends(uint32_t connection, uint8_t *message, int32_t wanted)
{
    struct mscp_sent sent = {0, 0, 0};
    is("send", mscp_send(mscp, connection, message, 32, &sent), wanted);
    is("its number", sent.reference, wanted > 0 ? number(message, 4) : 0);
    is("whom it aborts", sent.has_aborted, 0);
}

static inline void reads(uint32_t connection, uint32_t reference, uint32_t bytes, uint32_t block)
{
    sends(connection, command(reference, MSCP_READ, bytes, block), MSCP_QUEUED);
}

static inline void aborts(uint32_t connection, uint32_t reference, uint32_t other)
{
    struct mscp_sent sent = {0, 0, 0};
    is("abort", mscp_send(mscp, connection, command(reference, MSCP_ABORT, other, 0), 16, &sent), MSCP_ANSWERED);
    is("its number", sent.reference, reference);
    is("whom it aborts", sent.has_aborted && sent.aborted == other, 1);
}

/* ---- ends */

/* The oldest end that wasn't taken is of this command to unit 0, and so many bytes long. Behind its status is this. */
static inline void takes(uint32_t connection, uint32_t reference, uint8_t code, uint16_t status, uint32_t length,
                         uint32_t first)
{
    struct mscp_packet end;
    is("take", mscp_take(mscp, connection, &end), MSCP_DONE);
    is("its length", end.length, length);
    is("its number", number(end.bytes, 4), reference);
    is("its unit", number(end.bytes + 4, 4), 0);
    is("its code", number(end.bytes + 8, 2), code);
    is("its status", number(end.bytes + 10, 2), status);
    is("what it tells", number(end.bytes + 12, 4), first);
}

/* The end of a READ, with this status and so many bytes. */
static inline void takes_read(uint32_t connection, uint32_t reference, uint16_t status, uint32_t bytes)
{
    takes(connection, reference, 0xA1, status, 32, bytes);
}

/* The end of an ABORT of the other command. */
static inline void takes_abort(uint32_t connection, uint32_t reference, uint32_t other)
{
    takes(connection, reference, 0x81, 0, 16, other);
}

static inline void takes_nothing(uint32_t connection)
{
    struct mscp_packet end;
    is("take nothing", mscp_take(mscp, connection, &end), MSCP_NOTHING);
}

/* ---- steps */

/* A step is begun: it is of this command to unit 0, of so many bytes, touches this block, and so many came before. */
static inline void begins(uint32_t connection, uint32_t reference, uint8_t opcode, uint32_t bytes, int64_t block,
                          uint32_t done, uint32_t weight)
{
    struct mscp_upcoming next = {0, 0, 0, 0, 0, 0, 0, 0, 0, 0};
    is("begin", mscp_begin(mscp, &next), MSCP_DONE);
    is("whose", next.connection, connection);
    is("its number", next.reference, reference);
    is("its opcode", next.opcode, opcode);
    is("its unit", next.unit, 0);
    is("its bytes", next.bytes, bytes);
    is("its block", next.touches ? (int64_t)next.lbn : NO_BLOCK, block);
    is("how many before", next.done, done);
    is("how many in all", next.weight, weight);
}

static inline void begins_nothing(void)
{
    struct mscp_upcoming next;
    is("begin nothing", mscp_begin(mscp, &next), MSCP_NOTHING);
}

/* What a step of a command to unit 0 tells: whether it is the first, how far the head went, and the end's status. */
struct served {
    uint32_t connection, reference;
    int64_t block;
    bool started;
    uint32_t seek;
    int64_t status;
};

static inline void is_served(const struct mscp_report *report, struct served wanted)
{
    is("whose", report->connection, wanted.connection);
    is("its number", report->reference, wanted.reference);
    is("its unit", report->unit, 0);
    is("its block", report->touched ? (int64_t)report->lbn : NO_BLOCK, wanted.block);
    is("the first", report->started, wanted.started);
    is("seek", report->seek, wanted.seek);
    is("its end", report->ended ? report->status : NO_END, wanted.status);
}

static inline void steps(uint16_t block, struct served wanted)
{
    struct mscp_report report = {0, 0, 0, 0, 0, 0, 0, 0, 0};
    is("step", mscp_step(mscp, block, &report), MSCP_DONE);
    is_served(&report, wanted);
}

/* So many steps with good blocks are made. */
static inline void makes_steps(uint32_t count)
{
    struct mscp_report report;
    for (uint32_t i = 0; i < count; i++)
        is("step", mscp_step(mscp, GOOD, &report), MSCP_DONE);
}

static inline void finishes(uint16_t block, struct served wanted)
{
    struct mscp_report report = {0, 0, 0, 0, 0, 0, 0, 0, 0};
    is("finish", mscp_finish(mscp, wanted.connection, wanted.reference, block, &report), MSCP_DONE);
    is_served(&report, wanted);
}

static inline void finishes_nothing(uint32_t connection, uint32_t reference, uint16_t block)
{
    struct mscp_report report;
    is("finish nothing", mscp_finish(mscp, connection, reference, block, &report), MSCP_NOT_BEGUN);
}

/* Unit 0 comes online, and the end is taken. */
static inline void make_online(uint32_t credits, uint32_t second, uint32_t picker)
{
    make(credits, second, picker);
    sends(FIRST, command(900, MSCP_ONLINE, 0, 0), MSCP_QUEUED);
    steps(GOOD, (struct served){FIRST, 900, NO_BLOCK, true, 0, 0});
    takes(FIRST, 900, 0x89, 0, 44, 0);
}

/* ---- what there is */

static inline void has_free(uint32_t connection, int64_t credits)
{
    is("free", mscp_balance(mscp, connection), credits);
}

static inline void has_figure(uint32_t connection, uint32_t reference, int64_t figure)
{
    is("figure", mscp_figure(mscp, connection, reference), figure);
}

/* Just these wait, with these figures. */
static inline void shows(const struct mscp_waiting *wanted, int32_t count)
{
    struct mscp_waiting list[64];
    is("how many wait", mscp_look(mscp, list, COUNT(list)), count);
    for (int32_t i = 0; i < count; i++) {
        is("whose", list[i].connection, wanted[i].connection);
        is("its number", list[i].reference, wanted[i].reference);
        is("its figure", list[i].figure, wanted[i].figure);
    }
}

/* So many commands of each connection wait, and so many ends of each weren't taken. */
static inline void keeps(int64_t waiting, int64_t waiting_of_second, int64_t ends, int64_t ends_of_second)
{
    is("waiting", mscp_waiting(mscp, FIRST), waiting);
    is("waiting of the second", mscp_waiting(mscp, SECOND), waiting_of_second);
    is("untaken", mscp_untaken(mscp, FIRST), ends);
    is("untaken of the second", mscp_untaken(mscp, SECOND), ends_of_second);
}
#endif
