/* log.h: what a controller gets and what it answers, as a log for ./mscpjudge (docs/FORMATS.md, Logs). Call each of
 * these beside the call of the controller that it names, with what that got and what it answered. Any controller
 * that counts and answers as mscp.h says can be logged so, also one that isn't ours.
 *
 * With -DLOG_WIRE the same calls write what goes over the wire, for ./mscpjudge wire (docs/JUDGE.md). */
#ifndef LOG_H
#define LOG_H
#include "mscp.h"
#include <stdbool.h>
#include <stdio.h>

#ifdef LOG_WIRE
enum { LOG_IS_OF_WIRE = 1 };
#else
enum { LOG_IS_OF_WIRE = 0 };
#endif

/* What every line of the second connection begins with. */
static inline const char *log_second(uint32_t connection)
{
    return connection == MSCP_CONNECTION_SECOND ? "second " : "";
}

static inline void log_bytes(FILE *log, const uint8_t *bytes, size_t length)
{
    for (size_t i = 0; i < length; i++)
        fprintf(log, "%02x", bytes[i]);
    fputc('\n', log);
}

/* The head of the log, beside mscp_init: on the wire that is a reset. Unit N has the identifier and the serial number
 * N + 1 and the media type 0, and the controller the identifier 1: a log can say no others. */
static inline void log_init(FILE *log, const struct mscp_limits *limits, const struct mscp_unit *units, size_t count)
{
    if (LOG_IS_OF_WIRE) {
        fprintf(log, "reset\n");
        return;
    }
    fprintf(log, "credits %u %u\nbudget %llu\nlongest %u\ntimeout %u\n", (unsigned)limits->credits,
            (unsigned)limits->second, (unsigned long long)limits->budget, (unsigned)limits->longest,
            (unsigned)limits->timeout);
    for (size_t i = 0; i < count; i++)
        fprintf(log, "unit %u %u %u %u %u\n", (unsigned)units[i].number, (unsigned)units[i].track,
                (unsigned)units[i].group, (unsigned)units[i].cylinder, (unsigned)units[i].size);
    fprintf(log, "go\n");
}

/* Beside mscp_send, of a message of 1 to 64 bytes. */
static inline void log_send(FILE *log, uint32_t connection, const uint8_t *message, size_t length, int32_t status,
                            const struct mscp_sent *sent)
{
    const char *second = log_second(connection);
    bool is_taken = status == MSCP_QUEUED || status == MSCP_ANSWERED;
    if (LOG_IS_OF_WIRE && !is_taken)
        return;
    fprintf(log, "%s%s ", second, LOG_IS_OF_WIRE ? "send" : "packet");
    log_bytes(log, message, length);
    if (LOG_IS_OF_WIRE)
        return;
    if (status == MSCP_QUEUED)
        fprintf(log, "%squeued %u\n", second, (unsigned)sent->reference);
    else if (status == MSCP_ANSWERED && sent->has_aborted)
        fprintf(log, "%sanswered %u aborted %u\n", second, (unsigned)sent->reference, (unsigned)sent->aborted);
    else if (status == MSCP_ANSWERED)
        fprintf(log, "%sanswered %u\n", second, (unsigned)sent->reference);
    else
        fprintf(log, "%srefused %s\n", second, status == MSCP_SHORT         ? "short"
                                               : status == MSCP_LONG        ? "long"
                                               : status == MSCP_NO_CREDIT   ? "no-credit"
                                               : status == MSCP_LAST_CREDIT ? "last-credit"
                                                                            : "doubled");
}

/* Beside mscp_step and mscp_finish, if they answer MSCP_DONE: the block had this status. */
static inline void log_step(FILE *log, uint16_t block, const struct mscp_report *report)
{
    if (LOG_IS_OF_WIRE)
        return;
    if (block == 0)
        fprintf(log, "step 1\n");
    else
        fprintf(log, "bad %04X\n", (unsigned)block);
    fprintf(log, "%sserve %u unit %u block ", log_second(report->connection), (unsigned)report->reference,
            (unsigned)report->unit);
    if (report->touched)
        fprintf(log, "%u seek %u", (unsigned)report->lbn, (unsigned)report->seek);
    else
        fprintf(log, "none seek 0");
    if (report->ended)
        fprintf(log, " ended %04X", (unsigned)report->status);
    fputc('\n', log);
}

/* Beside mscp_take, if it answers MSCP_DONE. */
static inline void log_take(FILE *log, uint32_t connection, const struct mscp_packet *end)
{
    if (!LOG_IS_OF_WIRE)
        fprintf(log, "%stake\n", log_second(connection));
    fprintf(log, "%send ", log_second(connection));
    log_bytes(log, end->bytes, end->length);
}
#endif
