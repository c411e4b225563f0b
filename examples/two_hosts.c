/* two_hosts.c: a controller that serves two hosts, each by a connection with rings of its own.
 *
 *     cc two_hosts.c $(pkg-config --cflags --libs mscp) -o two_hosts
 *     ./two_hosts
 *
 * Both hosts read blocks of one unit, and number their commands alike: a command is known by its connection and its
 * number. Each host polls its own oldest command, and gets its own ends. The second aborts a READ, and the first's READ of
 * the same number goes on. The unit's blocks lie in an array: emulator.c has a disk image, and more than READs. */
#include "mscp.h"
#include <stdbool.h>
#include <stdio.h>
#include <stdlib.h>
#include <string.h>

enum { CREDITS = 6, RING = 8, BLOCKS = 64, READS = 3, LENGTH = 2 * MSCP_BLOCK, ABORTED = 2 };
enum { ONLINE_REFERENCE = 1, FIRST_READ = 10, ABORT_REFERENCE = 20, FIRST_POLL = 100, ABORTED_STATUS = 2 };

/* Messages or ends, oldest first. */
struct ring {
    struct mscp_packet slots[RING];
    unsigned count;
};

/* A connection: its rings, and after them a host with its account and its memory. READ number i of the host goes to the
 * i-th part of that memory. */
struct port {
    uint32_t connection;
    struct ring commands, ends;
    struct mscp_host *host;
    uint32_t next_poll;
    uint8_t memory[READS * LENGTH];
    uint16_t status[READS]; /* of their ends */
    unsigned ended;         /* commands that have ended, without the polls */
};

static struct mscp *mscp;
static uint8_t disk[BLOCKS * MSCP_BLOCK];
static struct port ports[2] = {{.connection = MSCP_CONNECTION_FIRST}, {.connection = MSCP_CONNECTION_SECOND}};

static void must(bool holds, const char *what)
{
    if (!holds) {
        printf("FAILED: %s\n", what);
        exit(1);
    }
}

static void put(struct ring *ring, const struct mscp_packet *packet)
{
    must(ring->count < RING, "the ring has a slot");
    ring->slots[ring->count++] = *packet;
}

static void drop_oldest(struct ring *ring)
{
    ring->count--;
    memmove(ring->slots, ring->slots + 1, ring->count * sizeof *ring->slots);
}

/* ---- the controller's side */

/* A controller of one unit, with credits for each connection. */
static void make_controller(void)
{
    const struct mscp_unit unit = {.id = 1, .size = BLOCKS, .serial = 1, .track = 4, .group = 2, .cylinder = 1};
    const struct mscp_limits limits = {
        .id = 1, .credits = CREDITS, .second = CREDITS, .budget = 16, .longest = 4, .timeout = 60,
    };
    size_t length = MSCP_HEAD + mscp_size();
    void *memory = malloc(length);
    must(mscp_init(mscp_in_memory(memory, length), &limits, &unit, 1, MSCP_SWEEP) == MSCP_DONE, "a controller");
    mscp = (struct mscp *)memory;
}

/* Takes commands in, as many as have a credit of this connection. */
static void receive(struct port *port)
{
    while (port->commands.count > 0) {
        const struct mscp_packet *message = &port->commands.slots[0];
        struct mscp_sent sent;
        int32_t status = mscp_send(mscp, port->connection, message->bytes, message->length, &sent);
        if (status == MSCP_NO_CREDIT || status == MSCP_LAST_CREDIT)
            break; /* it waits in the ring for one */
        must(status == MSCP_QUEUED || status == MSCP_ANSWERED, "a command message");
        drop_oldest(&port->commands);
    }
}

/* Puts ends of this connection into its ring, as many as have a slot. */
static void deliver(struct port *port)
{
    struct mscp_packet end;
    while (port->ends.count < RING && mscp_take(mscp, port->connection, &end) == MSCP_DONE)
        put(&port->ends, &end);
}

/* Serves one block of whichever connection, if a command waits. */
static void serve(void)
{
    struct mscp_upcoming next;
    struct mscp_report report;
    if (mscp_begin(mscp, &next) != MSCP_DONE)
        return;
    if (next.touches) {
        size_t part = (next.reference - FIRST_READ) * LENGTH + next.done * MSCP_BLOCK;
        memcpy(ports[next.connection].memory + part, disk + next.lbn * MSCP_BLOCK, MSCP_BLOCK);
    }
    must(mscp_finish(mscp, next.connection, next.reference, 0, &report) == MSCP_DONE, "what was begun is finished");
}

/* ---- the hosts */

/* Sends a command, if the host's account has a credit for it. */
static void submit(struct port *port, struct mscp_command command)
{
    struct mscp_packet message;
    mscp_write_command(&command, &message);
    must(mscp_host_submit(port->host, message.bytes, message.length) == MSCP_DONE, "a credit");
    put(&port->commands, &message);
}

/* Polls the host's oldest command, unless a poll is still to be answered. */
static void poll(struct port *port)
{
    struct mscp_packet message;
    if (mscp_host_poll(port->host, port->next_poll, &message) == MSCP_DONE) {
        put(&port->commands, &message);
        port->next_poll++;
    }
}

static void ended(struct port *port, const struct mscp_news *news)
{
    printf("host %u: %u ended, status %04x\n", (unsigned)port->connection, (unsigned)news->reference,
           (unsigned)news->status);
    if (news->reference - FIRST_READ < READS)
        port->status[news->reference - FIRST_READ] = news->status;
    port->ended++;
}

/* Takes the ends of this host. */
static void hear(struct port *port)
{
    for (; port->ends.count > 0; drop_oldest(&port->ends)) {
        const struct mscp_packet *end = &port->ends.slots[0];
        struct mscp_news news;
        switch (mscp_host_receive(port->host, end->bytes, end->length, &news)) {
        case MSCP_ENDED:
            ended(port, &news);
            break;
        case MSCP_FIRST:
        case MSCP_PROGRESS:
            printf("host %u: at most %u steps more\n", (unsigned)port->connection, (unsigned)news.figure);
            break;
        case MSCP_LATE:
            break;
        default:
            must(false, "an end of its own, and figures that fall");
        }
    }
}

static void begin_host(struct port *port)
{
    size_t length = MSCP_HEAD + mscp_host_size();
    void *memory = malloc(length);
    must(mscp_host_init(mscp_host_in_memory(memory, length), CREDITS) == MSCP_DONE, "a host");
    port->host = (struct mscp_host *)memory;
    port->next_poll = FIRST_POLL;
}

/* ---- both */

/* Commands in, a block, ends out, until this many commands of each host have ended. Each polls at each turn. */
static void run_until(unsigned first, unsigned second)
{
    while (ports[0].ended < first || ports[1].ended < second) {
        for (unsigned i = 0; i < 2; i++) {
            poll(&ports[i]);
            receive(&ports[i]);
        }
        serve();
        for (unsigned i = 0; i < 2; i++) {
            deliver(&ports[i]);
            hear(&ports[i]);
        }
    }
}

/* The i-th READ of a host: the two read different blocks by one number. */
static uint32_t lbn_of(const struct port *port, unsigned i)
{
    return (port->connection == MSCP_CONNECTION_FIRST ? 4 : 40) + 8 * i;
}

/* Whether each READ has ended well, and its data are there, but for the one that the second host aborted. */
static bool is_read(const struct port *port)
{
    for (unsigned i = 0; i < READS; i++) {
        bool aborted = port->connection == MSCP_CONNECTION_SECOND && i == ABORTED;
        if (port->status[i] != (aborted ? ABORTED_STATUS : 0) ||
            (!aborted && memcmp(port->memory + i * LENGTH, disk + lbn_of(port, i) * MSCP_BLOCK, LENGTH) != 0))
            return false;
    }
    return true;
}

int main(void)
{
    bool good;
    for (unsigned i = 0; i < sizeof disk; i++)
        disk[i] = (uint8_t)(i * 7 + i / MSCP_BLOCK);
    make_controller();
    for (unsigned i = 0; i < 2; i++) {
        begin_host(&ports[i]);
        submit(&ports[i], (struct mscp_command){.reference = ONLINE_REFERENCE, .opcode = MSCP_ONLINE});
    }
    run_until(1, 1);
    for (unsigned i = 0; i < 2; i++)
        for (unsigned j = 0; j < READS; j++)
            submit(&ports[i], (struct mscp_command){.reference = FIRST_READ + j, .opcode = MSCP_READ, .bytes = LENGTH,
                                                    .lbn = lbn_of(&ports[i], j)});
    submit(&ports[1],
           (struct mscp_command){.reference = ABORT_REFERENCE, .opcode = MSCP_ABORT, .other = FIRST_READ + ABORTED});
    run_until(1 + READS, 1 + READS + 1);
    good = is_read(&ports[0]) && is_read(&ports[1]);
    printf("%s\n", good ? "all is read but what was aborted" : "FAILED");
    for (unsigned i = 0; i < 2; i++)
        free(ports[i].host);
    free(mscp);
    return !good;
}
