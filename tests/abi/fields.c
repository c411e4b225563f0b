/* Each field of the structs of mscp.h and of the ends, by numbers of which no two are alike, and the limits that mscp.h names.
 * Where the ends have their fields docs/FORMATS.md says. Prints what is wrong, and ends with 1 where something is. */
#include "trying.h"

/* A cylinder has 53 * 7 * 3 = 1113 blocks. The unit before it is there to have another number. */
static const struct mscp_unit UNITS[2] = {
    {.size = 1, .number = 0x0102, .track = 1, .group = 1, .cylinder = 1},
    {.id = UINT64_C(0x1112131415161718), .size = 90000, .media = 0x21222324, .serial = 0x31323334, .number = 0x4142,
     .track = 53, .group = 7, .cylinder = 3},
};
/* What waits may be passed by 3355443200 blocks. */
static const struct mscp_limits LIMITS = {
    .id = UINT64_C(0x8182838485868788), .budget = 3355443200u, .credits = 2, .second = 62, .longest = 8388608, .timeout = 161,
};
static const uint32_t FIGURE = 3355443202u; /* the budget, and the two blocks of the command's own */

static MSCP_ALIGNED uint64_t memory[(MSCP_HEAD + MSCP_SIZE) / sizeof(uint64_t)];
static MSCP_ALIGNED uint64_t host_memory[(MSCP_HEAD + MSCP_HOST_SIZE) / sizeof(uint64_t)];
static struct mscp *mscp;
static struct mscp_host *host;
static uint32_t via; /* the connection of all calls */

static const uint8_t *to_unit(uint32_t reference, uint8_t opcode, uint32_t first, uint32_t block)
{
    uint8_t *message = command(reference, opcode, first, block);
    put(message + 4, 2, 0x4142);
    return message;
}

/* Serves what waits, and takes the end of this command, of this length. */
static struct mscp_packet end_of(uint32_t reference, uint8_t opcode, uint16_t status, uint32_t length)
{
    struct mscp_packet end;
    struct mscp_report report;
    while (mscp_step(mscp, 0, &report) == MSCP_DONE)
        continue;
    is("an end", mscp_take(mscp, via, &end), MSCP_DONE);
    is("its length", end.length, length);
    is("its reference number", number(end.bytes, 4), reference);
    is("its unit", number(end.bytes + 4, 2), 0x4142);
    is("its endcode", end.bytes[8], 0x80 | opcode);
    is("its status", number(end.bytes + 10, 2), status);
    return end;
}

/* In static memory, of which there is enough. */
static void sizes(void)
{
    is("a controller's memory", MSCP_SIZE >= mscp_size(), 1);
    is("a host's memory", MSCP_HOST_SIZE >= mscp_host_size(), 1);
    is("a driver's memory", MSCP_DRIVER_SIZE >= mscp_driver_size() && MSCP_ALIGN % mscp_driver_align() == 0, 1);
    mscp = mscp_in_memory(memory, sizeof memory);
    is("init", mscp_init(mscp, &LIMITS, UNITS, 2, MSCP_OLDEST), MSCP_DONE);
    host = mscp_host_in_memory(host_memory, sizeof host_memory);
    is("init of a host", mscp_host_init(host, MSCP_CREDITS_MAX), MSCP_DONE);
}

static void unit_status(void)
{
    struct mscp_packet end;
    struct mscp_sent sent;
    is("send", mscp_send(mscp, via, to_unit(0x01020304, MSCP_GET_UNIT_STATUS, 0, 0), 12, &sent), MSCP_ANSWERED);
    end = end_of(0x01020304, MSCP_GET_UNIT_STATUS, 0x0004, MSCP_PACKET_MAX);
    is("unit identifier", number(end.bytes + 20, 4), 0x15161718);
    is("its high half", number(end.bytes + 24, 4), 0x11121314);
    is("media", number(end.bytes + 28, 4), 0x21222324);
    is("track", number(end.bytes + 36, 2), 53);
    is("group", number(end.bytes + 38, 2), 7);
    is("cylinder", number(end.bytes + 40, 2), 3);
}

static void controller_characteristics(void)
{
    struct mscp_packet end;
    struct mscp_sent sent;
    is("send", mscp_send(mscp, via, to_unit(5, MSCP_SET_CONTROLLER_CHARACTERISTICS, 0, 0), 18, &sent), MSCP_ANSWERED);
    end = end_of(5, MSCP_SET_CONTROLLER_CHARACTERISTICS, 0, 28);
    is("timeout", number(end.bytes + 16, 2), 161);
    is("controller identifier", number(end.bytes + 20, 4), 0x85868788);
    is("its high half", number(end.bytes + 24, 4), 0x81828384);
}

/* The end of an ONLINE or of a SET UNIT CHARACTERISTICS tells these. */
static void tells_the_unit(const struct mscp_packet *end)
{
    is("unit identifier", number(end->bytes + 20, 4), 0x15161718);
    is("its high half", number(end->bytes + 24, 4), 0x11121314);
    is("media", number(end->bytes + 28, 4), 0x21222324);
    is("size", number(end->bytes + 36, 4), 90000);
    is("serial", number(end->bytes + 40, 4), 0x31323334);
}

static void online(void)
{
    struct mscp_packet end;
    struct mscp_sent sent;
    struct mscp_upcoming next;
    is("send", mscp_send(mscp, via, to_unit(6, MSCP_ONLINE, 0, 0), 12, &sent), MSCP_QUEUED);
    is("begin", mscp_begin(mscp, &next), MSCP_DONE);
    is("no bytes", next.bytes, 0);
    is("no block", next.touches == 0 && next.lbn == 0, 1);
    is("one step", next.done == 0 && next.weight == 1, 1);
    is("whose", next.reference == 6 && next.unit == 0x4142 && next.opcode == MSCP_ONLINE && next.connection == via, 1);
    end = end_of(6, MSCP_ONLINE, 0, 44);
    tells_the_unit(&end);
}

/* The figure of a READ of two blocks, which fits no int32_t, told in each of the four ways. */
static void figures(void)
{
    struct mscp_waiting list[1];
    struct mscp_packet end, poll;
    struct mscp_sent sent;
    struct mscp_news news = {7, 7, 7, 7, 7, 7};
    const uint8_t *read = to_unit(0x0A0B0C0D, MSCP_READ, MSCP_BLOCK + 1, 40000);
    is("submit", mscp_host_submit(host, read, 32), MSCP_DONE);
    is("send", mscp_send(mscp, via, read, 32, &sent), MSCP_QUEUED);
    is("its number", sent.reference == 0x0A0B0C0D && sent.aborted == 0 && sent.has_aborted == 0, 1);
    is("figure", mscp_figure(mscp, via, 0x0A0B0C0D), FIGURE);
    is("look", mscp_look(mscp, list, 1), 1);
    is("looked", list[0].reference == 0x0A0B0C0D && list[0].figure == FIGURE && list[0].connection == via, 1);
    is("poll", mscp_host_poll(host, 0x0E0F1011, &poll), MSCP_DONE);
    is("its length", poll.length, 16);
    is("its number", number(poll.bytes, 4), 0x0E0F1011);
    is("whom it polls", number(poll.bytes + 12, 4), 0x0A0B0C0D);
    is("send", mscp_send(mscp, via, poll.bytes, poll.length, &sent), MSCP_ANSWERED);
    is("take", mscp_take(mscp, via, &end), MSCP_DONE);
    is("whom it tells of", number(end.bytes + 12, 4), 0x0A0B0C0D);
    is("its figure", number(end.bytes + 16, 4), FIGURE);
    is("receive", mscp_host_receive(host, end.bytes, end.length, &news), MSCP_FIRST);
    is("news", news.figure, FIGURE);
    is("nothing else", news.reference == 0 && news.moved == 0 && news.unit == 0 && news.status == 0 && news.code == 0, 1);
}

/* That READ is served: its second block, which begins 512 bytes into its buffer, is bad. */
static void steps(void)
{
    struct mscp_upcoming next;
    struct mscp_report report;
    struct mscp_packet end;
    struct mscp_news news = {7, 7, 7, 7, 7, 7};
    is("begin", mscp_begin(mscp, &next), MSCP_DONE);
    is("whose", next.reference == 0x0A0B0C0D && next.unit == 0x4142 && next.opcode == MSCP_READ, 1);
    is("what", next.bytes == MSCP_BLOCK + 1 && next.lbn == 40000 && next.touches == 1, 1);
    is("how far", next.done == 0 && next.weight == 2, 1);
    is("by which", next.connection, via);
    is("finish", mscp_finish(mscp, via, 0x0A0B0C0D, 0, &report), MSCP_DONE);
    is("whose", report.reference == 0x0A0B0C0D && report.unit == 0x4142 && report.connection == via, 1);
    is("what", report.lbn == 40000 && report.touched == 1 && report.seek == 40000 / 1113, 1);
    is("how far", report.started == 1 && report.ended == 0 && report.status == 0, 1);
    is("begin", mscp_begin(mscp, &next), MSCP_DONE);
    is("how far", next.done == 1 && next.lbn == 40001, 1);
    is("finish", mscp_finish(mscp, via, 0x0A0B0C0D, 0x1234 | 8, &report), MSCP_DONE);
    is("how far", report.started == 0 && report.ended == 1 && report.status == (0x1234 | 8), 1);
    is("what", report.lbn == 40001 && report.touched == 1 && report.seek == 0, 1);
    end = end_of(0x0A0B0C0D, MSCP_READ, 0x1234 | 8, 32);
    is("moved", number(end.bytes + 12, 4), 512);
    is("receive", mscp_host_receive(host, end.bytes, end.length, &news), MSCP_ENDED);
    is("whose", news.reference == 0x0A0B0C0D && news.unit == 0x4142 && news.code == 0xA1, 1);
    is("how", news.status == (0x1234 | 8) && news.moved == 512 && news.figure == 0, 1);
}

/* The unit is online at first. */
static void opcodes(void)
{
    const struct {
        uint8_t opcode;
        uint32_t length; /* of the end */
    } cases[] = {
        {MSCP_ABORT, 16},
        {MSCP_GET_COMMAND_STATUS, 20},
        {MSCP_GET_UNIT_STATUS, 48},
        {MSCP_SET_UNIT_CHARACTERISTICS, 44},
        {MSCP_ACCESS, 32},
        {MSCP_ERASE, 32},
        {MSCP_COMPARE_HOST_DATA, 32},
        {MSCP_READ, 32},
        {MSCP_WRITE, 32},
        {MSCP_AVAILABLE, 12},
    };
    struct mscp_sent sent;
    for (size_t i = 0; i < COUNT(cases); i++) {
        is("send", mscp_send(mscp, via, to_unit(50 + (uint32_t)i, cases[i].opcode, 512, 0), 32, &sent) > 0, 1);
        struct mscp_packet end = end_of(50 + (uint32_t)i, cases[i].opcode, 0, cases[i].length);
        if (cases[i].opcode == MSCP_SET_UNIT_CHARACTERISTICS)
            tells_the_unit(&end);
    }
}

/* A number that mscp.h names is taken, and the next one isn't. */
static void limits(void)
{
    static uint8_t message[MSCP_MESSAGE_MAX + 1];
    struct mscp_limits limits = LIMITS;
    struct mscp_unit units[MSCP_UNITS_MAX + 1];
    struct mscp_sent sent;
    struct mscp_upcoming next;
    for (uint16_t i = 0; i < COUNT(units); i++) {
        units[i] = UNITS[1];
        units[i].number = i;
    }
    via = FIRST;
    mscp = mscp_in_memory(memory, sizeof memory);
    limits.second = 0;
    limits.credits = MSCP_CREDITS_MAX + 1;
    is("credits", mscp_init(mscp, &limits, units, MSCP_UNITS_MAX, MSCP_OLDEST), MSCP_BAD_CREDITS);
    limits.credits = MSCP_CREDITS_MAX;
    is("units", mscp_init(mscp, &limits, units, MSCP_UNITS_MAX + 1, MSCP_OLDEST), MSCP_MANY_UNITS);
    is("just so many", mscp_init(mscp, &limits, units, MSCP_UNITS_MAX, MSCP_OLDEST), MSCP_DONE);
    is("balance", mscp_balance(mscp, via), MSCP_CREDITS_MAX);
    is("short", mscp_send(mscp, via, message, MSCP_MESSAGE_MIN - 1, &sent), MSCP_SHORT);
    is("not short", mscp_send(mscp, via, message, MSCP_MESSAGE_MIN, &sent), MSCP_ANSWERED);
    message[0] = 1;
    is("long", mscp_send(mscp, via, message, MSCP_MESSAGE_MAX + 1, &sent), MSCP_LONG);
    is("not long", mscp_send(mscp, via, message, MSCP_MESSAGE_MAX, &sent), MSCP_ANSWERED);
    is("send", mscp_send(mscp, via, command(2, MSCP_READ, MSCP_BLOCK, 0), 32, &sent), MSCP_QUEUED);
    is("a block", mscp_begin(mscp, &next) == MSCP_DONE && next.weight == 1, 1);
    is("reset", mscp_reset(mscp), MSCP_DONE);
    is("send", mscp_send(mscp, via, command(2, MSCP_READ, MSCP_BLOCK + 1, 0), 32, &sent), MSCP_QUEUED);
    is("over a block", mscp_begin(mscp, &next) == MSCP_DONE && next.weight == 2, 1);
}

int main(void)
{
    for (via = FIRST; via <= SECOND; via++) {
        sizes();
        is("credits", mscp_balance(mscp, via), via == FIRST ? 2 : 62);
        unit_status();
        controller_characteristics();
        online();
        figures();
        steps();
        opcodes();
    }
    limits();
    return wrong;
}
