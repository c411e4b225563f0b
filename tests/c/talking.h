/* talking.h: a controller and a host for workload.c, which talk over a wire that turns ends round, and spoils few. */
#ifndef TALKING_H
#define TALKING_H
#include "making.h"

enum { WIRE = 8 };
static struct mscp_packet wire[WIRE]; /* ends on their way to the host */
static uint32_t on_wire;

/* A message of any kind: most name a valid command. How many bytes it has. */
static size_t message(uint8_t *to)
{
    static const uint8_t OPCODES[] = {MSCP_ABORT, MSCP_GET_COMMAND_STATUS, MSCP_GET_UNIT_STATUS, MSCP_AVAILABLE, MSCP_ONLINE,
                                      MSCP_ONLINE, MSCP_SET_CONTROLLER_CHARACTERISTICS, MSCP_SET_UNIT_CHARACTERISTICS,
                                      MSCP_ACCESS, MSCP_ERASE, MSCP_COMPARE_HOST_DATA, MSCP_READ, MSCP_READ, MSCP_READ,
                                      MSCP_WRITE, MSCP_WRITE};
    memset(to, 0, MSCP_MESSAGE_MAX + 1);
    put(to, 4, any(50));
    to[4] = (uint8_t)(any(20) == 0 ? any(256) : 3 * any((uint32_t)count + 1));
    to[8] = any(40) == 0 ? (uint8_t)any(256) : OPCODES[any(sizeof OPCODES)];
    uint32_t first = any(50), times = to[8] < 3 ? 1 : any(9) == 0 ? 77 : 512;
    put(to + 12, 4, first * times);
    put(to + 28, 4, any(3200));
    if (any(30) == 0)
        to[10] = (uint8_t)any(256);
    if (any(30) == 0)
        to[11] = (uint8_t)any(256);
    return any(40) == 0 ? any(2) ? any(MSCP_MESSAGE_MIN + 2) : MSCP_MESSAGE_MAX - 1 + any(3) : any(2) ? 36 : 48;
}

static void receive(const uint8_t *end, size_t length)
{
    struct mscp_news news = {0, 0, 0, 0, 0, 0};
    tell(HOST_RECEIVE, mscp_host_receive(host, end, length, &news));
    eat(news.figure), eat(news.reference), eat(news.moved), eat(news.unit), eat(news.status), eat(news.code);
}

/* An end is taken, and comes to the host later, maybe behind another one. Few are spoiled on the way. */
static void take(uint32_t connection)
{
    struct mscp_packet end;
    memset(&end, 0x5A, sizeof end);
    int64_t status = tell(TAKE, mscp_take(mscp, connection, &end));
    eat_packet(&end);
    if (status != MSCP_DONE || connection != 0)
        return;
    uint32_t bit = any(60) == 0 ? 1u << any(8) : 0;
    end.bytes[any(end.length)] ^= (uint8_t)bit;
    if (on_wire == WIRE) {
        uint32_t first = any(WIRE);
        receive(wire[first].bytes, wire[first].length);
        wire[first] = end;
    } else {
        wire[on_wire++] = end;
    }
}

static void deliver(void)
{
    if (on_wire == 0)
        return;
    uint32_t first = any(on_wire);
    receive(wire[first].bytes, any(50) == 0 ? any(12) : wire[first].length);
    wire[first] = wire[--on_wire];
}

static void send(uint32_t connection, const uint8_t *text, size_t length)
{
    struct mscp_sent sent = {0, 0, 0};
    tell(SEND, mscp_send(mscp, connection, text, length, &sent));
    eat(sent.reference), eat(sent.aborted), eat(sent.has_aborted);
}

static void host_acts(void)
{
    struct mscp_packet poll;
    memset(&poll, 0x5A, sizeof poll);
    if (any(3) == 0) {
        if (tell(HOST_POLL, mscp_host_poll(host, any(60), &poll)) == MSCP_DONE)
            send(0, poll.bytes, poll.length);
        eat_packet(&poll);
    } else {
        uint8_t text[MSCP_MESSAGE_MAX + 1];
        size_t length = message(text);
        if (tell(HOST_SUBMIT, mscp_host_submit(host, text, length)) == MSCP_DONE)
            send(0, text, length);
    }
    tell(HOST_BALANCE, mscp_host_balance(host));
}

static void serve(void)
{
    struct mscp_upcoming next;
    struct mscp_report report;
    uint16_t status = (uint16_t)(any(40) ? 0 : any(64));
    if (any(3) == 0 && tell(BEGIN, mscp_begin(mscp, &next)) == MSCP_DONE) {
        eat_upcoming(&next);
        uint32_t connection = any(20) ? next.connection : any(3), reference = any(9) ? next.reference : any(60);
        int64_t came = tell(FINISH, mscp_finish(mscp, connection, reference, status, &report));
        eat_report(came, &report);
    } else {
        int64_t came = tell(STEP, mscp_step(mscp, status, &report));
        eat_report(came, &report);
    }
}

static void eat_settings(const struct mscp_limits *of, const struct mscp_unit *its, uint32_t asked, int64_t all)
{
    eat(of->id), eat(of->budget), eat(of->credits), eat(of->second), eat(of->longest), eat(of->timeout);
    for (uint32_t i = 0; i < asked && i < all; i++) {
        eat(its[i].id), eat(its[i].size), eat(its[i].media), eat(its[i].serial), eat(its[i].number);
        eat(its[i].track), eat(its[i].group), eat(its[i].cylinder);
    }
}

static void look(uint32_t connection)
{
    struct mscp_waiting list[64];
    struct mscp_holder holders[64];
    size_t room = any(5) ? 64 : any(8);
    eat_waiting(list, room, tell(LOOK, mscp_look(mscp, list, room)));
    eat_holders(holders, room, tell(WHY, mscp_why(mscp, connection, any(50), holders, room)));
    tell(FIGURE, mscp_figure(mscp, connection, any(50))), tell(WAITING, mscp_waiting(mscp, connection));
    tell(UNTAKEN, mscp_untaken(mscp, connection)), tell(BALANCE, mscp_balance(mscp, connection));
    tell(IS_ONLINE, mscp_is_online(mscp, (uint16_t)(3 * any(18))));
    struct mscp_limits of = {0, 0, 0, 0, 0, 0};
    struct mscp_unit its[MSCP_UNITS_MAX];
    memset(its, 0, sizeof its);
    uint32_t asked = any(MSCP_UNITS_MAX + 1);
    eat_settings(&of, its, asked, tell(SETTINGS, mscp_settings(mscp, &of, its, asked)));
}

/* The controller that was saved is made elsewhere, and moved to where it was. */
static void go_on(size_t length)
{
    mscp = mscp_in_memory(rooms[2], sizeof rooms[2]);
    tell(RESTORE, mscp_restore(mscp, bytes, length));
    memcpy(rooms[0], rooms[2], sizeof rooms[0]);
    mscp = mscp_moved(rooms[0]);
}

/* Saves, with room enough or not, goes on with what was saved, and does so of the host. */
static void save_both(void)
{
    size_t length = 7;
    tell(SAVE, mscp_save(mscp, bytes, any(40), &length));
    if (tell(SAVE, mscp_save(mscp, bytes, sizeof bytes, &length)) == MSCP_DONE) {
        eat_bytes(bytes, length);
        go_on(length);
    }
    tell(HOST_SAVE, mscp_host_save(host, bytes, any(16), &length));
    if (tell(HOST_SAVE, mscp_host_save(host, bytes, sizeof bytes, &length)) == MSCP_DONE) {
        eat_bytes(bytes, length);
        host = mscp_host_in_memory(host_room, sizeof host_room);
        tell(HOST_RESTORE, mscp_host_restore(host, bytes, length));
    }
}

static void talk(int times)
{
    uint8_t text[MSCP_MESSAGE_MAX + 1];
    for (int i = 0; i < times; i++) {
        uint32_t connection = any(3) ? 0 : any(30) ? 1 : 2;
        size_t length = message(text);
        switch (any(10)) {
        case 0: case 1: host_acts(); break;
        case 2: send(connection, text, length); break;
        case 3: case 4: serve(); break;
        case 5: take(connection); break;
        case 6: take(0); break;
        case 7: deliver(); break;
        case 8: if (any(3) == 0) look(connection); break;
        case 9:
            if (any(8) == 0)
                save_both();
            else if (any(60) == 0)
                tell(RESET, mscp_reset(mscp));
            break;
        }
    }
}

/* Takes the oldest end, and hands it to the host at once. */
static void hear(void)
{
    struct mscp_packet end = {0, {0}};
    if (tell(TAKE, mscp_take(mscp, 0, &end)) == MSCP_DONE)
        receive(end.bytes, end.length);
}

/* The host sends this command to unit 0. */
static void submit(uint32_t reference, uint8_t opcode, uint32_t blocks)
{
    uint8_t text[36] = {0};
    put(text, 4, reference);
    text[8] = opcode;
    put(text + 12, 4, MSCP_BLOCK * blocks);
    if (tell(HOST_SUBMIT, mscp_host_submit(host, text, sizeof text)) == MSCP_DONE)
        send(0, text, sizeof text);
}

/* A transfer is polled before each of its steps, and then twice without one. */
static void poll_often(void)
{
    struct mscp_packet poll;
    struct mscp_report report;
    choose();
    limits.credits = 9, limits.longest = 40, units[0].size = 100;
    mscp = mscp_in_memory(rooms[0], sizeof rooms[0]);
    host = mscp_host_in_memory(host_room, sizeof host_room);
    tell(INIT, mscp_init(mscp, &limits, units, count, MSCP_OLDEST)), tell(HOST_INIT, mscp_host_init(host, 8));
    submit(1, MSCP_ONLINE, 0);
    tell(STEP, mscp_step(mscp, 0, &report));
    hear();
    submit(2, MSCP_READ, 6);
    for (uint32_t i = 0; i < 8; i++) {
        if (tell(HOST_POLL, mscp_host_poll(host, 10 + i, &poll)) == MSCP_DONE)
            send(0, poll.bytes, poll.length);
        hear();
        if (i < 4)
            tell(STEP, mscp_step(mscp, 0, &report));
    }
}
#endif
