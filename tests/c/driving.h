/* driving.h: a host that drives its port as a row of systems.h says: it finds its units, copies what the program that
 * includes this wants copied, and takes what comes when its row wakes it. */
#ifndef DRIVING_H
#define DRIVING_H
#include "systems.h"

enum { EACH = 4, GROUPS = BLOCKS / EACH, BUFFERS = 0x4000 };

enum stage { READ, WRITE, COMPARE, COPIED };
static const uint8_t OPCODES[] = {MSCP_READ, MSCP_WRITE, MSCP_COMPARE_HOST_DATA};
static const uint16_t UNIT_OF[] = {0, 2, 2};

/* A copy of some blocks from unit 0 to unit 2, on its way. */
struct request {
    enum stage stage;
    bool is_out;
    uint32_t group, reference, sent; /* its blocks, its number, and which command of all it was */
    uint32_t figure;                 /* that was told last, or UINT32_MAX */
};

static struct {
    const struct driver *is;
    unsigned most; /* actions between two looks */
    struct request requests[REQUESTS];
    unsigned next_group, copied; /* of this pass */
    bool is_up, is_online[UNITS], wants_online[UNITS], is_asked[UNITS], wants_paths[UNITS];
    bool is_polling, began_anew;
    uint32_t polled; /* which command of all: its number may be another's, once it has ended */
    bool wants_next; /* unit, from this number on */
    uint16_t next_unit;
    unsigned gone;       /* so many turns ago the volume went, if it did */
    uint32_t commands;   /* that it sent */
    uint32_t last;       /* number that it gave */
    uint32_t interrupts; /* that it has seen */
    uint32_t paths;      /* of which it was told */
    uint32_t falls;      /* of figures, from one poll of a command to the next */
    unsigned quiet;      /* seconds, since it sent something */
    bool is_answered;    /* what it asked at last, by this */
    uint8_t answer[64];
} driver;

/* A slot is free, and a credit, and one more: the last is for commands that are answered when they arrive. The first
 * command of all needs none. */
static bool may_send(void)
{
    uint32_t slot = slot_of(false, host.sent % host.commands);
    return (host.sent == 0 || host.credits + 1 >= host.sent + 2) && number(machine.memory + slot, 4) < 0x80000000u;
}

/* Commands that move no blocks have numbers of their own. */
enum { ONLINE = 0x1000, NEXT_UNIT = 0x2000, POLL = 0x3000, PATHS = 0x4000, ALIVE = 0x5000, ASKED = 0x6000 };
enum { DETERMINE_ACCESS_PATHS = 0x0B };

static void send_text(uint32_t reference, uint8_t opcode, uint16_t unit, uint16_t modifiers, uint32_t first,
                      uint32_t second)
{
    uint8_t text[32] = {0};
    put(text, 4, reference);
    put(text + 4, 2, unit);
    text[8] = opcode;
    put(text + 10, 2, modifiers);
    put(text + 12, 4, first);
    put(text + 16, 4, second);
    send(text, 32);
    driver.commands++;
    driver.quiet = 0;
}

static void want_unit(uint16_t unit)
{
    driver.next_unit = unit;
    driver.wants_next = true;
}

/* The port has told it of itself. Its units are to be found. */
static void is_up(void)
{
    driver.is_up = true;
    for (unsigned u = 0; u < UNITS; u++)
        driver.wants_online[u] = !driver.is->asks_for_units;
    if (driver.is->asks_for_units)
        want_unit(0);
}

static void forget(void)
{
    driver.is_up = driver.is_polling = driver.wants_next = false;
    for (unsigned u = 0; u < UNITS; u++)
        driver.is_online[u] = driver.is_asked[u] = driver.wants_online[u] = driver.wants_paths[u] = false;
    for (unsigned i = 0; i < REQUESTS; i++)
        driver.requests[i].is_out = false;
}

/* The second word for the last step comes when the port is up, which heeds it no more. */
static void go_twice(void)
{
    is("a second go", mscp_port_write_sa(machine.port, driver.is->go), MSCP_DONE);
    run(MOST_ACTIONS);
    is("SA behind it", mscp_port_read_sa(machine.port), 0);
}

/* The port is initialised, with an interrupt at each of three steps, and told of its host's flags and timeout. */
static void begin(void)
{
    const struct driver *it = driver.is;
    const struct asked asked = {
        .base = it->base, .responses = it->responses, .commands = it->commands, .purges = it->purges,
        .tests = it->tests, .go = it->go, .bits = (uint16_t)(it->vector ? 0x80 | it->vector : 0),
        .flag = it->vector || it->waking != LOOKS ? 1u << 30 : 0,
    };
    uint32_t before = machine.interrupts;
    initialise_as(&asked);
    is("interrupts of its steps", machine.interrupts - before, it->vector ? 3 : 0);
    driver.interrupts = machine.interrupts;
    forget();
    if (it->goes_twice)
        go_twice();
    if (it->is_boot)
        is_up();
    else
        send_text(0, MSCP_SET_CONTROLLER_CHARACTERISTICS, 0, 0, (uint32_t)it->flags << 16, it->timeout);
}

/* ---- what is sent */

static void send_request(struct request *it)
{
    unsigned i = (unsigned)(it - driver.requests);
    it->reference = driver.is->number + driver.is->apart * (driver.is->numbers_rise ? driver.last++ : i);
    it->is_out = true;
    it->figure = UINT32_MAX;
    it->sent = driver.commands++;
    driver.quiet = 0;
    send_command(UNIT_OF[it->stage], it->reference, OPCODES[it->stage], EACH * MSCP_BLOCK, it->group * EACH,
                 BUFFERS + i * EACH * MSCP_BLOCK);
}

/* What has to do with units goes before the copies. */
static void send_of_units(void)
{
    if (driver.wants_next && may_send()) {
        driver.wants_next = false;
        send_text(NEXT_UNIT, MSCP_GET_UNIT_STATUS, driver.next_unit, 1, 0, 0);
    }
    for (uint16_t u = 0; u < UNITS; u++) {
        if (driver.wants_online[u] && !driver.is_asked[u] && may_send()) {
            driver.is_asked[u] = true;
            send_text(driver.is->onlines_are_1 ? 1 : ONLINE + u, MSCP_ONLINE, u, 0, 0, 0);
        }
        if (driver.wants_paths[u] && may_send()) {
            driver.wants_paths[u] = false;
            send_text(PATHS + u, DETERMINE_ACCESS_PATHS, u, 0, 0, 0);
        }
    }
}

static void send_what_can_be(void)
{
    if (!driver.is_up)
        return;
    send_of_units();
    for (unsigned i = 0; i < driver.is->requests; i++) {
        struct request *it = &driver.requests[i];
        if (!it->is_out && it->stage == COPIED && driver.next_group < GROUPS)
            it->stage = READ, it->group = driver.next_group++;
        if (!it->is_out && it->stage != COPIED && driver.is_online[UNIT_OF[it->stage]] && may_send())
            send_request(it);
    }
}

static struct request *oldest(void)
{
    struct request *found = NULL;
    for (unsigned i = 0; i < driver.is->requests; i++) {
        struct request *it = &driver.requests[i];
        if (it->is_out && (found == NULL || it->sent < found->sent))
            found = it;
    }
    return found;
}

static void second_goes_by(void)
{
    struct request *it = oldest();
    is("a tick", mscp_port_tick(machine.port), MSCP_DONE);
    if (driver.is->polls && it != NULL && !driver.is_polling && may_send()) {
        driver.is_polling = true;
        driver.polled = it->sent;
        send_text(POLL, MSCP_GET_COMMAND_STATUS, UNIT_OF[it->stage], 0, it->reference, 0);
    }
    if (driver.is->stays_alive && 3 * ++driver.quiet >= driver.is->timeout && may_send())
        send_text(ALIVE, MSCP_GET_UNIT_STATUS, 0, 0, 0, 0);
    if (!(driver.is->flags & ATTENTION)) /* it tries */
        for (unsigned u = 0; u < UNITS; u += 2)
            driver.wants_online[u] = !driver.is_online[u];
}

/* ---- what comes */

static void poll_ended(const uint8_t *text)
{
    driver.is_polling = false;
    for (unsigned i = 0; i < driver.is->requests; i++) {
        struct request *it = &driver.requests[i];
        if (it->is_out && it->sent == driver.polled) {
            is("its number", number(text + 12, 4), it->reference);
            is("its figure falls", number(text + 16, 4) < it->figure && number(text + 16, 4) > 0, 1);
            driver.falls += it->figure != UINT32_MAX;
            it->figure = number(text + 16, 4);
        }
    }
}

static void unit_told(const uint8_t *text)
{
    uint16_t unit = (uint16_t)number(text + 4, 2), status = (uint16_t)number(text + 10, 2);
    if (number(text, 4) != NEXT_UNIT)
        return;
    if (unit < UNITS && (status & 31) == 4)
        driver.wants_online[unit] = true;
    if (unit >= driver.next_unit) /* behind the last it tells of unit 0 */
        want_unit((uint16_t)(unit + 1));
}

static void online_ended(uint16_t unit, uint16_t status)
{
    driver.is_online[unit] = (status & 31) == 0;
    driver.wants_online[unit] = driver.is_asked[unit] = false;
    driver.wants_paths[unit] = driver.is_online[unit] && driver.is->asks_for_paths;
}

static void paths_ended(uint16_t status)
{
    is("paths are determined", status, 0);
    driver.paths++;
}

static void request_ended(struct request *it, uint8_t code, uint16_t status)
{
    is("its code", code, OPCODES[it->stage] | 0x80);
    it->is_out = false;
    if ((status & 31) == 3 || (status & 31) == 4) {
        driver.is_online[UNIT_OF[it->stage]] = false;
        return;
    }
    is("its status", status, 0);
    it->stage++;
    if (it->stage == COPIED)
        driver.copied++;
}

static void hear(const uint8_t *text)
{
    uint32_t reference = number(text, 4);
    uint16_t unit = (uint16_t)number(text + 4, 2), status = (uint16_t)number(text + 10, 2);
    if (reference == ASKED) {
        driver.is_answered = true;
        memcpy(driver.answer, text, sizeof driver.answer);
        return;
    }
    switch (text[8]) {
    case 0x40: driver.wants_online[unit] = true; return;
    case 0x82: poll_ended(text); return;
    case 0x83: unit_told(text); return;
    case 0x84: is_up(); return;
    case 0x89: online_ended(unit, status); return;
    case 0x8B: paths_ended(status); return;
    }
    for (unsigned i = 0; i < driver.is->requests; i++)
        if (driver.requests[i].is_out && driver.requests[i].reference == reference) {
            request_ended(&driver.requests[i], text[8], status);
            return;
        }
    is("an end of nothing", reference, 0);
}

/* Whether it looks at its ring now. */
static bool wakes(void)
{
    uint8_t *word = machine.memory + host.base - 2;
    if ((driver.is->waking & BY_INTERRUPT) && machine.interrupts == driver.interrupts)
        return false;
    driver.interrupts = machine.interrupts;
    if ((driver.is->waking & BY_WORD) && number(word, 2) == 0)
        return false;
    if (driver.is->waking & BY_WORD)
        put(word, 2, 0);
    return true;
}

/* The port works, and the host takes what came. How much the port did. */
static unsigned turn(void)
{
    uint8_t packet[68];
    send_what_can_be();
    mscp_port_look_again(machine.port);
    unsigned done = run(driver.most);
    if (wakes())
        while (take(packet))
            hear(packet + 4);
    return done;
}
#endif
