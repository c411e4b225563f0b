/* driver.c: a driver of a real port, over rings in memory: the four steps of its initialisation, messages, polls,
 * resets, and what is sent again after one. Copy the first part, and give it your registers and your memory. The second
 * is a machine in one process, in which the drive hangs, and then the port.
 *
 *     cc driver.c $(pkg-config --cflags --libs mscp) -o driver
 *     ./driver IMAGE        (which it reads)
 *
 * A request waits in a table until it has ended. A unit is brought online before what needs that is sent. At a reset all
 * that was sent and hasn't ended is ready again, and is sent in the order in which it was asked. */
#include "mscp.h"
#include <stdbool.h>
#include <string.h>

enum { SLOTS = 8, SLOTS_LOG = 3, TEXT = 60, REQUESTS = 32, UNITS = 16, WAITS = 1000 };
/* The area: 8 bytes for interrupts, the descriptors of responses and of commands, and their buffers with envelopes. */
enum { RESPONSES = 8, COMMANDS = RESPONSES + 4 * SLOTS, BUFFERS = COMMANDS + 4 * SLOTS, BUFFER = 4 + TEXT };
enum { AREA_SIZE = BUFFERS + 2 * SLOTS * BUFFER };
/* Statuses, and what of one is its code. */
enum { UNIT_OFFLINE = 3, UNIT_AVAILABLE = 4, CONTROLLER_ERROR = 10, CODE = 31 };
enum { WANTS_ATTENTION = 0x80 };

#define PORTS_OWN UINT32_C(0x80000000)  /* the slot is the port's */
#define INTERRUPTS UINT32_C(0x40000000) /* and it interrupts if the ring was empty */

/* Your machine. */
struct machine {
    void *context;
    uint16_t (*read_sa)(void *context);
    void (*write_sa)(void *context, uint16_t word);
    void (*read_ip)(void *context);
    void (*write_ip)(void *context);
    void (*wait)(void *context); /* while the port initialises itself: some milliseconds */
    void (*ended)(void *context, uint32_t tag, uint16_t status, uint32_t moved);
    void (*came)(void *context, uint16_t unit); /* a volume came into a unit */
    uint8_t *area;                              /* AREA_SIZE bytes that the port reaches, */
    uint32_t at;                                /* from this address on, a multiple of 4 */
    uint16_t vector;                            /* of its interrupts, a multiple of 4 */
    uint32_t ticks_a_second;
};

enum state { FREE, READY, SENT };

struct request {
    enum state state;
    struct mscp_command command;
    uint32_t age; /* the older is sent first */
    uint32_t tag; /* the caller's */
};

struct unit {
    bool was_asked, is_ready; /* whether the driver's own ONLINE was sent, and whether that has ended, however it did */
    uint32_t number;          /* of that */
};

struct driver {
    struct machine machine;
    MSCP_ALIGNED uint64_t memory[(MSCP_HEAD + MSCP_DRIVER_SIZE) / sizeof(uint64_t)];
    struct mscp_driver *account;
    struct mscp_watch watch;
    struct request requests[REQUESTS];
    struct unit units[UNITS];
    uint32_t next_number, next_age, first; /* `first` is the number of SET CONTROLLER CHARACTERISTICS */
    unsigned next_response, next_command;
    bool is_up; /* that has ended */
    unsigned resets;
    const char *why; /* of the last reset */
};

/* ---- slots */

static uint32_t number_at(const uint8_t *from)
{
    return from[0] | (uint32_t)from[1] << 8 | (uint32_t)from[2] << 16 | (uint32_t)from[3] << 24;
}

static void put_number(uint8_t *to, uint32_t number)
{
    for (unsigned i = 0; i < 4; i++)
        to[i] = (uint8_t)(number >> (8 * i));
}

static uint8_t *descriptor(struct driver *driver, bool is_command, unsigned slot)
{
    return driver->machine.area + (is_command ? COMMANDS : RESPONSES) + 4 * slot;
}

static unsigned buffer_of(bool is_command, unsigned slot)
{
    return BUFFERS + ((is_command ? SLOTS : 0) + slot) * BUFFER;
}

/* Gives a slot to the port, or takes it at first. The descriptor has the address of the text. */
static void give(struct driver *driver, bool is_command, unsigned slot, uint32_t flags)
{
    uint32_t text = driver->machine.at + buffer_of(is_command, slot) + 4;
    if (!is_command)
        put_number(driver->machine.area + buffer_of(false, slot), TEXT);
    put_number(descriptor(driver, is_command, slot), flags | text);
}

static bool has_slot(struct driver *driver)
{
    return !(number_at(descriptor(driver, true, driver->next_command)) & PORTS_OWN);
}

/* Posts a message that the account has let through. */
static void post(struct driver *driver, const struct mscp_packet *message)
{
    uint8_t *to = driver->machine.area + buffer_of(true, driver->next_command);
    memset(to, 0, BUFFER);
    put_number(to, TEXT);
    memcpy(to + 4, message->bytes, message->length);
    give(driver, true, driver->next_command, PORTS_OWN);
    driver->next_command = (driver->next_command + 1) % SLOTS;
    driver->machine.read_ip(driver->machine.context);
}

/* ---- commands */

/* Sends a command under a number of its own, as far as credits and slots go. */
static bool send_command(struct driver *driver, struct mscp_command *command)
{
    struct mscp_packet message;
    command->reference = ++driver->next_number;
    mscp_write_command(command, &message);
    if (!has_slot(driver) || mscp_driver_submit(driver->account, message.bytes, message.length) != MSCP_DONE)
        return false;
    post(driver, &message);
    return true;
}

/* Whether a command's unit is ready for it. If it isn't, it is brought online. */
static bool is_unit_ready(struct driver *driver, const struct mscp_command *command)
{
    struct unit *unit = &driver->units[command->unit];
    struct mscp_command online = {.opcode = MSCP_ONLINE, .unit = command->unit};
    if (command->opcode < MSCP_ACCESS || unit->is_ready)
        return true;
    if (!unit->was_asked && send_command(driver, &online)) {
        unit->was_asked = true;
        unit->number = online.reference;
    }
    return false;
}

/* The oldest request that may be sent. */
static struct request *next_request(struct driver *driver)
{
    struct request *oldest = NULL;
    for (struct request *it = driver->requests; it < driver->requests + REQUESTS; it++)
        if (it->state == READY && (oldest == NULL || (int32_t)(it->age - oldest->age) < 0) &&
            is_unit_ready(driver, &it->command))
            oldest = it;
    return oldest;
}

static void send_all(struct driver *driver)
{
    struct request *request;
    while (driver->is_up && (request = next_request(driver)) != NULL && send_command(driver, &request->command))
        request->state = SENT;
}

/* Takes a request, of which `ended` reports by its tag. The command's number is the driver's to choose. False: there is no
 * such unit, or the table is full. */
static bool driver_ask(struct driver *driver, const struct mscp_command *command, uint32_t tag)
{
    for (unsigned i = 0; command->unit < UNITS && i < REQUESTS; i++) {
        if (driver->requests[i].state == FREE) {
            driver->requests[i] = (struct request){READY, *command, driver->next_age++, tag};
            send_all(driver);
            return true;
        }
    }
    return false;
}

/* ---- the port begins */

/* Waits until SA shows this step. */
static bool wait_for(struct driver *driver, uint16_t step)
{
    const struct machine *machine = &driver->machine;
    for (unsigned i = 0; i < WAITS; i++) {
        uint16_t sa = machine->read_sa(machine->context);
        if (sa & 0x8000)
            return false;
        if (sa & step)
            return true;
        machine->wait(machine->context);
    }
    return false;
}

/* The four steps. The port clears the area before the last one. */
static bool initialise(struct driver *driver)
{
    const struct machine *machine = &driver->machine;
    uint32_t base = machine->at + RESPONSES;
    const uint16_t words[3] = {(uint16_t)(0x8080 | SLOTS_LOG << 11 | SLOTS_LOG << 8 | machine->vector / 4),
                               (uint16_t)base, (uint16_t)(base >> 16)};
    machine->write_ip(machine->context);
    for (unsigned i = 0; i < 3; i++) {
        if (!wait_for(driver, (uint16_t)(0x0800 << i)))
            return false;
        machine->write_sa(machine->context, words[i]);
    }
    if (!wait_for(driver, 0x4000))
        return false;
    for (unsigned slot = 0; slot < SLOTS; slot++) {
        give(driver, false, slot, PORTS_OWN | INTERRUPTS);
        give(driver, true, slot, 0);
    }
    driver->next_response = driver->next_command = 0;
    machine->write_sa(machine->context, 1);
    return true;
}

/* Resets the port, and begins anew: what was sent is ready again, and no unit is online. False: the port is broken. */
static bool driver_reset(struct driver *driver, const char *why)
{
    struct mscp_command first = {.opcode = MSCP_SET_CONTROLLER_CHARACTERISTICS, .flags = WANTS_ATTENTION};
    driver->resets++;
    driver->why = why;
    driver->is_up = false;
    driver->watch = (struct mscp_watch){60 * driver->machine.ticks_a_second, 0, 0};
    for (unsigned i = 0; i < REQUESTS; i++)
        if (driver->requests[i].state == SENT)
            driver->requests[i].state = READY;
    memset(driver->units, 0, sizeof driver->units);
    driver->account = mscp_driver_in_memory(driver->memory, sizeof driver->memory);
    if (mscp_driver_init(driver->account) != MSCP_DONE || !initialise(driver) || !send_command(driver, &first))
        return false;
    driver->first = first.reference;
    return true;
}

/* ---- what is heard */

/* What a unit refuses as not online asks for another ONLINE. */
static void request_ended(struct driver *driver, struct request *request, uint16_t status, uint32_t moved)
{
    uint16_t code = status & CODE;
    if (code == UNIT_OFFLINE || code == UNIT_AVAILABLE || request->command.opcode == MSCP_AVAILABLE)
        driver->units[request->command.unit].is_ready = false;
    request->state = FREE;
    driver->machine.ended(driver->machine.context, request->tag, status, moved);
}

static void ended(struct driver *driver, const struct mscp_heard *heard, const uint8_t *text, uint16_t status)
{
    struct mscp_end end;
    if (heard->reference == driver->first && mscp_read_end(text, TEXT, &end) == MSCP_DONE) {
        driver->watch.timeout = end.timeout * driver->machine.ticks_a_second;
        driver->is_up = true;
    }
    for (unsigned i = 0; i < UNITS; i++)
        if (driver->units[i].was_asked && driver->units[i].number == heard->reference)
            driver->units[i] = (struct unit){false, true, 0};
    for (unsigned i = 0; i < REQUESTS; i++)
        if (driver->requests[i].state == SENT && driver->requests[i].command.reference == heard->reference)
            request_ended(driver, &driver->requests[i], status, heard->moved);
}

/* Why the port is to be reset after this message, if it is. */
static const char *take(struct driver *driver, const uint8_t *bytes)
{
    struct mscp_heard heard;
    switch (mscp_driver_hear(driver->account, &driver->watch, bytes, BUFFER, &heard)) {
    case MSCP_ENDED: ended(driver, &heard, bytes + 4, heard.status); return NULL;
    case MSCP_MOVED_TOO_MUCH: ended(driver, &heard, bytes + 4, CONTROLLER_ERROR); return NULL;
    case MSCP_NOW_AVAILABLE:
        if (heard.unit < UNITS)
            driver->units[heard.unit].is_ready = false;
        driver->machine.came(driver->machine.context, heard.unit);
        return NULL;
    case MSCP_FIRST: case MSCP_PROGRESS: case MSCP_LATE: case MSCP_REFUSED: case MSCP_ATTENTION: case MSCP_LOGGED:
    case MSCP_CREDITS: case MSCP_OTHER_CONNECTION: return NULL;
    case MSCP_NO_PROGRESS: return "the figure doesn't fall";
    case MSCP_LOST: return "the controller doesn't know the command";
    default: return "a message that nobody understands"; /* credits may be lost */
    }
}

/* The port interrupts, or may have: hears all that it has sent, and sends what is ready. False: the port is broken. */
static bool driver_heed(struct driver *driver)
{
    while (!(number_at(descriptor(driver, false, driver->next_response)) & PORTS_OWN)) {
        unsigned slot = driver->next_response;
        const char *why = take(driver, driver->machine.area + buffer_of(false, slot));
        if (why != NULL)
            return driver_reset(driver, why);
        give(driver, false, slot, PORTS_OWN | INTERRUPTS);
        driver->next_response = (slot + 1) % SLOTS;
        driver->machine.read_ip(driver->machine.context); /* the ring may have been full */
    }
    send_all(driver);
    return true;
}

/* The timer ticks. A poll that finds no slot is sent a timeout later. False: the port is broken. */
static bool driver_tick(struct driver *driver)
{
    struct mscp_packet poll;
    if (driver->machine.read_sa(driver->machine.context) & 0x8000)
        return driver_reset(driver, "a fatal error");
    switch (mscp_driver_tick(driver->account, &driver->watch)) {
    case MSCP_SILENT: return driver_reset(driver, "no answer");
    case MSCP_POLL:
        if (has_slot(driver) && mscp_driver_poll(driver->account, ++driver->next_number, &poll) == MSCP_DONE)
            post(driver, &poll);
        return true;
    default: return true;
    }
}

/* ---- a machine with a port, of which something stops for a while */
#ifndef DRIVER_PART
#include <stdio.h>

enum { MEMORY = 0x8000, AREA = 0x800, DATA = 0x2000, READS = 12, BLOCKS = 3, LENGTH = BLOCKS * MSCP_BLOCK, IMAGE = 60 };
enum trouble { NONE, DRIVE_HANGS, PORT_STOPS }; /* no block is moved; nothing is done */

static uint8_t memory[MEMORY];
static MSCP_ALIGNED uint64_t port_memory[(MSCP_HEAD + MSCP_PORT_SIZE) / sizeof(uint64_t)];
static struct mscp_port *port;
static struct driver driver;
static FILE *image;
static enum trouble trouble;
static unsigned reads_ended, steps, trouble_ends;
static bool is_interrupted, is_good = true;

static bool read_image(uint32_t block, uint8_t *bytes, uint32_t count)
{
    return fseek(image, (long)(block * MSCP_BLOCK), SEEK_SET) == 0 && fread(bytes, count, 1, image) == 1;
}

/* Does what the port wants. All commands of this machine are READs. */
static int32_t act(const struct mscp_action *action)
{
    uint8_t *at = memory + action->address;
    switch (action->kind) {
    case MSCP_ACTION_READ: return mscp_port_was_read(port, at, action->count);
    case MSCP_ACTION_WRITE: memcpy(at, action->bytes, action->count); break;
    case MSCP_ACTION_INTERRUPT: is_interrupted = true; break;
    case MSCP_ACTION_TRANSFER: is_good = read_image(action->block, at, action->count) && is_good; break;
    default: break;
    }
    return mscp_port_went(port, MSCP_OUTCOME_DONE, 0);
}

static void go_on(void *context)
{
    struct mscp_action action;
    (void)context;
    if (++steps >= trouble_ends)
        trouble = NONE;
    if (trouble != PORT_STOPS &&
        (trouble == NONE ? mscp_port_next(port, &action) : mscp_port_next_message(port, &action)) == MSCP_DONE)
        is_good = act(&action) == MSCP_DONE && is_good;
}

static uint16_t read_sa(void *context) { return (void)context, (uint16_t)mscp_port_read_sa(port); }
static void write_sa(void *context, uint16_t word) { (void)context, mscp_port_write_sa(port, word); }
static void read_ip(void *context) { (void)context, mscp_port_read_ip(port); }
static void write_ip(void *context) { (void)context, mscp_port_write_ip(port); }
static void came(void *context, uint16_t unit) { (void)context, printf("unit %u is there\n", unit); }
static void read_ended(void *context, uint32_t tag, uint16_t status, uint32_t moved)
{
    uint8_t wanted[LENGTH];
    (void)context;
    printf("ended: %u, status %04x\n", (unsigned)tag, status);
    reads_ended++;
    if (status != 0 || moved != LENGTH || !read_image(tag * 17 % (IMAGE - BLOCKS), wanted, LENGTH) ||
        memcmp(memory + DATA + tag * LENGTH, wanted, LENGTH) != 0)
        is_good = false;
}

static bool begin(void)
{
    static const struct mscp_limits limits = {.credits = 16, .longest = BLOCKS, .timeout = 4};
    static const struct mscp_unit unit = {.size = IMAGE, .track = 10, .group = 1, .cylinder = 1};
    static const struct mscp_hardware rqdx3 = {.bus = MSCP_BUS_Q, .model = 19};
    static const struct mscp_medium medium = {.size = IMAGE};
    driver.machine = (struct machine){NULL,       read_sa, write_sa,      read_ip, write_ip, go_on,
                                      read_ended, came,    memory + AREA, AREA,    0154,     1};
    port = mscp_port_in_memory(port_memory, sizeof port_memory);
    return mscp_port_init(port, &limits, &unit, 1, MSCP_SWEEP, &rqdx3, 15) == MSCP_DONE &&
           mscp_port_volume_came(port, 0, &medium) == MSCP_DONE && driver_reset(&driver, "the beginning");
}

/* Reads all. From step 100 of it on there is trouble for 300. Whether all is read, and the port was reset. */
static bool read_all(enum trouble kind)
{
    unsigned resets = driver.resets, began = driver.resets, from = steps + 100;
    reads_ended = 0;
    for (uint32_t i = 0; i < READS; i++) {
        struct mscp_command read = {
            .opcode = MSCP_READ, .bytes = LENGTH, .lbn = i * 17 % (IMAGE - BLOCKS), .buffer = DATA + i * LENGTH};
        is_good = driver_ask(&driver, &read, i) && is_good;
    }
    for (unsigned time = 1; is_good && reads_ended < READS && time < 10000; time++) {
        if (steps >= from && trouble_ends < from)
            trouble = kind, trouble_ends = from + 300;
        go_on(NULL);
        if (is_interrupted)
            is_interrupted = false, is_good = driver_heed(&driver) && is_good;
        if (time % 20 == 0)
            is_good = driver_tick(&driver) && is_good;
        if (driver.resets != resets)
            printf("reset: %s\n", driver.why), resets = driver.resets;
    }
    printf("%s\n", is_good && reads_ended == READS ? "all is read" : "FAILED");
    return is_good && reads_ended == READS && resets != began;
}

int main(int words, char **word)
{
    if (words == 2 && (image = fopen(word[1], "rb")) == NULL) {
        perror(word[1]);
        return 2;
    }
    if (words != 2) {
        fprintf(stderr, "usage: driver IMAGE (of 60 blocks or more)\n");
        return 2;
    }
    if (fseek(image, (long)IMAGE * (long)MSCP_BLOCK - 1, SEEK_SET) != 0 || fgetc(image) == EOF) {
        fprintf(stderr, "%s: it has under %d blocks of %d bytes\n", word[1], (int)IMAGE, (int)MSCP_BLOCK);
        return 2;
    }
    if (!begin()) {
        fprintf(stderr, "driver: no port begins\n");
        return 1;
    }
    printf("the drive hangs\n");
    if (!read_all(DRIVE_HANGS))
        return 1;
    printf("the port stops\n");
    return !read_all(PORT_STOPS);
}
#endif
