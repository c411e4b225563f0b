/* rings.c: the driver of examples/driver.c beside a port, register accesses, messages, blocks and ticks in random order,
 * with FLUSH, DETERMINE ACCESS PATHS, volumes that come and go, and resets. The driver resets the port by itself only in
 * the last round, in which messages of the port are lost and garbled; and then, too, all that was asked for ends. Its
 * account is saved and restored now and then.
 *     rings [STEPS [SEED]] */
#define DRIVER_PART
#include "../../examples/driver.c"
#include <stdio.h>
#include <stdlib.h>

enum { MEMORY = 0x10000, AREA_AT = 0x800, DATA_AT = 0x4000, VOLUMES = 2, BLOCKS = 2000, CREDITS = 40, VECTOR = 0154 };

static uint8_t host_memory[MEMORY];
static MSCP_ALIGNED uint64_t port_memory[(MSCP_HEAD + MSCP_PORT_SIZE) / 8], other_memory[(MSCP_HEAD + MSCP_HOST_SIZE) / 8];
static struct mscp_port *port;
static struct mscp_host *other; /* what mscp_host makes of the same messages */
static struct driver driver;
static uint64_t seed = 1;
static unsigned long served, requests_ended, forced, came, unread, spoiled, too_many, since_tick, by_status[64];

static uint32_t any(uint32_t below)
{
    seed = seed * UINT64_C(6364136223846793005) + UINT64_C(1442695040888963407);
    return (uint32_t)(seed >> 33) % below;
}

static void fail(const char *what)
{
    printf("FAILED: %s\n", what);
    exit(1);
}

/* One action of the port. Whether there was one. */
static bool act(bool blocks)
{
    struct mscp_action action;
    int32_t status = blocks ? mscp_port_next(port, &action) : mscp_port_next_message(port, &action);
    if (status != MSCP_DONE)
        return false;
    switch (action.kind) {
    case MSCP_ACTION_READ:
        if (action.address + action.count > MEMORY)
            fail("a read elsewhere");
        return mscp_port_was_read(port, host_memory + action.address, action.count) == MSCP_DONE;
    case MSCP_ACTION_WRITE:
        if (action.address + action.count > MEMORY)
            fail("a write elsewhere");
        memcpy(host_memory + action.address, action.bytes, action.count);
        break;
    case MSCP_ACTION_TRANSFER:
        served++, since_tick++;
        break;
    case MSCP_ACTION_PAUSE:
        since_tick++;
        break;
    default:
        break;
    }
    return mscp_port_went(port, MSCP_OUTCOME_DONE, 0) == MSCP_DONE;
}

static uint16_t read_sa(void *context) { (void)context; return (uint16_t)mscp_port_read_sa(port); }
static void write_sa(void *context, uint16_t word) { (void)context; mscp_port_write_sa(port, word); }
static void read_ip(void *context) { (void)context; mscp_port_read_ip(port); }
static void write_ip(void *context) { (void)context; mscp_port_write_ip(port); }
static void a_while(void *context)
{
    (void)context;
    for (unsigned i = any(20); i > 0; i--)
        act(true);
}
static void has_ended(void *context, uint32_t tag, uint16_t status, uint32_t moved)
{
    (void)context, (void)tag, (void)moved;
    requests_ended++, by_status[status % 32]++;
}
static void has_come(void *context, uint16_t unit) { (void)context, (void)unit; came++; }

static void come(uint16_t unit)
{
    struct mscp_medium medium = {BLOCKS, 7, 0, 1};
    if (mscp_port_volume_came(port, unit, &medium) != MSCP_DONE)
        fail("no volume comes");
}

static void begin(uint32_t host_credits)
{
    struct mscp_limits limits = {77, 64, CREDITS, 0, 8, 60};
    struct mscp_unit units[VOLUMES];
    struct mscp_hardware hardware = {MSCP_BUS_Q, 19, 3, 1};
    for (uint16_t i = 0; i < VOLUMES; i++) {
        struct mscp_unit unit = {5, BLOCKS, 7, 9, i, 10, 2, 1};
        units[i] = unit;
    }
    port = mscp_port_in_memory(port_memory, sizeof port_memory);
    if (mscp_port_init(port, &limits, units, VOLUMES, MSCP_SWEEP, &hardware, host_credits) != MSCP_DONE)
        fail("no port");
    for (uint16_t i = 0; i < VOLUMES; i++) {
        come(i);
    }
    struct machine machine = {NULL,      read_sa,  write_sa,              read_ip, write_ip, a_while,
                              has_ended, has_come, host_memory + AREA_AT, AREA_AT, VECTOR,   1};
    memset(&driver, 0, sizeof driver);
    driver.machine = machine;
    if (!driver_reset(&driver, "the beginning"))
        fail("the port doesn't begin");
    driver.resets = 0;
}

static void ask_any(void)
{
    static const uint8_t OPCODES[] = {19, 11, MSCP_ONLINE, MSCP_ONLINE, MSCP_GET_UNIT_STATUS, MSCP_AVAILABLE, MSCP_READ, MSCP_READ,
                                      MSCP_WRITE, MSCP_WRITE, MSCP_ACCESS, MSCP_ERASE, MSCP_COMPARE_HOST_DATA};
    uint8_t opcode = OPCODES[any(sizeof OPCODES)];
    struct mscp_command command = {.opcode = opcode, .unit = (uint16_t)any(VOLUMES), .bytes = 512 * any(5), .lbn = any(BLOCKS),
                                   .buffer = DATA_AT};
    driver_ask(&driver, &command, any(1000));
}

/* What mscp_host would make of the next message. */
static void hear_by_the_other(void)
{
    struct mscp_news news;
    const uint8_t *bytes = host_memory + AREA_AT + buffer_of(false, driver.next_response);
    if (number_at(descriptor(&driver, false, driver.next_response)) & PORTS_OWN)
        return;
    if (mscp_host_receive(other, bytes + 4, (size_t)(bytes[0] | bytes[1] << 8), &news) == MSCP_UNREADABLE)
        unread++;
}

/* The next message of the port is lost, or a bit of it is turned. */
static void spoil(void)
{
    unsigned slot = driver.next_response;
    if (number_at(descriptor(&driver, false, slot)) & PORTS_OWN)
        return;
    spoiled++;
    if (any(2) == 0) {
        host_memory[AREA_AT + buffer_of(false, slot) + any(BUFFER)] ^= (uint8_t)(1u << any(8));
    } else {
        give(&driver, false, slot, PORTS_OWN | INTERRUPTS);
        driver.next_response = (slot + 1) % SLOTS;
    }
}

/* The driver goes on with an account that is made of the bytes of its own. */
static void go_on_as_saved(void)
{
    static uint8_t bytes[MSCP_DRIVER_SAVED_MAX];
    size_t length;
    if (mscp_driver_save(driver.account, bytes, sizeof bytes, &length) != MSCP_DONE)
        fail("an account isn't saved");
    driver.account = mscp_driver_in_memory(driver.memory, sizeof driver.memory);
    if (mscp_driver_restore(driver.account, bytes, length) != MSCP_DONE)
        fail("an account isn't restored");
}

static void step(unsigned long number, bool spoils)
{
    switch (any(24)) {
    case 0: case 1: case 2: ask_any(); break;
    case 3: case 4: case 5: case 6:
        hear_by_the_other();
        if (spoils && any(100) == 0)
            spoil();
        if (!driver_heed(&driver))
            fail("the port is broken");
        break;
    case 7:
        if (any(40) == 0) {
            uint16_t unit = (uint16_t)any(VOLUMES);
            if (any(2) == 0)
                come(unit);
            else if (mscp_port_volume_went(port, unit) != MSCP_DONE)
                fail("no volume goes");
        }
        break;
    case 8:
        if (any(3000) == 0) {
            forced++;
            if (!driver_reset(&driver, "by chance"))
                fail("the port doesn't begin again");
        }
        break;
    default: act(any(3) != 0); break;
    }
    if (any(50) == 0)
        go_on_as_saved();
    if (number % 60 == 59) { /* a step lies between two ticks, if a command waits */
        for (unsigned i = 0; i < 100 && since_tick == 0; i++)
            act(true);
        since_tick = 0;
        if (!driver_tick(&driver))
            fail("the port is broken");
    }
    if (mscp_driver_credits(driver.account) > CREDITS)
        too_many++;
}

static bool is_all_ended(void)
{
    for (unsigned i = 0; i < REQUESTS; i++)
        if (driver.requests[i].state != FREE)
            return false;
    return true;
}

int main(int words, char **word)
{
    unsigned long steps = words > 1 ? strtoul(word[1], NULL, 10) : 1000000;
    uint32_t credits[] = {2, 15, 39, 30};
    struct mscp_asked list[64];
    for (unsigned round = 0; round < 4; round++) {
        bool spoils = round == 3;
        if (words > 2)
            seed = strtoull(word[2], NULL, 10) + round;
        other = mscp_host_in_memory(other_memory, sizeof other_memory);
        if (mscp_host_init(other, 64) != MSCP_DONE)
            fail("no host");
        begin(credits[round]);
        served = requests_ended = forced = came = unread = 0;
        memset(by_status, 0, sizeof by_status);
        for (unsigned long number = 0; number < steps / 3; number++)
            step(number, spoils);
        printf("%u credits: %lu blocks, %lu ended, %lu came, %u resets, %lu by chance, unread by mscp_host %lu, "
               "spoiled %lu; the last reset: %s\n",
               (unsigned)credits[round], served, requests_ended, came, driver.resets, forced, unread, spoiled,
               driver.why);
        if (!spoils && (driver.resets != forced || too_many != 0))
            fail("a reset that nobody forced");
        if (requests_ended == 0 || served == 0 || (spoils && (spoiled == 0 || driver.resets == forced)))
            fail("nothing happens");
        if (unread == 0)
            fail("mscp_host reads all that a port sends");
        for (unsigned i = 0; i < 40000; i++) {
            act(true);
            if (!driver_heed(&driver) || (i % 60 == 59 && !driver_tick(&driver)))
                fail("the port is broken");
        }
        if (mscp_driver_outstanding(driver.account, list, 64) != 0 || !is_all_ended())
            fail("a command never ends");
        if (!spoils && mscp_driver_credits(driver.account) != credits[round])
            fail("credits are lost");
    }
    printf("good\n");
    return 0;
}
