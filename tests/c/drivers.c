/* Hosts that drive a port of mscp.h as the drivers of known systems do, which systems.h tells. Each initialises it,
 * finds its units, copies and compares 24 times 64 blocks, loses a volume and gets one back, and begins anew amid that.
 * Then it dismounts, mounts with write protection, rests, and falls silent. So with the oldest command first and with
 * the sweep, and with much and with little done for the disk between two looks of the host. */
#include "driving.h"

enum { PASSES = 24, MOST_TURNS = 1 << 16 };
enum { ACTIONS_A_SECOND = 12 }; /* if there are so many: few, so that a command is polled more than once */
enum { SECONDS_OF_A_BOOT = 60, REST = 200 };

/* ---- a pass, and what happens amid it */

static void begin_pass(unsigned pass)
{
    for (unsigned n = 0; n < BLOCKS; n++)
        for (unsigned k = 0; k < MSCP_BLOCK; k++)
            machine.disks[0][n][k] = (uint8_t)(k * 7 + n * 3 + pass);
    memset(machine.disks[2], 0xEE, sizeof machine.disks[2]);
    driver.next_group = driver.copied = 0;
}

/* In the third pass the volume of unit 2 goes, and comes back some turns later; in the sixth the host begins anew. */
static void trouble(unsigned pass)
{
    if (driver.copied >= GROUPS / 4 && pass == 2 && driver.gone == 0) {
        is("it goes", mscp_port_volume_went(machine.port, 2), MSCP_DONE);
        driver.gone = 1;
    } else if (driver.gone > 0 && driver.gone++ == 20)
        is("it comes", insert(2, 0), MSCP_DONE);
    if (driver.copied >= GROUPS / 4 && pass == 5 && !driver.began_anew) {
        driver.began_anew = true;
        begin();
    }
}

static bool copies(unsigned pass)
{
    unsigned actions = 0, done;
    begin_pass(pass);
    for (unsigned turns = 0; turns < MOST_TURNS && mscp_port_read_sa(machine.port) == 0; turns++) {
        trouble(pass);
        actions += done = turn();
        if (actions >= ACTIONS_A_SECOND || done < driver.most) {
            actions = 0;
            second_goes_by();
        }
        if (driver.copied == GROUPS)
            return memcmp(machine.disks[0], machine.disks[2], sizeof machine.disks[0]) == 0;
    }
    return false;
}

/* ---- one command after another */

/* Sends a command to unit 2, and waits for its end. Its status. */
static uint16_t ask(uint8_t opcode, uint16_t modifiers, uint32_t first)
{
    unsigned turns = 0;
    for (; turns < MOST_TURNS && !may_send(); turns++)
        turn();
    driver.is_answered = false;
    send_text(ASKED, opcode, 2, modifiers, first, 0);
    for (; turns < MOST_TURNS && !driver.is_answered; turns++)
        turn();
    is("it is answered", driver.is_answered, 1);
    is("its code", driver.answer[8], opcode | 0x80);
    return (uint16_t)number(driver.answer + 10, 2);
}

/* Whether the first block of unit 2 is what the memory at 0 has. */
static bool is_same(void)
{
    return memcmp(machine.disks[2][0], machine.memory, MSCP_BLOCK) == 0;
}

enum { SET_PROTECTION = 4, PROTECTED = 0x1000 };

/* The unit is online, and its host protects it or doesn't. Its end says so, and whether it can be written. */
static void mount(uint16_t modifiers, uint16_t flags)
{
    uint16_t refused = flags & PROTECTED ? 0x1006 : 0;
    is("ONLINE", ask(MSCP_ONLINE, modifiers, (uint32_t)flags << 16), 0);
    is("its flag", number(driver.answer + 14, 2) & PROTECTED, flags);
    memset(machine.memory, flags ? 0x55 : 0x66, MSCP_BLOCK);
    is("WRITE", ask(MSCP_WRITE, 0, MSCP_BLOCK), refused);
    is("what it wrote", number(driver.answer + 12, 4), refused ? 0 : MSCP_BLOCK);
    is("it is there", is_same(), refused == 0);
    is("READ", ask(MSCP_READ, 0, MSCP_BLOCK), 0);
    is("it is read", is_same(), 1);
    is("ERASE", ask(MSCP_ERASE, 0, MSCP_BLOCK), refused);
    is("it is there still", is_same(), refused != 0);
}

static void dismount(void)
{
    is("AVAILABLE", ask(MSCP_AVAILABLE, 0, 0), 0);
    is("READ of it", ask(MSCP_READ, 0, MSCP_BLOCK), 4);
}

static void dismounts(void)
{
    dismount();
    mount(SET_PROTECTION, PROTECTED);
    dismount();
    mount(0, 0);
}

/* ---- seconds */

/* Of silence that a host may have: none is too many with 0. */
static unsigned seconds(void)
{
    return driver.is->is_boot ? SECONDS_OF_A_BOOT : driver.is->timeout;
}

static void is_alive(void)
{
    is("SA of a host that is alive", mscp_port_read_sa(machine.port), 0);
}

/* Nothing is to be done for a while, and the host says no more than its row has it say. */
static void rests(void)
{
    for (unsigned i = 0; i < REST; i++) {
        second_goes_by();
        turn();
        is_alive();
    }
}

/* The host says nothing at all any more: it is alive for its seconds, and dead one later. */
static void falls_silent(void)
{
    is("AVAILABLE", ask(MSCP_AVAILABLE, 0, 0), 0);
    for (unsigned i = 0; i < (seconds() ? seconds() : REST); i++) {
        is("a tick", mscp_port_tick(machine.port), MSCP_DONE);
        run(MOST_ACTIONS);
        is_alive();
    }
    is("the last tick", mscp_port_tick(machine.port), MSCP_DONE);
    is("SA", mscp_port_read_sa(machine.port), seconds() ? 0x8009 : 0);
}

/* ---- a row */

static bool copies_all(void)
{
    for (unsigned pass = 0; pass < PASSES; pass++)
        if (!copies(pass)) {
            printf("%s (%s), %u actions a turn, pass %u: not copied\n", driver.is->name, driver.is->known, driver.most,
                   pass);
            wrong = 1;
            return false;
        }
    return true;
}

static void drive(const struct driver *it, unsigned most)
{
    memset(&driver, 0, sizeof driver);
    driver.is = it;
    driver.most = most;
    for (unsigned i = 0; i < REQUESTS; i++)
        driver.requests[i].stage = COPIED;
    build(it->hardware);
    begin();
    if (!copies_all())
        return;
    is("the trouble", driver.gone > 20 && driver.began_anew, 1);
    is("interrupts", machine.interrupts > 0, it->vector != 0);
    is("its vector", machine.vector, 4 * it->vector);
    is("paths", driver.paths > 0, it->asks_for_paths);
    is("figures that fell", driver.falls > 0, it->polls && most < MOST_ACTIONS);
    dismounts();
    if (it->stays_alive || seconds() == 0)
        rests();
    falls_silent();
}

int main(void)
{
    static const unsigned MOST[] = {3, 20, MOST_ACTIONS};
    for (policy = MSCP_OLDEST; policy <= MSCP_SWEEP; policy++)
        for (unsigned d = 0; d < COUNT(DRIVERS); d++)
            for (unsigned i = 0; i < COUNT(MOST); i++)
                drive(&DRIVERS[d], MOST[i]);
    return wrong;
}
