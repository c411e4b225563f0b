/* A port of 16 units: a host hears of each volume that comes, whichever units have one, and each unit goes online, is read and is
 * dismounted. Prints what is wrong, and ends with 1 where something is. */
#define MACHINE_UNITS 16
#include "machine.h"

enum { DATA = 0x8000, ATTENTION = 0x40 };

static void begin(void)
{
    uint8_t text[32] = {0};
    build(&RQDX3);
    initialise(0x1000, 3, 3, 0);
    text[8] = MSCP_SET_CONTROLLER_CHARACTERISTICS;
    text[14] = 0x80; /* it wants attention messages */
    send(text, 32);
    expect(0, 0x84, 0);
}

/* The next message says that this unit is available. */
static void hears_of(uint16_t unit)
{
    uint8_t packet[68] = {0};
    is("it looks again", mscp_port_look_again(machine.port), MSCP_DONE);
    run(MOST_ACTIONS);
    if (!take(packet)) {
        is("a message about unit", -1, unit);
        return;
    }
    is("its code", packet[12], ATTENTION);
    is("its unit", number(packet + 8, 2), unit);
}

/* In rising order if `step` is 1, and else in another one: 16 has no divisor of it. */
static void volumes_come(uint16_t step)
{
    begin();
    for (unsigned n = 0, unit = 5; n < UNITS; n++, unit = (unit + step) % UNITS)
        if (unit != 0 && unit != 2) {
            is("it comes", insert((uint16_t)unit, 0), MSCP_DONE);
            hears_of((uint16_t)unit);
        }
}

/* All come before the host looks: the lowest unit is told first. */
static void all_come_at_once(void)
{
    begin();
    for (uint16_t unit = UNITS - 1; unit > 2; unit--)
        is("it comes", insert(unit, 0), MSCP_DONE);
    is("it comes", insert(1, 0), MSCP_DONE);
    hears_of(1);
    for (uint16_t unit = 3; unit < UNITS; unit++)
        hears_of(unit);
    is("no more", look() == NULL, 1);
}

static void each_is_used(void)
{
    volumes_come(1);
    for (uint16_t unit = 0; unit < UNITS; unit++) {
        send_command(unit, 1, MSCP_ONLINE, 0, 0, 0);
        expect(1, 0x89, 0);
        send_command(unit, 2, MSCP_READ, 2 * MSCP_BLOCK, 3, DATA);
        expect(2, 0xA1, 0);
        for (unsigned n = 0; n < 2; n++)
            is("its blocks", memcmp(machine.memory + DATA + n * MSCP_BLOCK, machine.disks[unit][3 + n], MSCP_BLOCK), 0);
        send_command(unit, 3, MSCP_AVAILABLE, 0, 0, 0);
        expect(3, 0x88, 0);
        send_command(unit, 4, MSCP_READ, MSCP_BLOCK, 3, DATA);
        expect(4, 0xA1, 4);
    }
}

int main(void)
{
    volumes_come(1);
    volumes_come(3);
    all_come_at_once();
    each_is_used();
    return wrong;
}
