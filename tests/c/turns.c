/* A host that polls its READ as soon as its last poll has ended, and a machine that gives its port few actions a turn. The READ
 * gets its blocks all the same, and each figure that is told is less than the last.
 *
 * Prints what is wrong, and ends with 1 where something is. */
#include "machine.h"

enum { AREA = 0x1000, DATA = 0x4000, MANY = 8, READS = 1, POLLS = 2, MOST_TURNS = 2000 };

/* A turn of a machine that has time for so many actions. Meanwhile the host gives a slot back, or has sent a poll. */
static void turn(unsigned most)
{
    is("it looks again", mscp_port_look_again(machine.port), MSCP_DONE);
    run(most);
}

static void poll(uint32_t reference)
{
    uint8_t *text = command(reference, MSCP_GET_COMMAND_STATUS, 0, 0);
    put(text + 12, 4, READS);
    send(text, 32);
}

/* Whether the READ ends, with so many actions a turn, and each figure that is told before is less than the last. */
static bool falls_and_ends(unsigned most)
{
    uint8_t packet[68];
    uint32_t polls = POLLS, figure = UINT32_MAX;
    send_command(0, READS, MSCP_READ, MANY * MSCP_BLOCK, 3, DATA);
    poll(polls);
    for (unsigned turns = 0; turns < MOST_TURNS; turns++) {
        turn(most);
        if (!take(packet))
            continue;
        if (packet[12] == (0x80 | MSCP_READ)) {
            is("its status", number(packet + 14, 2), 0);
            is("its bytes", number(packet + 16, 4), MANY * MSCP_BLOCK);
            return true;
        }
        is("the end of a poll", packet[12], 0x80 | MSCP_GET_COMMAND_STATUS);
        is("of that poll", number(packet + 4, 4), polls);
        if (number(packet + 20, 4) >= figure)
            break;
        figure = number(packet + 20, 4);
        poll(++polls);
    }
    return false;
}

/* What is left of the polls ends, with the figure 0 of a command that is gone. */
static void settle(void)
{
    uint8_t packet[68];
    for (unsigned turns = 0; turns < 100; turns++) {
        turn(MOST_ACTIONS);
        while (take(packet))
            is("a poll's end", packet[12], 0x80 | MSCP_GET_COMMAND_STATUS);
    }
}

int main(void)
{
    for (policy = MSCP_OLDEST; policy <= MSCP_SWEEP; policy++) {
        for (unsigned most = 1; most <= 5; most++) {
            build(&RQDX3);
            initialise(AREA, 2, 2, 0);
            send_command(0, 100, MSCP_ONLINE, 0, 0, 0);
            expect(100, 0x89, 0);
            is("each figure falls, and the READ ends", falls_and_ends(most), 1);
            is("each block was moved once", machine.transfers, MANY);
            settle();
        }
    }
    return wrong;
}
