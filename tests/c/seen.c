/* What examples/port.c shows its machine of messages: each once, whole, as it goes by. A command that stays in its slot
 * isn't shown before it leaves it, and none that a reset took away ever is.
 *
 * Prints what is wrong, and ends with 1 where something is. */
#include "callbacks.h"

enum { MOST = 64 };

static struct {
    bool is_to_host;
    uint32_t length;
    uint8_t bytes[MSCP_MESSAGE_MAX];
} seen[MOST];
static unsigned count;

static void see_message(void *it, bool is_to_host, const uint8_t *bytes, uint32_t length)
{
    is("the machine", it == &machine, 1);
    is("room for it", count < MOST && length <= MSCP_MESSAGE_MAX, 1);
    seen[count].is_to_host = is_to_host;
    seen[count].length = length;
    memcpy(seen[count++].bytes, bytes, length);
}

/* Rings of so many slots, whose host wants to hear of each that comes back. */
static void initialise_rings(unsigned slots)
{
    const struct asked asked = {
        .base = AREA, .responses = slots, .commands = slots, .bits = 0x80 | 0x2D, .go = 1, .flag = 1u << 30};
    initialise_as(&asked);
}

static void begin(void)
{
    begin_host(&RQDX3, true);
    initialise_rings(2);
    port.bus.see_message = see_message;
    count = 0;
}

/* The n-th message was this text of the host. */
static void was_sent(unsigned n, const uint8_t *text, uint32_t length)
{
    is("a message", n < count, 1);
    is("of the host", seen[n].is_to_host, 0);
    is("as long", seen[n].length, length);
    is("its bytes", memcmp(seen[n].bytes, text, length), 0);
}

/* The n-th message is what the host now takes. */
static void is_taken(unsigned n)
{
    uint8_t packet[68];
    is("a message", n < count, 1);
    is("it is there", take(packet), 1);
    is("to the host", seen[n].is_to_host, 1);
    is("as long", seen[n].length, number(packet, 2));
    is("its bytes", memcmp(seen[n].bytes, packet + 4, seen[n].length), 0);
}

static void turns(void)
{
    for (unsigned i = 0; i < 100; i++)
        port_turn(&port, 7);
}

/* Of two commands of one number the second stays in its slot, and is read again, until the first has ended. */
static void each_is_seen_once(void)
{
    uint8_t first[32], second[32];
    begin();
    memcpy(first, command(1, MSCP_READ, 60 * MSCP_BLOCK, 4), 32);
    put(first + 16, 4, DATA);
    memcpy(second, command(1, MSCP_WRITE, MSCP_BLOCK, 3), 32);
    put(second + 16, 4, DATA);
    send(first, 32);
    send(second, 32);
    port_turn(&port, 20);
    is("what was seen", count, 1);
    turns();
    is("what was seen", count, 4);
    was_sent(0, first, 32);
    is_taken(1);
    was_sent(2, second, 32);
    is_taken(3);
}

/* What the port answers itself is seen too, and so is an attention message. */
static void attention_is_seen(void)
{
    const struct mscp_medium medium = {.size = 311200, .media = 0x25644036};
    begin();
    uint8_t *text = command(9, MSCP_SET_CONTROLLER_CHARACTERISTICS, 0, 0);
    put(text + 14, 2, 0x80);
    send(text, 32);
    turns();
    is("what was seen", count, 2);
    was_sent(0, text, 32);
    is_taken(1);
    is("it comes", port_insert(&port, 1, &medium), 1);
    turns();
    is("what was seen", count, 3);
    is("its code", seen[2].bytes[8], 0x40);
    is("its unit", number(seen[2].bytes + 4, 2), 1);
    is_taken(2);
}

/* A reset comes when a text was read, and not yet its slot given back: whatever is written then, nothing went by. */
static void reset_takes_it_away(unsigned slots)
{
    begin();
    send_command(0, 1, MSCP_READ, MSCP_BLOCK, 3, DATA);
    for (unsigned i = 0; i < 3; i++)
        port_turn(&port, 1);
    is("its text was read", port.passing.length, 32);
    initialise_rings(slots);
    turns();
    is("what was seen", count, 0);
    send_command(0, 2, MSCP_GET_UNIT_STATUS, 0, 0, 0);
    turns();
    is("what was seen", count, 2);
    is("its number", number(seen[0].bytes, 4), 2);
    is_taken(1);
}

/* A port that is restored when a text was read, and not yet its slot given back, goes on with that slot. */
static void restored_port_goes_on(void)
{
    static uint8_t bytes[MSCP_PORT_SAVED_MAX];
    size_t length = 0;
    begin();
    send_command(0, 1, MSCP_GET_UNIT_STATUS, 0, 0, 0);
    for (unsigned i = 0; i < 3; i++)
        port_turn(&port, 1);
    is("its text was read", port.passing.length, 32);
    is("save", mscp_port_save(machine.port, bytes, sizeof bytes, &length), MSCP_DONE);
    is("restore", port_restore(&port, bytes, length), MSCP_DONE);
    turns();
    is("what was seen", count, 1);
    is_taken(0);
}

int main(void)
{
    each_is_seen_once();
    attention_is_seen();
    reset_takes_it_away(0);
    reset_takes_it_away(2);
    restored_port_goes_on();
    return wrong;
}
