/* A port that is saved and restored: in a whole run it goes on after each action in fresh memory, from what was saved, and
 * all is as with a port that stays. Bytes that no run has are refused, or do no harm. Prints what is wrong, and ends with 1
 * where something is. */
#include "machine.h"

/* What a machine is left with. */
static struct {
    uint8_t memory[MEMORY];
    uint8_t disks[UNITS][BLOCKS][MSCP_BLOCK];
    uint32_t interrupts, transfers, credits;
} stayed;

/* Initialisation with interrupts, all kinds of transfers with slots that the host wants to hear of, and a volume that goes
 * in the middle of a READ. */
static void work(bool saves)
{
    build(&RQDX3);
    machine.saves = saves;
    initialise(0x1000, 2, 2, 0x80 | 0154 / 4);
    host.flag = 0x40000000;
    for (uint32_t slot = 0; slot < host.responses; slot++)
        offer(slot);
    for (unsigned i = 0; i < 2048; i++)
        machine.memory[0x8000 + i] = (uint8_t)(3 * i + 1);
    send_command(0, 1, MSCP_ONLINE, 0, 0, 0);
    is("one that the port answers", end_of(1, 0x89), 0);
    send_command(0, 2, MSCP_WRITE, 2048, 3, 0x8000);
    send_command(0, 3, MSCP_READ, 1300, 2, 0xA000);
    send_command(0, 4, MSCP_COMPARE_HOST_DATA, 512, 3, 0x8000);
    send_command(0, 5, MSCP_ERASE, 512, 9, 0);
    expect(2, 0xA2, 0);
    expect(3, 0xA1, 0);
    expect(4, 0xA0, 0);
    expect(5, 0x92, 0);
    send_command(0, 6, MSCP_READ, 2048, 20, 0xC000);
    is("so many actions", run(8), 8);
    is("the volume goes", mscp_port_volume_went(machine.port, 0), MSCP_DONE);
    expect(6, 0xA1, 0x23);
    is("a tick", mscp_port_tick(machine.port), MSCP_DONE);
    run(MOST_ACTIONS);
}

static void goes_on(void)
{
    work(false);
    memcpy(stayed.memory, machine.memory, sizeof stayed.memory);
    memcpy(stayed.disks, machine.disks, sizeof stayed.disks);
    stayed.interrupts = machine.interrupts;
    stayed.transfers = machine.transfers;
    stayed.credits = host.credits;
    work(true);
    is("memory", memcmp(stayed.memory, machine.memory, sizeof stayed.memory), 0);
    is("disks", memcmp(stayed.disks, machine.disks, sizeof stayed.disks), 0);
    is("interrupts", machine.interrupts, stayed.interrupts);
    is("transfers", machine.transfers, stayed.transfers);
    is("credits", host.credits, stayed.credits);
    is("there were interrupts", stayed.interrupts > 3, 1);
}

/* ---- the bytes of one port, written by hand */

enum { FRONT = 82, KEPT = FRONT + 16 * 18, CONTROLLER = KEPT + 21, LENGTH = CONTROLLER + 48 + 34 * UNITS + 41 };

/* Its head. */
static const uint8_t HEAD[FRONT] = {
    /* "MSCP", version 3, and so many bytes */
    0x4D, 0x53, 0x43, 0x50, 3, 0, 0, 0, LENGTH & 255, LENGTH >> 8, 0, 0,
    /* the Q-bus, and model, software and hardware of an RQDX3 */
    1, 19, 3, 1,
    /* 15 credits beside one, of which 1 is untold; a slot of responses and two of commands were given back */
    15, 1, 1, 2,
    /* no slot is looked for, no command waits for a credit, the ring of responses isn't full, and no poll was heard */
    0, 0, 0, 0,
    /* no controller flags, 60 seconds, and 60 left */
    0, 0, 60, 0, 60, 0,
    /* the host's first two words */
    0x00, 0x80, 0x84, 0x0E,
    /* up; no word is written */
    8, 0, 0, 0, 0, 0,
    /* the base, and one slot in each ring */
    1, 0x84, 0x0E, 0, 0, 1, 0, 0, 0, 1, 0, 0, 0,
    /* a transfer: of which command and which block is the controller's */
    12, 0, 0, 0, 0, 0, 0, 0, 0, 0, 0, 0, 0, 0, 0, 0, 0,
    /* nothing goes out, something is kept of one command, and no end waits */
    0, 0, 1, 0,
    /* three steps were begun: the ONLINE, and two of the READ */
    3, 0, 0, 0, 0, 0, 0, 0,
};

/* The volumes of units 0 and 1: one that is there, is no news, can't be taken out, and with which the unit is online; it changed
 * once, has 311,200 blocks, and media of an RD54; and none. */
static const uint8_t VOLUMES[36] = {1, 0, 0, 0, 0, 1, 1, 0, 0, 0, 0xA0, 0xBF, 4, 0, 0x36, 0x40, 0x64, 0x25};

/* What is kept of the READ: its number, address and count, no modifiers, no flags, the volume that changed once, and its
 * opcode. */
static const uint8_t BUFFER[21] = {2, 0, 0, 0, 0, 4, 0, 0, 0, 8, 0, 0, 0, 0, 0, 0, 1, 0, 0, 0, MSCP_READ};

static uint8_t bytes[LENGTH];

/* A port that is to move the second block of READ 2, of four blocks from block 3 on to address 0x0400. */
static void save_in_the_middle(void)
{
    struct mscp_action action = {0};
    size_t length = 0;
    build(&RQDX3);
    initialise(0x0E84, 0, 0, 0);
    send_command(0, 1, MSCP_ONLINE, 0, 0, 0);
    expect(1, 0x89, 0);
    send_command(0, 2, MSCP_READ, 2048, 3, 0x0400);
    while (mscp_port_next(machine.port, &action) == MSCP_DONE && (action.kind != MSCP_ACTION_TRANSFER || action.block != 4))
        tell(&action, perform(&action));
    is("save", mscp_port_save(machine.port, bytes, sizeof bytes, &length), MSCP_DONE);
    is("its length", (int64_t)length, LENGTH);
}

static void bytes_are_these(void)
{
    struct mscp_limits limits;
    struct mscp_unit told[UNITS], first = rd54(0);
    is("its units", mscp_port_settings(machine.port, &limits, told, UNITS), UNITS);
    is("the first", is_same_unit(told, &first), 1);
    is("its longest and its credits", limits.longest == 65536 && limits.credits == HOST_CREDITS + 1, 1);
    is("head", memcmp(bytes, HEAD, sizeof HEAD), 0);
    is("volumes", memcmp(bytes + sizeof HEAD, VOLUMES, sizeof VOLUMES), 0);
    is("kept of the READ", memcmp(bytes + KEPT, BUFFER, sizeof BUFFER), 0);
    is("a controller", memcmp(bytes + CONTROLLER, "MSCQ", 4), 0);
}

/* What comes of so many of the bytes: a port that is saved as they are, and to which what comes then does no harm; or a
 * fault, and no port. */
static int32_t restored(size_t length)
{
    static uint8_t again[MSCP_PORT_SAVED_MAX];
    struct mscp_port *port = mscp_port_in_memory(machine.rooms[1], sizeof machine.rooms[1]);
    struct mscp_action action;
    size_t other = 0;
    int32_t status = mscp_port_restore(port, bytes, length);
    if (status != MSCP_DONE) {
        is("no port", mscp_port_read_sa(port), MSCP_NOT_MADE);
        return status;
    }
    is("save again", mscp_port_save(port, again, sizeof again, &other), MSCP_DONE);
    is("the same bytes again", other == length && memcmp(again, bytes, length) == 0, 1);
    bool is_done = mscp_port_next(port, &action) == MSCP_DONE && action.kind != MSCP_ACTION_READ;
    is("it went", mscp_port_went(port, MSCP_OUTCOME_DONE, 0) == MSCP_DONE, is_done);
    is("a tick", mscp_port_tick(port), MSCP_DONE);
    return status;
}

/* These edits have this status, of which a row has three at most. A place of 0 is none. */
static void edits(void)
{
    static const struct {
        struct {
            uint16_t place;
            uint8_t byte;
        } edits[3];
        int32_t status;
    } cases[] = {
        /* a text of 49 bytes, 65 commands, 65 ends, and more of each than there are bytes */
        {{{8, 14}}, MSCP_SAVED_LENGTH}, {{{71, 49}}, MSCP_SAVED_LENGTH}, {{{72, 65}}, MSCP_SAVED_LENGTH},
        {{{72, 13}}, MSCP_SAVED_LENGTH}, {{{73, 65}}, MSCP_SAVED_LENGTH}, {{{73, 20}}, MSCP_SAVED_LENGTH},
        {{{3, 0}}, MSCP_SAVED_MAGIC}, {{{4, 1}}, MSCP_SAVED_VERSION}, {{{4, 2}}, MSCP_SAVED_VERSION},
        /* a controller that begins elsewhere, isn't one, or has 65 + 1 credits or another picker */
        {{{72, 0}}, MSCP_SAVED_LENGTH}, {{{CONTROLLER, 0}}, MSCP_SAVED_MAGIC}, {{{CONTROLLER + 12, 65}}, MSCP_SAVED_LIMITS},
        {{{CONTROLLER + 30, 2}}, MSCP_SAVED_PICKER},
        /* a text of no bytes, of 11, 12, 64 and 65 */
        {{{53, 5}}, MSCP_SAVED_SIZE}, {{{53, 5}, {59, 11}}, MSCP_SAVED_SIZE}, {{{53, 5}, {59, 12}}, MSCP_DONE},
        {{{53, 5}, {59, 64}}, MSCP_DONE}, {{{53, 5}, {59, 65}}, MSCP_SAVED_SIZE},
        /* a step that moves no block, and how it went: good, a bad block of status 8 and of no status, no volume, not online */
        {{{53, 11}}, MSCP_DONE}, {{{53, 11}, {69, 1}, {67, 8}}, MSCP_DONE}, {{{53, 11}, {69, 1}, {67, 5}}, MSCP_DONE},
        {{{53, 11}, {69, 1}, {67, 4}}, MSCP_SAVED_FORM}, {{{53, 11}, {69, 1}}, MSCP_SAVED_FORM},
        {{{53, 11}, {69, 2}}, MSCP_DONE}, {{{53, 11}, {69, 3}}, MSCP_DONE}, {{{53, 11}, {69, 4}}, MSCP_SAVED_FORM},
        /* 2 bytes of the area that are clear, 64, 1,024 and 1,088 */
        {{{53, 2}, {55, 2}}, MSCP_SAVED_SIZE}, {{{53, 2}, {55, 64}}, MSCP_DONE}, {{{53, 2}, {56, 4}}, MSCP_DONE},
        {{{53, 2}, {56, 4}, {55, 64}}, MSCP_SAVED_SIZE},
        /* no bus, no flags, no stage, a word where there is none, no rings, no task, a text where nothing goes out, no flag of a
         * volume's */
        {{{12, 3}}, MSCP_SAVED_FORM}, {{{20, 2}}, MSCP_SAVED_FORM}, {{{23, 2}}, MSCP_SAVED_FORM}, {{{34, 10}}, MSCP_SAVED_FORM},
        {{{35, 1}}, MSCP_SAVED_FORM}, {{{38, 1}}, MSCP_SAVED_FORM}, {{{45, 129}}, MSCP_SAVED_FORM},
        {{{49, 0}}, MSCP_SAVED_FORM}, {{{53, 13}}, MSCP_SAVED_FORM}, {{{70, 4}}, MSCP_SAVED_FORM},
        {{{FRONT + 18 + 1, 2}}, MSCP_SAVED_FORM},
    };
    for (size_t i = 0; i < COUNT(cases); i++) {
        for (unsigned k = 0; k < 3 && cases[i].edits[k].place != 0; k++)
            bytes[cases[i].edits[k].place] = cases[i].edits[k].byte;
        is("an edit", restored(LENGTH), cases[i].status);
        save_in_the_middle();
    }
    /* a transfer in hand says no connection, number, block, count of steps, unit or kind: these are the controller's */
    for (size_t place = 54; place < 70; place++) {
        bytes[place] = 1;
        is("a transfer's block", restored(LENGTH), MSCP_SAVED_FORM);
        bytes[place] = 0;
    }
    for (size_t length = 0; length < LENGTH; length++)
        is("bytes too few", restored(length), MSCP_SAVED_LENGTH);
}

/* If the controller has begun nothing, a transfer in hand moves nothing, and the block is begun again. */
static void nothing_is_begun(void)
{
    struct mscp_action action;
    bytes[CONTROLLER + 43] = bytes[CONTROLLER + 44] = 0;
    is("restored", restored(LENGTH), MSCP_DONE);
    machine.port = mscp_port_in_memory(machine.rooms[0], sizeof machine.rooms[0]);
    is("restore", mscp_port_restore(machine.port, bytes, LENGTH), MSCP_DONE);
    is("an action", mscp_port_next(machine.port, &action), MSCP_DONE);
    is("that does nothing", action.kind, MSCP_ACTION_PAUSE);
    tell(&action, MSCP_OUTCOME_DONE);
    is("the next", mscp_port_next(machine.port, &action), MSCP_DONE);
    is("is its block", action.kind == MSCP_ACTION_TRANSFER && action.block == 4, 1);
}

/* Bytes may say that a volume ends before a command's blocks: no block past it is moved, and the command ends with a drive error. */
static void volume_is_short(void)
{
    struct mscp_action action;
    save_in_the_middle();
    put(bytes + FRONT + 10, 4, 4);
    machine.port = mscp_port_in_memory(machine.rooms[0], sizeof machine.rooms[0]);
    is("restore", mscp_port_restore(machine.port, bytes, LENGTH), MSCP_DONE);
    is("an action", mscp_port_next(machine.port, &action), MSCP_DONE);
    is("that moves nothing", action.kind, MSCP_ACTION_PAUSE);
    machine.transfers = 0;
    expect(2, 0xA1, 0x0B);
    is("nothing was moved", machine.transfers, 0);
    save_in_the_middle();
    put(bytes + FRONT + 10, 4, 5);
    machine.port = mscp_port_in_memory(machine.rooms[0], sizeof machine.rooms[0]);
    is("restore", mscp_port_restore(machine.port, bytes, LENGTH), MSCP_DONE);
    is("an action", mscp_port_next(machine.port, &action), MSCP_DONE);
    is("that moves its last block", action.kind == MSCP_ACTION_TRANSFER && action.block == 4, 1);
    save_in_the_middle();
}

/* Bytes may say that rings aren't known, whose area is cleared or one of whose slots or words is in hand: nothing is touched, and
 * the port dies of it where it would count. */
static void no_rings(void)
{
    static const struct { uint8_t in_hand, ring; bool dies; } CASES[] = {
        {2, 0, true},   {3, 1, false}, {3, 2, false}, {7, 1, true}, {7, 2, true},
        {8, 1, false},  {8, 2, false}, {9, 1, false}, {9, 2, false}};
    struct mscp_action action;
    struct mscp_state state;
    for (size_t i = 0; i < COUNT(CASES); i++) {
        save_in_the_middle();
        memset(bytes + 40, 0, 30);
        bytes[53] = CASES[i].in_hand;
        bytes[54] = CASES[i].ring;
        machine.port = mscp_port_in_memory(machine.rooms[0], sizeof machine.rooms[0]);
        is("restore", mscp_port_restore(machine.port, bytes, LENGTH), MSCP_DONE);
        is("an action", mscp_port_next(machine.port, &action), MSCP_DONE);
        is("that touches nothing", action.kind, MSCP_ACTION_PAUSE);
        is("its state", mscp_port_state(machine.port, &state), MSCP_DONE);
        is("it is up", state.stage, 8);
        if (!CASES[i].dies)
            continue;
        is("it went", mscp_port_went(machine.port, MSCP_OUTCOME_DONE, 0), MSCP_DONE);
        is("its state", mscp_port_state(machine.port, &state), MSCP_DONE);
        is("it is dead", state.stage, 9);
        is("of that", state.word, 7);
    }
    save_in_the_middle();
}

/* Bytes may say that the host has answered a step in a stage that asks for none: it is taken, and nothing comes of it. */
static void no_step(void)
{
    static const uint8_t STAGES[] = {1, 4, 5, 6, 7, 8};
    struct mscp_action action;
    struct mscp_state state;
    for (size_t i = 0; i < sizeof STAGES; i++) {
        save_in_the_middle();
        bytes[34] = STAGES[i];
        bytes[37] = 1;
        put(bytes + 38, 2, 0x8123);
        memset(bytes + 53, 0, 17);
        bytes[53] = 1;
        machine.port = mscp_port_in_memory(machine.rooms[0], sizeof machine.rooms[0]);
        is("restore", mscp_port_restore(machine.port, bytes, LENGTH), MSCP_DONE);
        is("an action", mscp_port_next(machine.port, &action), MSCP_DONE);
        is("that does nothing", action.kind, MSCP_ACTION_PAUSE);
        is("it went", mscp_port_went(machine.port, MSCP_OUTCOME_DONE, 0), MSCP_DONE);
        is("its state", mscp_port_state(machine.port, &state) == MSCP_DONE && state.stage == STAGES[i] && state.word == 0, 1);
        is("what is next", mscp_port_next(machine.port, &action), STAGES[i] == 8 ? MSCP_DONE : MSCP_NOTHING);
    }
    save_in_the_middle();
}

/* Bytes may say that a packet is in hand where nothing goes out: no byte is written, and the slot is given back. */
static void no_packet(void)
{
    struct mscp_action action;
    save_in_the_middle();
    memset(bytes + 53, 0, 17);
    bytes[53] = 6;
    put(bytes + 55, 4, 0x80002004);
    machine.port = mscp_port_in_memory(machine.rooms[0], sizeof machine.rooms[0]);
    is("restore", mscp_port_restore(machine.port, bytes, LENGTH), MSCP_DONE);
    memset(&action, 0x5A, sizeof action);
    is("an action", mscp_port_next(machine.port, &action), MSCP_DONE);
    for (size_t at = 0; at < sizeof action.bytes; at++)
        is("a byte that isn't written", action.bytes[at], 0x5A);
    is("a write", action.kind, MSCP_ACTION_WRITE);
    is("where", action.address, 0x2000);
    is("of no byte", action.count, 0);
    is("it went", mscp_port_went(machine.port, MSCP_OUTCOME_DONE, 0), MSCP_DONE);
    is("an action", mscp_port_next(machine.port, &action), MSCP_DONE);
    is("the slot is written", action.kind == MSCP_ACTION_WRITE && action.address == slot_of(true, 1 % host.responses), 1);
    is("and is its host's", number(action.bytes, 4), 0x40002004);
    save_in_the_middle();
}

/* The bytes of a port at rest with which its unit 0 is online, of a host that wants attention messages if that says so. They end
 * with the controller's head and drives, to which an end may come. */
enum { REST = KEPT + 48 + 34 * UNITS };
static uint8_t rest[REST + 48];

static void save_at_rest(uint16_t flags)
{
    size_t length = 0;
    build(&RQDX3);
    initialise(0x1000, 0, 0, 0);
    send_command(0, 1, MSCP_ONLINE, 0, 0, 0);
    expect(1, 0x89, 0);
    is("save", mscp_port_save(machine.port, rest, sizeof rest, &length), MSCP_DONE);
    is("its length", (int64_t)length, REST);
    put(rest + 24, 2, flags);
}

static void go_on(size_t length)
{
    machine.port = mscp_port_in_memory(machine.rooms[1], sizeof machine.rooms[1]);
    is("restore", mscp_port_restore(machine.port, rest, length), MSCP_DONE);
    run(MOST_ACTIONS);
}

/* Bytes may say ends of which it isn't decided what they tell: each goes out as the controller made it. */
static void undecided_ends(void)
{
    static const struct { uint8_t code, length; } ENDS[] = {
        {0x80, 12}, {0x81, 16}, {0x82, 20}, {0x83, 48}, {0x84, 28}, {0x88, 12}, {0x89, 44}, {0x8A, 44}, {0x90, 32}, {0xA1, 32}};
    static const struct { uint8_t code, from, to; } FIELDS[] = {
        {0x81, 12, 16}, {0x82, 12, 20}, {0x83, 20, 32}, {0x83, 36, 42}, {0x84, 16, 18}, {0x84, 20, 28},
        {0x89, 20, 32}, {0x89, 36, 44}, {0x8A, 20, 32}, {0x8A, 36, 44}, {0x90, 12, 16}, {0xA1, 12, 16}};
    for (size_t i = 0; i < COUNT(ENDS); i++) {
        uint8_t packet[68] = {0}, *end = rest + REST;
        save_at_rest(0);
        put(rest + 8, 4, REST + 48);
        put(rest + KEPT + 8, 4, REST + 48 - KEPT);
        rest[KEPT + 41] = 1;
        memset(end, 0, 48);
        put(end, 4, 77), put(end + 4, 2, 2), put(end + 10, 2, 0x0123);
        end[8] = ENDS[i].code;
        for (size_t k = 0; k < COUNT(FIELDS); k++)
            for (unsigned at = FIELDS[k].from; FIELDS[k].code == ENDS[i].code && at < FIELDS[k].to; at++)
                end[at] = (uint8_t)(0x31 + 3 * at);
        go_on(REST + 48);
        is("an end", take(packet), 1);
        is("its length", number(packet, 2), ENDS[i].length);
        is("its bytes", memcmp(packet + 4, end, ENDS[i].length), 0);
        is("no other", look() == NULL, 1);
    }
}

/* Bytes may say news of a volume where no unit is: of that the host hears nothing. */
static void news_of_no_unit(void)
{
    for (size_t place = 0; place < 16; place++) {
        uint8_t packet[68] = {0};
        save_at_rest(0x80);
        rest[FRONT + 18 * place + 3] = 1;
        go_on(REST);
        is("a message", take(packet), place < UNITS);
        if (place < UNITS)
            is("that it is available", packet[12] == 0x40 && number(packet + 8, 2) == place, 1);
        is("no other", look() == NULL, 1);
    }
}

/* Bytes may say an end of a second connection, which nobody takes: it is gone with all else when the host writes IP. */
static void second_end(void)
{
    enum { ALL = LENGTH + 48 };
    static uint8_t two[ALL], after[MSCP_PORT_SAVED_MAX];
    size_t length = 0, held = 0;
    memcpy(two, bytes, LENGTH);
    two[CONTROLLER + 16] = 2;
    machine.port = mscp_port_in_memory(machine.rooms[1], sizeof machine.rooms[1]);
    is("without it", mscp_port_restore(machine.port, two, LENGTH), MSCP_DONE);
    is("it begins anew", mscp_port_write_ip(machine.port), MSCP_DONE);
    is("save", mscp_port_save(machine.port, after, sizeof after, &held), MSCP_DONE);
    put(two + 8, 4, ALL);
    put(two + CONTROLLER + 8, 4, ALL - CONTROLLER);
    two[CONTROLLER + 42] = 1;
    put(two + LENGTH, 4, 7);
    two[LENGTH + 8] = 0x88;
    machine.port = mscp_port_in_memory(machine.rooms[1], sizeof machine.rooms[1]);
    is("with it", mscp_port_restore(machine.port, two, ALL), MSCP_DONE);
    is("it begins anew", mscp_port_write_ip(machine.port), MSCP_DONE);
    is("save", mscp_port_save(machine.port, two, sizeof two, &length), MSCP_DONE);
    is("as without it", length == held && memcmp(two, after, held) == 0, 1);
}

/* Each flipped bit. Any number may stand for model and versions, credits and slots, what the host has set, its words, the
 * serial, what is kept of a command, and the identifiers of the controller and its four units: of 8 bytes, and 16 each. */
static void flipped_bits(void)
{
    unsigned taken = 0;
    for (size_t bit = 0; bit < 8 * LENGTH; bit++) {
        bytes[bit / 8] ^= (uint8_t)(1u << bit % 8);
        if (restored(LENGTH) == MSCP_DONE)
            taken++;
        bytes[bit / 8] ^= (uint8_t)(1u << bit % 8);
    }
    is("some are a port's", taken >= 24 + 32 + 48 + 32 + 64 + 168 + 64 + 4 * 128, 1);
}

/* ---- two connections */

/* An ONLINE of unit 0 waits on the second connection, which only bytes can say, under the number of the host's READ: what
 * the port keeps of the host's command is the host's alone. */
static void other_connection(void)
{
    enum { BEGIN = KEPT, RECORD = BEGIN + 48 + 34 * UNITS, ALL = RECORD + 41 };
    static uint8_t two[ALL];
    size_t length = 0;
    build(&RQDX3);
    initialise(0x1000, 0, 0, 0);
    send_command(0, 1, MSCP_ONLINE, 0, 0, 0);
    expect(1, 0x89, 0);
    is("save", mscp_port_save(machine.port, two, sizeof two, &length), MSCP_DONE);
    is("without it", (int64_t)length, RECORD);
    put(two + 8, 4, ALL);
    put(two + BEGIN + 8, 4, ALL - BEGIN);
    two[BEGIN + 16] = 2;
    two[BEGIN + 40] = 1;
    two[RECORD] = 7;
    two[RECORD + 8] = MSCP_ONLINE;
    two[RECORD + 40] = 2;
    machine.port = mscp_port_in_memory(machine.rooms[1], sizeof machine.rooms[1]);
    is("restore", mscp_port_restore(machine.port, two, ALL), MSCP_DONE);
    send_command(0, 7, MSCP_READ, 512, 3, 0x4000);
    expect(7, 0xA1, 0);
    is("its block", number(machine.memory + 0x4000, 4), 0x06050403);
}

/* ---- what is refused */

static void nothing_is_there(void)
{
    uint8_t none[1] = {0};
    size_t length = 5;
    struct mscp_port port = mscp_port_over(NULL, 0);
    is("save of none", mscp_port_save(&port, none, sizeof none, &length), MSCP_NOT_MADE);
    is("restore to no memory", mscp_port_restore(&port, none, 0), MSCP_NO_MEMORY);
    is("nothing told", (int64_t)length, 5);
    is("most of a port", mscp_port_save_size() <= MSCP_PORT_SAVED_MAX, 1);
}

/* Over the port that is made: bytes at fault leave it as it is, and good ones are in its place. */
static void in_place(void)
{
    static uint8_t before[MSCP_PORT_SAVED_MAX], after[MSCP_PORT_SAVED_MAX];
    size_t held, length;
    is("another state", mscp_port_write_ip(machine.port), MSCP_DONE);
    is("which is saved", mscp_port_save(machine.port, before, sizeof before, &held), MSCP_DONE);
    is("a byte too few", mscp_port_restore(machine.port, bytes, LENGTH - 1), MSCP_SAVED_LENGTH);
    is("no bytes", mscp_port_restore(machine.port, NULL, 0), MSCP_SAVED_LENGTH);
    is("saved again", mscp_port_save(machine.port, after, sizeof after, &length), MSCP_DONE);
    is("it goes on", length == held && memcmp(before, after, held) == 0, 1);
    is("good bytes", mscp_port_restore(machine.port, bytes, LENGTH), MSCP_DONE);
    is("saved once more", mscp_port_save(machine.port, after, sizeof after, &length), MSCP_DONE);
    is("that one goes on", length == LENGTH && memcmp(after, bytes, LENGTH) == 0, 1);
}

/* What has no room is left, and so is the port that is there. */
static void no_room(void)
{
    static uint8_t room[LENGTH + 1];
    size_t told = 5;
    memset(room, 0xA5, sizeof room);
    is("no room", mscp_port_save(machine.port, NULL, 0, &told), MSCP_SMALL);
    is("what it takes", (int64_t)told, LENGTH);
    told = 5;
    is("a byte too few", mscp_port_save(machine.port, room, LENGTH - 1, &told), MSCP_SMALL);
    is("what it takes", (int64_t)told, LENGTH);
    is("nothing written", room[0], 0xA5);
    is("just room", mscp_port_save(machine.port, room, LENGTH, &told), MSCP_DONE);
    is("no byte more", room[LENGTH], 0xA5);
    in_place();
    struct mscp_port *fresh = mscp_port_in_memory(machine.rooms[1], sizeof machine.rooms[1]);
    is("no bytes", mscp_port_restore(fresh, NULL, 0), MSCP_SAVED_LENGTH);
    is("its own bytes", mscp_port_restore(fresh, bytes, LENGTH), MSCP_DONE);
}

int main(void)
{
    goes_on();
    nothing_is_there();
    save_in_the_middle();
    bytes_are_these();
    no_room();
    edits();
    flipped_bits();
    volume_is_short();
    no_rings();
    no_packet();
    no_step();
    second_end();
    undecided_ends();
    news_of_no_unit();
    save_in_the_middle();
    nothing_is_begun();
    other_connection();
    return wrong;
}
