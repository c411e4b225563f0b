/* A port of mscp.h, by a host in an array of memory: polls, aborts, transfers, volumes and time. Prints what is wrong, and
 * ends with 1 where something is. */
#include "machine.h"

/* The figure of a READ falls at each poll, and its data come to where the host wants them. */
static void polls(bool moves)
{
    uint32_t last = UINT32_MAX, polled = 0;
    uint8_t packet[68];
    build(&RQDX3);
    machine.moves = moves;
    initialise(0x1002, 4, 4, 0);
    send_command(0, 1, MSCP_ONLINE, 0, 0, 0);
    expect(1, 0x89, 0);
    send_command(0, 2, MSCP_READ, 5 * 512, 10, 0x4002);
    while (machine.transfers < 4) {
        uint32_t before = machine.transfers;
        while (machine.transfers == before && act())
            continue;
        send_command(0, 100 + polled, MSCP_GET_COMMAND_STATUS, 2, 0, 0);
        while (look() == NULL && act())
            continue;
        is("the answer", take(packet) && packet[12] == 0x82, 1);
        is("of its READ", number(packet + 16, 4), 2);
        is("the figure falls", number(packet + 20, 4) < last, 1);
        last = number(packet + 20, 4);
        polled++;
    }
    expect(2, 0xA1, 0);
    is("polls", polled, 4);
    for (unsigned k = 0; k < 5 * 512; k++)
        if (machine.memory[0x4002 + k] != (uint8_t)(k % 512 + 10 + k / 512))
            is("this byte", k, -1);
}

/* An ABORT of what is at work, of what waits, and of nothing. No block is moved for what was aborted. */
static void aborts(void)
{
    build(&RQDX3);
    initialise(0x1000, 4, 4, 0);
    send_command(0, 1, MSCP_ONLINE, 0, 0, 0);
    expect(1, 0x89, 0);
    send_command(0, 2, MSCP_READ, 20 * 512, 0, 0x4000);
    send_command(0, 3, MSCP_READ, 512, 0, 0x8000);
    while (machine.transfers < 4)
        act();
    send_command(0, 4, MSCP_ABORT, 2, 0, 0);
    send_command(0, 5, MSCP_ABORT, 77, 0, 0);
    send_command(0, 6, MSCP_ABORT, 3, 0, 0);
    expect(2, 0xA1, 0x0002);
    expect(4, 0x81, 0);
    expect(5, 0x81, 0);
    expect(3, 0xA1, 0x0002);
    expect(6, 0x81, 0);
    is("few blocks", machine.transfers <= 5, 1);
    is("none of the second", number(machine.memory + 0x8000, 4), 0);
    send_command(0, 2, MSCP_READ, 512, 1, 0x8000); /* the number again */
    expect(2, 0xA1, 0);
    is("its block", number(machine.memory + 0x8000, 4), 0x04030201);
}

/* What is answered without the controller, and what the host's diagnostic protocol gets. */
static void own_answers(void)
{
    build(&RQDX3);
    initialise(0x1000, 0, 0, 0);
    send_command(1, 1, MSCP_DETERMINE_ACCESS_PATHS, 0, 0, 0);
    expect(1, 0x8B, 0);
    send_command(1, 2, 1, 0, 0, 0);
    machine.memory[packet_of(false, 0) + 3] = 2;
    expect(2, 0x80, 0x0801);
}

/* An end for the diagnostic protocol is of its message's connection, 2, and gives back the credit of that message alone. The
 * 15 that the host wasn't told yet are told by the disk's ends: 14 by the first, and 1 by the second. */
static void ends_of_the_utilities(void)
{
    uint8_t packet[68];
    build(&RQDX3);
    initialise(0x1000, 0, 0, 0);
    send_command(1, 1, 1, 0, 0, 0);
    machine.memory[packet_of(false, 0) + 3] = 2;
    run(MOST_ACTIONS);
    is("its end", take(packet) && number(packet + 4, 4) == 1 && packet[12] == 0x80, 1);
    is("one credit, and its connection", number(packet + 2, 2), 0x0201);
    for (uint32_t i = 0; i < 3; i++) {
        static const uint16_t told[] = {0x000F, 0x0002, 0x0001};
        send_command(1, 2 + i, MSCP_DETERMINE_ACCESS_PATHS, 0, 0, 0);
        run(MOST_ACTIONS);
        is("an end of the disk's", take(packet) && number(packet + 4, 4) == 2 + i && packet[12] == 0x8B, 1);
        is("its credits, and the disk's connection", number(packet + 2, 2), told[i]);
    }
}

/* Each transfer that can't be made ends with its status. */
static void refused_transfers(void)
{
    static const struct {
        uint8_t opcode;
        uint32_t bytes, address;
        uint16_t status;
    } cases[] = {
        {MSCP_READ, 512, 0x4001, 0x0029},  {MSCP_READ, 511, 0x4000, 0x0049},
        {MSCP_READ, 1024, 0xFE00, 0x0069}, {MSCP_WRITE, 1024, 0xFE00, 0x0069},
        {MSCP_WRITE, 512, 0xFFFFFF00, 0x0069}, {MSCP_COMPARE_HOST_DATA, 512, 0x4000, 0x0007},
        {MSCP_ACCESS, 512, 0x4001, 0},     {MSCP_READ, 0, 0x4000, 0},
        {MSCP_WRITE, 512, 0x4000, 0},
    };
    build(&RQDX3);
    initialise(0x1000, 0, 0, 0);
    send_command(0, 1, MSCP_ONLINE, 0, 0, 0);
    expect(1, 0x89, 0);
    for (uint32_t i = 0; i < COUNT(cases); i++) {
        send_command(0, 10 + i, cases[i].opcode, cases[i].bytes, 1, cases[i].address);
        expect(10 + i, 0x80 | cases[i].opcode, cases[i].status);
    }
    is("written", number(machine.disks[0][1], 4), number(machine.memory + 0x4000, 4));
    send_command(2, 50, MSCP_WRITE, 512, 1, 0x4000);
    expect(50, 0xA2, 0x0004); /* not online */
    is("a protected one", insert(2, 1), MSCP_DONE);
    send_command(2, 51, MSCP_ONLINE, 0, 0, 0);
    expect(51, 0x89, 0);
    send_command(2, 52, MSCP_WRITE, 512, 1, 0x4000);
    expect(52, 0xA2, 0x2006);
    send_command(2, 53, MSCP_READ, 512, 1, 0x4000);
    expect(53, 0xA1, 0);
    send_command(2, 54, MSCP_ERASE, 512, 1, 0);
    expect(54, 0x92, 0x2006);
    send_command(2, 55, MSCP_ACCESS, 512, 1, 0);
    expect(55, 0x90, 0);
    send_command(1, 56, MSCP_WRITE, 512, 1, 0x4000);
    expect(56, 0xA2, 0x0023); /* no volume */
}

/* ---- volumes */

/* A volume goes, and another comes, while READs wait: no more of their blocks is moved, and those that come after an
 * ONLINE are of the new one. */
static void volumes_change(unsigned times)
{
    build(&RQDX3);
    initialise(0x1002, 4, 4, 0);
    send_command(0, 1, MSCP_ONLINE, 0, 0, 0);
    expect(1, 0x89, 0);
    send_command(0, 2, MSCP_READ, 8 * 512, 0, 0x4000);
    send_command(0, 3, MSCP_READ, 512, 0, 0x8000);
    while (machine.transfers < 3)
        act();
    for (unsigned i = 0; i < times; i++) {
        is("it goes", mscp_port_volume_went(machine.port, 0), MSCP_DONE);
        is("another comes", insert(0, 0), MSCP_DONE);
    }
    memset(machine.disks[0], 0xEE, sizeof machine.disks[0]);
    expect(2, 0xA1, 0x0023);
    expect(3, 0xA1, 0x0023);
    for (unsigned k = 0; k < MEMORY; k += 2)
        if (machine.memory[k] == 0xEE && machine.memory[k + 1] == 0xEE)
            is("this byte", k, -1);
    send_command(0, 4, MSCP_READ, 512, 0, 0x8000);
    expect(4, 0xA1, 0x0004);
    send_command(0, 5, MSCP_ONLINE, 0, 0, 0);
    expect(5, 0x89, 0); /* though the unit was online with the old one */
    send_command(0, 8, MSCP_ONLINE, 0, 0, 0);
    expect(8, 0x89, 0x0100);
    send_command(0, 6, MSCP_READ, 512, 0, 0x8000);
    expect(6, 0xA1, 0);
    is("of the new one", number(machine.memory + 0x8000, 4), 0xEEEEEEEE);
    is("it goes", mscp_port_volume_went(machine.port, 0), MSCP_DONE);
    send_command(0, 7, MSCP_ONLINE, 0, 0, 0);
    expect(7, 0x89, 0x0023);
    is("no unit", insert(9, 0), MSCP_UNKNOWN_UNIT);
    is("no unit", mscp_port_volume_went(machine.port, 9), MSCP_UNKNOWN_UNIT);
}

/* A volume changes while a block of a WRITE is in hand: none is written to the new one, and the port doesn't want it any more.
 * If the block was written already, what is told of it is MSCP_UNASKED, and its command ends so, too. */
static void volume_changes_amid_a_block(bool is_written)
{
    struct mscp_action action;
    uint32_t outcome = MSCP_OUTCOME_DONE;
    build(&RQDX3);
    initialise(0x1000, 0, 0, 0);
    send_command(0, 1, MSCP_ONLINE, 0, 0, 0);
    expect(1, 0x89, 0);
    memset(machine.memory + 0x4000, 0x77, MSCP_BLOCK);
    send_command(0, 2, MSCP_WRITE, MSCP_BLOCK, 5, 0x4000);
    action = until(MSCP_ACTION_TRANSFER);
    if (is_written)
        outcome = perform(&action);
    is("another comes", insert(0, 0), MSCP_DONE);
    if (is_written)
        is("it is written", mscp_port_went(machine.port, outcome, 0), MSCP_UNASKED);
    expect(2, 0xA2, 0x0023);
    is("blocks that were written", machine.transfers, is_written);
}

/* A volume may have fewer blocks than its unit, and media of another type, which the host is told. Transfers past its end are
 * refused as those past a unit's are, and move nothing: by the first block (0x1C01), or by the count of bytes (0x0C01). */
static void own_sizes(void)
{
    static const struct mscp_medium RX33 = {.size = 2400, .media = 0x25658021, .is_removable = 1},
                                    EMPTY = {.size = 0, .media = 1}, LARGE = {.size = 311201, .media = 1};
    static const struct {
        uint8_t opcode;
        uint32_t bytes, block;
        uint16_t status;
    } cases[] = {
        {MSCP_READ, 512, 2399, 0},          {MSCP_READ, 512, 2400, 0x1C01},  {MSCP_READ, 513 + 511, 2399, 0x0C01},
        {MSCP_WRITE, 512, 0xFFFFFFFF, 0x1C01}, {MSCP_ERASE, 2400 * 512, 0, 0}, {MSCP_ERASE, 2400 * 512 + 2, 0, 0x0C01},
        {MSCP_ACCESS, 512, 311199, 0x1C01}, {MSCP_COMPARE_HOST_DATA, 0, 2400, 0x1C01},
        {MSCP_ACCESS, 0xFFFFFFFE, 0, 0x0C01},
    };
    uint8_t packet[68];
    build(&RQDX3);
    initialise(0x1000, 0, 0, 0);
    is("an RX33", mscp_port_volume_came(machine.port, 0, &RX33), MSCP_DONE);
    is("without blocks", mscp_port_volume_came(machine.port, 0, &EMPTY), MSCP_BAD_SIZE);
    is("more than its unit", mscp_port_volume_came(machine.port, 0, &LARGE), MSCP_BAD_SIZE);
    is("no unit", mscp_port_volume_came(machine.port, 9, &EMPTY), MSCP_UNKNOWN_UNIT);
    for (uint8_t opcode = MSCP_GET_UNIT_STATUS; opcode <= MSCP_ONLINE; opcode += MSCP_ONLINE - MSCP_GET_UNIT_STATUS) {
        send_command(0, opcode, opcode, 0, 0, 0);
        run(MOST_ACTIONS);
        is("its end", take(packet) && packet[12] == (0x80 | opcode), 1);
        is("it can be taken out", number(packet + 18, 2), 0x8080);
        is("its media", number(packet + 32, 4), 0x25658021);
    }
    is("its blocks", number(packet + 40, 4), 2400);
    for (uint32_t i = 0; i < COUNT(cases); i++) {
        uint32_t before = machine.transfers;
        send_command(0, 10 + i, cases[i].opcode, cases[i].bytes, cases[i].block, 0x4000);
        expect(10 + i, 0x80 | cases[i].opcode, cases[i].status);
        is("moved", machine.transfers > before, cases[i].status == 0);
    }
    is("an RD54", insert(0, 0), MSCP_DONE);
    send_command(0, 50, MSCP_ONLINE, 0, 0, 0);
    expect(50, 0x89, 0);
    send_command(0, 51, MSCP_ACCESS, 512, 311199, 0);
    expect(51, 0x90, 0);
}

/* Of a unit without a volume no protection is kept: its host isn't told any, and a volume that comes has its own. */
static void nothing_to_protect(void)
{
    uint8_t packet[68];
    struct mscp_volume volume;
    build(&RQDX3);
    initialise(0x1000, 0, 0, 0);
    is("it is protected", mscp_port_protect(machine.port, 1, 1), MSCP_DONE);
    is("what is there", mscp_port_volume(machine.port, 1, &volume) == MSCP_DONE && !volume.is_protected, 1);
    send_command(1, 1, MSCP_GET_UNIT_STATUS, 0, 0, 0);
    run(MOST_ACTIONS);
    is("its end", take(packet) && number(packet + 14, 2) == 0x0023, 1);
    is("its flags", number(packet + 18, 2), 0x8000);
    is("a volume", insert(1, 0), MSCP_DONE);
    is("it is protected", mscp_port_protect(machine.port, 1, 1), MSCP_DONE);
    is("what is there", mscp_port_volume(machine.port, 1, &volume) == MSCP_DONE && volume.is_protected, 1);
}

/* ---- ends that wait */

/* Unit 0 is online, and two ends stand in front of what comes next: one in the only slot for ends, and one that goes out. */
static void hold_ends_back(void)
{
    build(&RQDX3);
    initialise(0x1000, 0, 3, 0);
    send_command(0, 1, MSCP_ONLINE, 0, 0, 0);
    expect(1, 0x89, 0);
    send_command(0, 2, MSCP_DETERMINE_ACCESS_PATHS, 0, 0, 0);
    run(MOST_ACTIONS);
    send_command(0, 3, MSCP_GET_UNIT_STATUS, 0, 0, 0);
    run(MOST_ACTIONS);
}

/* A volume of so many blocks comes into unit 0, and the host brings it online. */
static void bring_online(uint32_t size, uint32_t reference)
{
    const struct mscp_medium medium = {.size = size, .media = 0x25658000 + size};
    if (size != 0)
        is("a volume", mscp_port_volume_came(machine.port, 0, &medium), MSCP_DONE);
    send_command(0, reference, MSCP_ONLINE, 0, 0, 0);
    run(MOST_ACTIONS);
}

static void told(uint32_t reference, uint8_t code, uint16_t status, uint32_t size, uint32_t media)
{
    uint8_t packet[68];
    mscp_port_look_again(machine.port);
    run(MOST_ACTIONS);
    is("its end", take(packet) && number(packet + 4, 4) == reference && packet[12] == code, 1);
    is("its status", number(packet + 14, 2), status);
    is("its blocks", number(packet + 40, 4), size);
    is("its media", number(packet + 32, 4), media);
}

/* Each ONLINE tells whether it brought its unit online, and which volume, as that was when it ended, and a SET UNIT CHARACTERISTICS
 * which volume: also if others end before it leaves, or another volume comes. */
static void online_as_decided(bool saves)
{
    hold_ends_back();
    machine.saves = saves;
    bring_online(0, 4);
    bring_online(1000, 5);
    bring_online(0, 6);
    bring_online(500, 7);
    send_command(0, 8, MSCP_SET_UNIT_CHARACTERISTICS, 0, 0, 0);
    run(MOST_ACTIONS);
    is("another comes", insert(0, 0), MSCP_DONE);
    is("the one in the slot", end_of(2, 0x8B), 0);
    is("the one that went out", end_of(3, 0x83), 0);
    told(4, 0x89, 0x0100, 311200, 0x25644036);
    told(5, 0x89, 0, 1000, 0x25658000 + 1000);
    told(6, 0x89, 0x0100, 1000, 0x25658000 + 1000);
    told(7, 0x89, 0, 500, 0x25658000 + 500);
    told(8, 0x8A, 0, 500, 0x25658000 + 500);
    send_command(0, 9, MSCP_READ, 512, 0, 0x4000);
    expect(9, 0xA1, 0x0004);
}

/* An ONLINE and a SET UNIT CHARACTERISTICS that wait while another volume comes are about that one. A READ that waits isn't made. */
static void another_while_they_wait(void)
{
    build(&RQDX3);
    initialise(0x1000, 2, 2, 0);
    send_command(0, 1, MSCP_ONLINE, 0, 0, 0);
    expect(1, 0x89, 0);
    send_command(0, 2, MSCP_READ, 8 * MSCP_BLOCK, 0, 0x4000);
    send_command(0, 3, MSCP_ONLINE, 0, 0, 0);
    send_command(0, 4, MSCP_SET_UNIT_CHARACTERISTICS, 0, 0, 0);
    while (machine.transfers < 3)
        act();
    is("another comes", insert(0, 0), MSCP_DONE);
    expect(2, 0xA1, 0x0023);
    expect(3, 0x89, 0);
    expect(4, 0x8A, 0);
    send_command(0, 5, MSCP_READ, MSCP_BLOCK, 3, 0x4000);
    expect(5, 0xA1, 0);
}

/* An ONLINE that is about to end as its volume goes isn't told Success: its step is taken anew. */
static void online_amid_a_change(void)
{
    build(&RQDX3);
    initialise(0x1000, 0, 0, 0);
    send_command(0, 1, MSCP_ONLINE, 0, 0, 0);
    until(MSCP_ACTION_PAUSE);
    is("it goes", mscp_port_volume_went(machine.port, 0), MSCP_DONE);
    is("it went", mscp_port_went(machine.port, MSCP_OUTCOME_DONE, 0), MSCP_UNASKED);
    expect(1, 0x89, 0x0023);
}

/* A volume that comes is told by an attention message without credits, if the host wants it. */
static void attention(void)
{
    uint8_t packet[68], text[32] = {0};
    build(&RQDX3);
    for (unsigned wanted = 0; wanted < 2; wanted++) {
        initialise(0x1000, 4, 4, 0);
        text[8] = MSCP_SET_CONTROLLER_CHARACTERISTICS;
        text[14] = wanted ? 0x80 : 0;
        send(text, 32);
        expect(0, 0x84, 0);
        is("it comes", insert(3, 0), MSCP_DONE);
        run(MOST_ACTIONS);
        is("a message", take(packet), wanted);
        if (wanted) {
            is("its length and credits", number(packet, 4), 32);
            is("its unit", number(packet + 8, 2), 3);
            is("its code", packet[12], 0x40);
            is("once", run(MOST_ACTIONS) == 0 || !take(packet), 1);
        }
    }
}

/* A volume that the host has brought online since it came is no news. */
static void no_stale_attention(void)
{
    uint8_t packet[68], text[32] = {0};
    build(&RQDX3);
    initialise(0x1000, 4, 4, 0);
    is("it comes", insert(3, 0), MSCP_DONE);
    send_command(3, 1, MSCP_ONLINE, 0, 0, 0);
    expect(1, 0x89, 0);
    text[8] = MSCP_SET_CONTROLLER_CHARACTERISTICS;
    text[14] = 0x80;
    send(text, 32);
    expect(0, 0x84, 0);
    run(MOST_ACTIONS);
    is("a message", take(packet), 0);
}

/* A host that is silent for longer than 60 seconds is taken for dead, unless it wants no timeout. The seconds begin with its
 * first command. */
static void silent_hosts(void)
{
    uint8_t text[32] = {0};
    build(&RQDX3);
    for (unsigned i = 0; i < 2; i++) {
        initialise(0x1000, 0, 0, 0);
        for (unsigned second = 0; second < 200; second++)
            mscp_port_tick(machine.port);
        text[8] = i == 0 ? MSCP_GET_UNIT_STATUS : MSCP_SET_CONTROLLER_CHARACTERISTICS;
        send(text, 32);
        expect(0, i == 0 ? 0x83 : 0x84, i == 0 ? 4 : 0);
        for (unsigned second = 0; second < 60; second++)
            mscp_port_tick(machine.port);
        is("SA", mscp_port_read_sa(machine.port), 0);
        mscp_port_tick(machine.port);
        is("SA", mscp_port_read_sa(machine.port), i == 0 ? 0x8009 : 0);
    }
}

/* What a program says of a transfer is what its command ends with. The status counts for a block that couldn't be moved, and
 * is told as it is. */
static void outcomes(void)
{
    static const struct {
        uint8_t opcode;
        uint32_t outcome;
        uint16_t status, ends_with;
    } cases[] = {
        {MSCP_WRITE, MSCP_OUTCOME_MISSING, 0, 0x0069},
        {MSCP_WRITE, MSCP_OUTCOME_PARITY, 0, 0x0089},
        {MSCP_WRITE, MSCP_OUTCOME_UNMAPPED, 0, 0x00A9},
        {MSCP_READ, MSCP_OUTCOME_MISSING, 0, 0x0069},
        {MSCP_READ, MSCP_OUTCOME_PARITY, 0, 0x0089},
        {MSCP_READ, MSCP_OUTCOME_UNMAPPED, 0, 0x00A9},
        {MSCP_COMPARE_HOST_DATA, MSCP_OUTCOME_DIFFERENT, 0, 0x0007},
        {MSCP_READ, MSCP_OUTCOME_FAILED, 0x00E8, 0x00E8},
        {MSCP_WRITE, MSCP_OUTCOME_FAILED, 0x012B, 0x012B},
    };
    build(&RQDX3);
    initialise(0x1000, 0, 0, 0);
    send_command(0, 1, MSCP_ONLINE, 0, 0, 0);
    expect(1, 0x89, 0);
    for (uint32_t i = 0; i < COUNT(cases); i++) {
        send_command(0, 10 + i, cases[i].opcode, MSCP_BLOCK, 1, 0x4000);
        until(MSCP_ACTION_TRANSFER);
        is("it went", mscp_port_went(machine.port, cases[i].outcome, cases[i].status), MSCP_DONE);
        expect(10 + i, 0x80 | cases[i].opcode, cases[i].ends_with);
    }
}

int main(void)
{
    polls(false);
    polls(true);
    aborts();
    own_answers();
    ends_of_the_utilities();
    refused_transfers();
    outcomes();
    own_sizes();
    volumes_change(1);
    volumes_change(2);
    volume_changes_amid_a_block(false);
    volume_changes_amid_a_block(true);
    online_as_decided(false);
    online_as_decided(true);
    another_while_they_wait();
    online_amid_a_change();
    nothing_to_protect();
    attention();
    no_stale_attention();
    silent_hosts();
    return wrong;
}
