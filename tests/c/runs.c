/* A disk of which one block can't be moved, behind examples/port.c: a command fails at that block, with the count of those
 * before it, and the next command works. It is told the same whether blocks are moved one by one or in runs.
 *
 * Prints what is wrong, and ends with 1 where something is. */
#include "callbacks.h"

enum { START = 3, MANY = 12, TAIL = 100, SIZE = (MANY - 1) * MSCP_BLOCK + TAIL, ABORTED = 0x0002 };

static uint32_t late; /* a READ of this address has the host send what it has kept back, once */

/* The command 5 is aborted, and its number is given to a READ of the first blocks of unit 2. */
static void change_mind(uint32_t address)
{
    if (late == 0 || address != late)
        return;
    late = 0;
    uint8_t *text = command(6, MSCP_ABORT, 5, 0);
    send(text, 32);
    text = command(5, MSCP_READ, SIZE, 0);
    put(text + 4, 2, 2);
    put(text + 16, 4, DATA);
    send(text, 32);
}

/* What memory and disk have from the k-th block on, and before it. */
static uint8_t in_memory(uint32_t k, uint32_t i) { return machine.memory[DATA + k * MSCP_BLOCK + i]; }
static uint8_t on_disk(uint32_t k, uint32_t i) { return machine.disks[0][START + k][i]; }

static void are_moved(const char *what, uint32_t many, uint8_t (*there)(uint32_t, uint32_t), uint8_t (*wanted)(uint32_t, uint32_t),
                      uint8_t (*before)(uint32_t, uint32_t))
{
    for (uint32_t k = 0; k < MANY; k++)
        is(what, there(k, 5), k < many ? wanted(k, 5) : before(k, 5));
}

static uint8_t of_memory(uint32_t k, uint32_t i) { (void)i; return (uint8_t)(0xC0 + k); }
static uint8_t of_disk(uint32_t k, uint32_t i) { return (uint8_t)(i + START + k); }
static uint8_t of_zeros(uint32_t k, uint32_t i) { (void)k; (void)i; return 0; }

/* A command of which the k-th block fails; the same once more, when it doesn't; and how many calls that took. */
static void fails_at(bool has_runs, unsigned most, uint8_t opcode, uint32_t k)
{
    begin_host(&RQDX3, has_runs);
    bad = START + k;
    send_command(0, 1, opcode, SIZE, START, DATA);
    ends_with(most, 1, k < MANY ? DRIVE_ERROR : 0, k < MANY ? k * MSCP_BLOCK : SIZE);
    are_moved("a block in memory", opcode == MSCP_READ ? k : 0, in_memory, of_disk, of_memory);
    are_moved("a block on the disk", opcode == MSCP_WRITE || opcode == MSCP_ERASE ? k : 0, on_disk,
              opcode == MSCP_ERASE ? of_zeros : of_memory, of_disk);
    bad = NOWHERE;
    calls = machine.transfers = 0;
    send_command(0, 2, opcode, SIZE, START, DATA);
    ends_with(most, 2, 0, SIZE);
    is("each block is moved once", machine.transfers, MANY);
    if (!has_runs || opcode == MSCP_ERASE)
        is("its calls", calls, MANY);
    else if (most == ALL)
        is("its calls", calls, 1);
    if (opcode == MSCP_WRITE)
        is("behind its bytes", on_disk(MANY - 1, TAIL), 0);
    if (opcode == MSCP_READ)
        is("behind its bytes", in_memory(MANY - 1, TAIL), of_memory(MANY - 1, TAIL));
}

/* Memory ends behind the k-th block of what a WRITE or a READ moves. */
static void memory_ends_at(bool has_runs, unsigned most, uint8_t opcode, uint32_t k)
{
    begin_host(&RQDX3, has_runs);
    machine.missing = DATA + k * MSCP_BLOCK;
    send_command(0, 1, opcode, SIZE, START, DATA);
    ends_with(most, 1, NO_MEMORY, k * MSCP_BLOCK);
    are_moved("a block on the disk", opcode == MSCP_WRITE ? k : 0, on_disk, of_memory, of_disk);
}

/* Amid a READ its number becomes another one's, of another unit, and that gets its own blocks. */
static void number_is_reused(bool has_runs)
{
    begin_host(&RQDX3, has_runs);
    send_command(0, 5, MSCP_READ, SIZE, START, DATA);
    late = DATA + 4 * MSCP_BLOCK;
    written_to = change_mind;
    ends_with(ALL, 5, ABORTED, 5 * MSCP_BLOCK);
    ends_with(ALL, 6, 0, 5); /* an ABORT's end has the number that it meant there */
    ends_with(ALL, 5, 0, SIZE);
    for (uint32_t k = 0; k < MANY; k++)
        is("a block of the other unit", in_memory(k, 5), (uint8_t)(5 + k + 2));
}

/* Amid a WRITE the port is saved, bytes that aren't a port's are refused and it goes on, and what was saved goes on in its place. */
static void is_restored(bool has_runs)
{
    static uint8_t bytes[MSCP_PORT_SAVED_MAX];
    size_t length = 0;
    begin_host(&RQDX3, has_runs);
    send_command(0, 1, MSCP_WRITE, SIZE, START, DATA);
    port_turn(&port, 7);
    is("it is saved", mscp_port_save(port_itself(&port), bytes, sizeof bytes, &length), MSCP_DONE);
    is("half of it isn't a port", port_restore(&port, bytes, length / 2), MSCP_SAVED_LENGTH);
    port_turn(&port, 2);
    memset(machine.disks[0], 0, sizeof machine.disks[0]);
    is("all of it is", port_restore(&port, bytes, length), MSCP_DONE);
    ends_with(7, 1, 0, SIZE);
    is("the last block is written", on_disk(MANY - 1, 5), of_memory(MANY - 1, 5));
    is("the first was before", on_disk(0, 5), 0);
}

/* A port on another bus is refused, and that which runs goes on amid its READ. */
static void other_bus_is_refused(bool has_runs)
{
    static uint8_t bytes[MSCP_PORT_SAVED_MAX];
    size_t length = 0;
    begin_host(&UDA50, has_runs);
    is("it is saved", mscp_port_save(port_itself(&port), bytes, sizeof bytes, &length), MSCP_DONE);
    is("it is restored", port_restore(&port, bytes, length), MSCP_DONE);
    begin_host(&RQDX3, has_runs);
    send_command(0, 1, MSCP_READ, SIZE, START, DATA);
    port_turn(&port, 7);
    is("another is restored", port_restore(&port, bytes, length), MSCP_BAD_BUS);
    ends_with(7, 1, 0, SIZE);
    are_moved("a block in memory", MANY, in_memory, of_disk, of_memory);
}

int main(void)
{
    static const uint8_t opcodes[] = {MSCP_READ, MSCP_WRITE, MSCP_ERASE, MSCP_ACCESS};
    static const unsigned turns[] = {1, 2, 7, ALL};
    for (unsigned runs = 0; runs < 2; runs++) {
        for (unsigned most = 0; most < COUNT(turns); most++) {
            for (uint32_t k = 0; k <= MANY; k++) {
                for (unsigned i = 0; i < COUNT(opcodes); i++)
                    fails_at(runs != 0, turns[most], opcodes[i], k);
                for (unsigned i = 0; i < 2 && k < MANY; i++)
                    memory_ends_at(runs != 0, turns[most], opcodes[i], k);
            }
        }
        number_is_reused(runs != 0);
        is_restored(runs != 0);
        other_bus_is_refused(runs != 0);
    }
    return wrong;
}
