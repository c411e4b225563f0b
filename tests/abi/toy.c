/* toy.c: a machine with memory, a clock, and a disk port over an image. Its firmware boots block 0 of unit 0.
 *
 *     cc toy.c port.c $(pkg-config --cflags --libs mscp) -o toy      (with port.h)
 *     ./toy IMAGE
 *
 * The first part is the machine, as an emulator has one, and the second is the firmware. */
#include "drives.h"
#include "port.h"
#include <stdio.h>
#include <string.h>

enum { MEMORY = 1 << 16, IP = 0, SA = 2, INSTRUCTIONS_A_TURN = 200, INSTRUCTIONS_A_SECOND = 1000000 };

static uint8_t memory[MEMORY];
static FILE *image;
static struct port port;
static unsigned long instructions; /* the clock */

/* ---- what the port wants of the machine */

static bool is_there(uint32_t address, uint32_t count)
{
    return address <= MEMORY && count <= MEMORY - address;
}

static enum mscp_outcome read_memory(void *machine, uint32_t address, uint8_t *bytes, uint32_t count)
{
    (void)machine;
    if (!is_there(address, count))
        return MSCP_OUTCOME_MISSING;
    memcpy(bytes, memory + address, count);
    return MSCP_OUTCOME_DONE;
}

static enum mscp_outcome write_memory(void *machine, uint32_t address, const uint8_t *bytes, uint32_t count)
{
    (void)machine;
    if (!is_there(address, count))
        return MSCP_OUTCOME_MISSING;
    memcpy(memory + address, bytes, count);
    return MSCP_OUTCOME_DONE;
}

static void interrupt(void *machine, uint16_t vector)
{
    (void)machine;
    printf("an interrupt by vector %o\n", (unsigned)vector); /* the firmware of this machine wants none */
}

static bool read_block(void *machine, uint16_t unit, uint32_t block, uint8_t *bytes)
{
    (void)machine;
    return unit == 0 && fseek(image, (long)block * (long)MSCP_BLOCK, SEEK_SET) == 0 &&
           fread(bytes, MSCP_BLOCK, 1, image) == 1;
}

static bool write_block(void *machine, uint16_t unit, uint32_t block, const uint8_t *bytes)
{
    (void)machine;
    return unit == 0 && fseek(image, (long)block * (long)MSCP_BLOCK, SEEK_SET) == 0 &&
           fwrite(bytes, MSCP_BLOCK, 1, image) == 1 && fflush(image) == 0;
}

/* A port as an RQDX3, with one unit of so many blocks, in which the image is. */
static bool attach(uint32_t blocks)
{
    static const struct port_bus bus = {.read = read_memory, .write = write_memory, .interrupt = interrupt,
                                        .read_block = read_block, .write_block = write_block};
    static const struct mscp_hardware rqdx3 = {.bus = MSCP_BUS_Q, .model = 19, .software = 3, .version = 1};
    const struct drive *rd54 = drive_named("RD54");
    struct mscp_unit unit = drive_unit(rd54, 0, 0);
    struct mscp_medium medium = drive_medium(rd54, false);
    unit.size = medium.size = blocks;
    return port_open(&port, &bus, &rqdx3, &unit, 1) == MSCP_DONE && port_insert(&port, 0, &medium);
}

/* The machine goes on by an instruction. */
static void go_on(void)
{
    instructions++;
    if (instructions % INSTRUCTIONS_A_TURN == 0)
        port_turn(&port, 1000);
    if (instructions % INSTRUCTIONS_A_SECOND == 0)
        port_second(&port);
}

/* ---- the firmware: rings of one slot each, and one command at a time */

enum { RESPONSE = 0x0E04, COMMAND = 0x0E44, RINGS = 0x0E84, BUFFER = 0, ONLINE = 9, READ = 33 };

static void put(uint32_t address, unsigned bytes, uint32_t number)
{
    for (unsigned i = 0; i < bytes; i++)
        memory[address + i] = (uint8_t)(number >> (8 * i));
}

static uint32_t get(uint32_t address, unsigned bytes)
{
    uint32_t number = 0;
    for (unsigned i = 0; i < bytes; i++)
        number |= (uint32_t)memory[address + i] << (8 * i);
    return number;
}

/* Waits for a step of the initialisation, and answers it. The top bit would say that the port had a fatal error. */
static bool step(unsigned number, uint16_t answer)
{
    uint16_t shown = port_read(&port, SA);
    for (unsigned i = 0; i < 10000 && (shown & (0x0400u << number | 0x8000u)) == 0; i++) {
        go_on();
        shown = port_read(&port, SA);
    }
    printf("step %u: SA is %04x\n", number, (unsigned)shown);
    port_write(&port, SA, answer);
    return (shown & 0xF800u) == 0x0400u << number;
}

static bool initialise(void)
{
    port_write(&port, IP, 0);
    return step(1, 0x8000) && step(2, RINGS) && step(3, 0) && step(4, 1);
}

/* Sends a command of unit 0, and waits for its end. Whether it is Success. */
static bool command(uint8_t opcode, uint32_t bytes, uint32_t buffer, uint32_t block)
{
    memset(memory + COMMAND, 0, 32);
    put(COMMAND - 4, 4, 32); /* the length of the text; type and connection are 0 */
    memory[COMMAND + 8] = opcode;
    put(COMMAND + 12, 4, bytes);
    put(COMMAND + 16, 4, buffer);
    put(COMMAND + 28, 4, block);
    put(RINGS, 4, 0x80000000u | RESPONSE); /* both slots are the port's now */
    put(RINGS + 4, 4, 0x80000000u | COMMAND);
    port_read(&port, IP);
    for (unsigned i = 0; i < 100000 && get(RINGS, 4) >= 0x80000000u; i++)
        go_on();
    return get(RINGS, 4) < 0x80000000u && memory[RESPONSE + 8] == (0x80 | opcode) && get(RESPONSE + 10, 2) == 0;
}

static bool boot(void)
{
    if (!initialise() || !command(ONLINE, 0, 0, 0))
        return false;
    printf("unit 0 is online: %u blocks\n", (unsigned)get(RESPONSE + 36, 4));
    if (!command(READ, MSCP_BLOCK, BUFFER, 0))
        return false;
    printf("booted: %.512s", (const char *)memory + BUFFER); /* this machine's programs are texts */
    return true;
}

int main(int words, char **word)
{
    long length;
    if (words == 2 && (image = fopen(word[1], "r+b")) == NULL) {
        perror(word[1]);
        return 2;
    }
    if (words != 2) {
        fprintf(stderr, "usage: toy IMAGE (of blocks of 512 bytes)\n");
        return 2;
    }
    length = fseek(image, 0, SEEK_END) == 0 ? ftell(image) : 0;
    if (length < (long)MSCP_BLOCK || !attach((uint32_t)(length / (long)MSCP_BLOCK))) {
        fprintf(stderr, "%s: it has %ld bytes, and a block is %d\n", word[1], length, (int)MSCP_BLOCK);
        return 2;
    }
    if (!boot()) {
        printf("no boot: SA is %04x, status %04x\n", (unsigned)port_read(&port, SA), (unsigned)get(RESPONSE + 10, 2));
        return 1;
    }
    return 0;
}
