/* What the boot firmware of real machines sends to a port, byte by byte, and what it gets: SIMH's boot ROM of a PDP-11,
 * the console of a KA655, and VMB. The messages were seen on the bus of SIMH 3.8.1. Prints what is wrong, and ends with 1
 * where something is. */
#include "machine.h"

/* Where the next slots of both rings lie, and the texts of their packets. */
struct slots {
    uint32_t response_slot, command_slot, response, command;
};

/* The bytes that hexadecimal digits say, with zeros behind them. How many were said. */
static uint32_t bytes_of(const char *digits, uint8_t *bytes, uint32_t room)
{
    uint32_t count = 0;
    memset(bytes, 0, room);
    for (unsigned value; sscanf(digits, " %2x", &value) == 1; count++) {
        bytes[count] = (uint8_t)value;
        while (*digits == ' ')
            digits++;
        digits += 2;
    }
    return count;
}

/* Memory has these bytes from an address on, and then zeros, so many in all. */
static void has(const char *what, uint32_t address, uint32_t count, const char *digits)
{
    uint8_t wanted[128];
    bytes_of(digits, wanted, sizeof wanted);
    for (uint32_t i = 0; i < count; i++)
        if (machine.memory[address + i] != wanted[i]) {
            printf("%s, byte %u: %02x, not %02x\n", what, (unsigned)i, machine.memory[address + i], wanted[i]);
            wrong = 1;
        }
}

/* Sends a packet of this header and the start of its text, which has zeros behind it, and lets the port work. */
static void post(const struct slots *slots, const char *header, const char *text)
{
    uint8_t bytes[64];
    bytes_of(header, bytes, 4);
    memcpy(machine.memory + slots->command - 4, bytes, 4);
    bytes_of(text, bytes, sizeof bytes);
    memcpy(machine.memory + slots->command, bytes, number(machine.memory + slots->command - 4, 2));
    memset(machine.memory + slots->response - 4, 0xA5, 52);
    put(machine.memory + slots->response_slot, 4, 0x80000000u | slots->response);
    put(machine.memory + slots->command_slot, 4, 0x80000000u | slots->command);
    is("IP is read", mscp_port_read_ip(machine.port), MSCP_DONE);
    run(MOST_ACTIONS);
    is("its slot", number(machine.memory + slots->command_slot, 4), 0x40000000u | slots->command);
    is("the end's slot", number(machine.memory + slots->response_slot, 4), 0x40000000u | slots->response);
}

/* ONLINE and a READ of the first block to address 0, with reference number 0. It says go, and reads IP at once. */
static void boots_a_pdp11(void)
{
    static const struct slots slots = {0x0E84, 0x0E88, 0x0E04, 0x0E44};
    build(&RQDX3);
    is("IP", mscp_port_write_ip(machine.port), MSCP_DONE);
    answer(0x0B40, 0x8000);
    answer(0x1080, 0x0E84);
    answer(0x2000, 0x0000);
    is("SA", mscp_port_read_sa(machine.port), 0x4133);
    is("go", mscp_port_write_sa(machine.port, 0x0001), MSCP_DONE);
    post(&slots, "10000000", "00000000 0000 0000 09 00 0000");
    has("ONLINE", 0x0E00, 4 + 44,
        "2c000f00 00000000 0000 0000 89 00 0000 0000 0080 00000000 0000000000000d02 36406425 0000 0000 a0bf0400 9c020000");
    memset(machine.memory, 0xA5, 1024);
    post(&slots, "20000000", "00000000 0000 0000 21 00 0000 00020000");
    has("READ", 0x0E00, 4 + 32, "20000200 00000000 0000 0000 a1 00 0000 00020000");
    for (uint32_t i = 0; i < 1024; i++)
        is("a byte of the block", machine.memory[i], i < MSCP_BLOCK ? i % 256 : 0xA5);
    is("no interrupt", machine.interrupts, 0);
}

/* GET UNIT STATUS for unit 0, 1, 2, .. with the modifier for the next one, until unit 0 is told again. Packets lie 52
 * bytes apart. */
static void shows_units_to_a_console(void)
{
    static const char *const STATUS[5] = {"0400", "2300", "0400", "2300", "0400"};
    static const char *const CREDITS[5] = {"0f", "02", "01", "01", "01"};
    build(&RQDX3);
    is("IP is read before it is written", mscp_port_read_ip(machine.port), MSCP_DONE);
    is("IP", mscp_port_write_ip(machine.port), MSCP_DONE);
    answer(0x0B40, 0x8400);
    answer(0x1084, 0x020C);
    answer(0x2000, 0x0000);
    answer(0x4133, 0x0001);
    is("SA", mscp_port_read_sa(machine.port), 0);
    for (uint32_t k = 0; k < 5; k++) {
        const struct slots slots = {0x020C + 4 * k, 0x024C, 0x0304 + 52 * k, 0x0704};
        char text[128];
        unsigned told = k % 4;
        snprintf(text, sizeof text, "01000000 %02x00 0000 03 00 0100", (unsigned)k);
        machine.memory[slots.response + 48] = 0x77;
        post(&slots, "30000100", text);
        snprintf(text, sizeof text,
                 "3000%s00 01000000 %02x00 0000 83 00 %s %02x00 0080 00000000 %02x00000000000d02 36406425 %02x00 0000 "
                 "1100 0f00 0100",
                 CREDITS[k], told, STATUS[k], told, told, told);
        has("GET UNIT STATUS", slots.response - 4, 4 + 48, text);
        is("what stands behind", machine.memory[slots.response + 48], 0x77);
    }
    is("IP", mscp_port_write_ip(machine.port), MSCP_DONE);
    is("SA", mscp_port_read_sa(machine.port), 0x0B40);
}

/* SET CONTROLLER CHARACTERISTICS, ONLINE and READs, all of 60 bytes and with reference number 1, by rings two bytes past a
 * multiple of 4. */
static void boots_a_vax(void)
{
    static const struct slots slots = {0x01C6, 0x01CA, 0x01D2, 0x0212};
    build(&RQDX3);
    is("IP", mscp_port_write_ip(machine.port), MSCP_DONE);
    answer(0x0B40, 0x8000);
    answer(0x1080, 0x01C6);
    answer(0x2000, 0x0000);
    answer(0x4133, 0x0001);
    post(&slots, "3c000000", "01000000 0000 0000 04");
    has("SET CONTROLLER CHARACTERISTICS", 0x01CE, 4 + 32,
        "20000f00 01000000 0000 0000 84 00 0000 0000 0080 7800 0301 000000000000 1301 00000000");
    post(&slots, "3c000000", "01000000 0000 0000 09");
    has("ONLINE", 0x01CE, 4 + 44,
        "2c000200 01000000 0000 0000 89 00 0000 0000 0080 00000000 0000000000000d02 36406425 0000 0000 a0bf0400 9c020000");
    for (unsigned i = 0; i < 3; i++) {
        uint32_t to = i == 0 ? 0x0418 : 0x0400;
        post(&slots, "3c000000",
             i == 0   ? "01000000 0000 0000 21 00 0000 00020000 18040000 00000000 00000000 01000000"
             : i == 1 ? "01000000 0000 0000 21 00 0000 00020000 00040000 00000000 00000000 01000000"
                      : "01000000 0000 0000 21 00 0000 00020000 00040000 00000000 00000000 00000000");
        has("READ", 0x01CE, 4 + 32, "20000100 01000000 0000 0000 a1 00 0000 00020000");
        is("its block", number(machine.memory + to, 4), i == 2 ? 0x03020100 : 0x04030201);
    }
    post(&slots, "3c000000", "01000000 0000 0000 21 00 0000 00060000 00040000 00000000 00000000 05000000");
    has("READ of the image", 0x01CE, 4 + 32, "20000100 01000000 0000 0000 a1 00 0000 00060000");
    is("its last block", number(machine.memory + 0x0400 + 1024, 4), 0x0A090807);
}

/* Of a unit without a volume VMB is told so. */
static void boots_of_no_volume(void)
{
    static const struct slots slots = {0x01C6, 0x01CA, 0x01D2, 0x0212};
    build(&RQDX3);
    is("it goes", mscp_port_volume_went(machine.port, 0), MSCP_DONE);
    answer(0x0B40, 0x8000);
    answer(0x1080, 0x01C6);
    answer(0x2000, 0x0000);
    answer(0x4133, 0x0001);
    post(&slots, "3c000000", "01000000 0000 0000 09");
    has("ONLINE", 0x01CE, 4 + 44,
        "2c000f00 01000000 0000 0000 89 00 2300 0000 0080 00000000 0000000000000d02 36406425 0000 0000 a0bf0400 9c020000");
}

int main(void)
{
    boots_a_pdp11();
    shows_units_to_a_console();
    boots_a_vax();
    boots_of_no_volume();
    return wrong;
}
