/* making.h: what the parts of workload.c share: memory, numbers that seem random and are the same on every machine, the sums
 * over what calls tell, and what a controller is made of. */
#ifndef MAKING_H
#define MAKING_H
#include "telling.h"

enum { ROOM = (MSCP_HEAD + MSCP_PORT_SIZE) / 8 + 2, MOST_BYTES = MSCP_PORT_SAVED_MAX + 8 };
/* Of the controller, of the port, and one to move through. */
static MSCP_ALIGNED uint64_t rooms[3][ROOM], host_room[ROOM];
static struct mscp *mscp;
static struct mscp_host *host;
static struct mscp_port *port;
static uint8_t bytes[MOST_BYTES], other[MOST_BYTES];
static uint64_t seed = UINT64_C(88172645463325252);

static uint32_t any(uint32_t below)
{
    seed ^= seed << 13;
    seed ^= seed >> 7;
    seed ^= seed << 17;
    return (uint32_t)(seed >> 20) % below;
}

static void put(uint8_t *to, unsigned width, uint32_t number)
{
    for (unsigned i = 0; i < width; i++)
        to[i] = (uint8_t)(number >> (8 * i));
}

/* ---- what calls tell, whose padding nobody reads */

static void eat_report(int64_t status, const struct mscp_report *it)
{
    if (status != MSCP_DONE)
        return;
    eat(it->reference), eat(it->lbn), eat(it->seek), eat(it->unit), eat(it->status);
    eat(it->touched), eat(it->started), eat(it->ended), eat(it->connection);
}

static void eat_action(const struct mscp_action *it)
{
    eat(it->address), eat(it->count), eat(it->block), eat(it->unit), eat(it->vector), eat(it->kind), eat(it->opcode);
    eat_bytes(it->bytes, sizeof it->bytes);
}

static void eat_packet(const struct mscp_packet *it)
{
    eat(it->length);
    eat_bytes(it->bytes, sizeof it->bytes);
}

static void eat_upcoming(const struct mscp_upcoming *it)
{
    eat(it->reference), eat(it->bytes), eat(it->lbn), eat(it->done), eat(it->weight), eat(it->unit);
    eat(it->opcode), eat(it->touches), eat(it->connection);
}

static void eat_waiting(const struct mscp_waiting *list, size_t room, int64_t there)
{
    for (size_t i = 0; i < room && (int64_t)i < there; i++)
        eat(list[i].reference), eat(list[i].figure), eat(list[i].connection);
}

static void eat_holders(const struct mscp_holder *list, size_t room, int64_t there)
{
    for (size_t i = 0; i < room && (int64_t)i < there; i++)
        eat(list[i].reference), eat(list[i].connection), eat(list[i].fences), eat(list[i].overdrawn);
}

/* ---- what is made, and how it is refused */

static struct mscp_limits limits;
static struct mscp_unit units[MSCP_UNITS_MAX + 1];
static size_t count;
static struct mscp_hardware hardware;

static void choose(void)
{
    limits.id = UINT64_C(0x0102030405060708);
    limits.budget = any(3) == 0 ? 0 : any(900);
    limits.credits = 2 + any(31);
    limits.second = any(3) == 0 ? 0 : 2 + any(20);
    limits.longest = 1 + any(40);
    limits.timeout = (uint16_t)(1 + any(255));
    count = 1 + any(any(3) == 0 ? MSCP_UNITS_MAX : 3);
    for (size_t i = 0; i <= MSCP_UNITS_MAX; i++) {
        units[i].id = UINT64_C(0xF0E0D0C0B0A09080) + i;
        units[i].size = 1 + any(3000);
        units[i].media = any(1u << 31);
        units[i].serial = 900 + any(5);
        units[i].number = (uint16_t)(3 * i);
        units[i].track = (uint16_t)(1 + any(30));
        units[i].group = (uint16_t)(1 + any(3));
        units[i].cylinder = (uint16_t)(1 + any(4));
    }
    hardware.bus = (uint8_t)any(2), hardware.model = 19, hardware.software = 3, hardware.version = 1;
}

static void make_controller(void)
{
    choose();
    mscp = mscp_in_memory(rooms[0], sizeof rooms[0]);
    tell(INIT, mscp_init(mscp, &limits, units, count, any(2)));
}
#endif
