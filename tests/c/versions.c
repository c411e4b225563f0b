/* A handle is one for the library only where that fits the header: of the same first number. Prints what is
 * wrong, and ends with 1 where something is. */
#define mscp_version told_version
#include "trying.h"

/* What the library says of itself. */
static uint32_t told;

uint32_t told_version(void)
{
    return told;
}

static void fits(const char *what, uint32_t version, int is_so)
{
    static const struct mscp_unit unit = {1, 1000, 0, 1, 0, 10, 2, 1};
    static const struct mscp_limits limits = {1, 16, 4, 0, 8, 60};
    static const struct mscp_hardware hardware = {MSCP_BUS_Q, 19, 3, 1};
    static MSCP_ALIGNED uint64_t memory[(MSCP_HEAD + MSCP_PORT_SIZE) / sizeof(uint64_t)];
    const int32_t wanted = is_so ? MSCP_DONE : MSCP_NO_HANDLE;
    told = version;
    is(what, mscp_init(mscp_in_memory(memory, sizeof memory), &limits, &unit, 1, MSCP_SWEEP), wanted);
    is(what, mscp_host_init(mscp_host_in_memory(memory, sizeof memory), 4), wanted);
    is(what, mscp_port_init(mscp_port_in_memory(memory, sizeof memory), &limits, &unit, 1, MSCP_SWEEP, &hardware, 3), wanted);
    struct mscp mscp = mscp_over(memory, sizeof memory);
    struct mscp_host host = mscp_host_over(memory, sizeof memory);
    struct mscp_port port = mscp_port_over(memory, sizeof memory);
    is(what, mscp_init(&mscp, &limits, &unit, 1, MSCP_SWEEP), wanted);
    is(what, mscp_host_init(&host, 4), wanted);
    is(what, mscp_port_init(&port, &limits, &unit, 1, MSCP_SWEEP, &hardware, 3), wanted);
}

int main(void)
{
    fits("the same", MSCP_VERSION, 1);
    fits("another third number", MSCP_VERSION ^ 0x7F, 1);
    fits("another second number", MSCP_VERSION ^ 0x100, 1);
    fits("another first number", MSCP_VERSION ^ 0x10000, 0);
    return wrong;
}
