/* rq_vax.c: what the disks of pdp11_rq.c want of a VAX, its memory behind the map of the Q-bus. */
#include "rq.h"
#include "vax_defs.h"

enum mscp_outcome rq_read_memory (void *machine, uint32_t address, uint8_t *bytes, uint32_t count)
{
    return Map_ReadB (address, (int32)count, bytes) == 0 ? MSCP_OUTCOME_DONE : MSCP_OUTCOME_MISSING;
}

enum mscp_outcome rq_write_memory (void *machine, uint32_t address, const uint8_t *bytes, uint32_t count)
{
    return Map_WriteB (address, (int32)count, (uint8 *)bytes) == 0 ? MSCP_OUTCOME_DONE : MSCP_OUTCOME_MISSING;
}

bool rq_boot (uint16_t number, uint16_t address)
{
    return false;
}
