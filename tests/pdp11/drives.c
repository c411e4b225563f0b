/* Compares examples/drives.h with the list of SIMH's own disks, of which list.h has the definitions. SIMH has no RA80, and of its
 * drives that may be taken out none but the RA60 has a J in the type of its media.
 *
 * Prints the drives that differ, and ends with 1 where there is one. */
#include "drives.h"
#include "list.h"
#include <stdio.h>

static int differs(const char *name, uint32_t blocks, unsigned track, unsigned group, unsigned cylinder, unsigned model,
                   uint32_t media, bool is_removable, bool is_read_only)
{
    const struct drive *drive = drive_named(name);
    if (drive != NULL) {
        const struct mscp_unit unit = drive_unit(drive, 3, 0x10002);
        const struct mscp_medium medium = drive_medium(drive, false), locked = drive_medium(drive, true);
        if (unit.size == blocks && unit.track == track && unit.group == group && unit.cylinder == cylinder &&
            unit.id == ((uint64_t)2 << 56 | (uint64_t)model << 48 | 0x10002) && unit.media == media && unit.number == 3 &&
            medium.size == blocks && medium.media == media && medium.is_removable == is_removable &&
            medium.is_protected == is_read_only && locked.is_protected)
            return 0;
    }
    printf("%s differs\n", name);
    return 1;
}

#define DIFFERS(name) \
    differs(#name, name##_LBN, name##_SECT, name##_TPG, name##_GPC, name##_MOD, name##_MED, ((name##_FLGS) & RQDF_RMV) != 0, \
            ((name##_FLGS) & RQDF_RO) != 0)

int main(void)
{
    return DIFFERS(RX33) | DIFFERS(RX50) | DIFFERS(RD31) | DIFFERS(RD51) | DIFFERS(RD52) | DIFFERS(RD53) | DIFFERS(RD54) |
           DIFFERS(RA60) | DIFFERS(RA71) | DIFFERS(RA72) | DIFFERS(RA81) | DIFFERS(RA82) | DIFFERS(RA90) | DIFFERS(RA92) |
           DIFFERS(RRD40);
}
