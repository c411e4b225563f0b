/* drives.h: DEC's drives of MSCP controllers, as a host reads of them. Take it into an emulator as it is. docs/PORT.md has
 * the same as a table. The figures are written from memory, and all but those of the RA80 were compared with SIMH's list, from
 * which those of the RRD40 are. The blocks of an RA drive other than the RA80 fill whole cylinders. */
#ifndef DRIVES_H
#define DRIVES_H
#include "mscp.h"
#include <stdbool.h>
#include <string.h>

struct drive {
    const char *name;
    uint8_t model, number; /* the model is in a unit's identifier, the number in the type of its media */
    bool is_removable, is_read_only;
    uint32_t blocks;
    uint16_t track, group, cylinder; /* blocks of a track, tracks of a group, groups of a cylinder */
};

static const struct drive drives[] = {
    {"RX33", 10, 33, true, false, 2400, 15, 2, 1},      {"RX50", 7, 50, true, false, 800, 10, 5, 16},
    {"RD31", 12, 31, false, false, 41560, 17, 4, 1},    {"RD51", 6, 51, false, false, 21600, 18, 4, 1},
    {"RD52", 8, 52, false, false, 60480, 17, 8, 1},     {"RD53", 9, 53, false, false, 138672, 17, 8, 1},
    {"RD54", 13, 54, false, false, 311200, 17, 15, 1},  {"RA60", 4, 60, true, false, 400176, 42, 6, 1},
    {"RA71", 40, 71, false, false, 1367310, 51, 14, 1}, {"RA72", 37, 72, false, false, 1953300, 51, 20, 1},
    {"RA80", 1, 80, false, false, 237212, 31, 14, 1},   {"RA81", 5, 81, false, false, 891072, 51, 14, 1},
    {"RA82", 11, 82, false, false, 1216665, 57, 15, 1}, {"RA90", 19, 90, false, false, 2376153, 69, 13, 1},
    {"RA92", 29, 92, false, false, 2940951, 73, 13, 1}, {"RRD40", 26, 40, true, true, 1331200, 128, 1, 1},
};

/* The drive of a name, or NULL. */
static inline const struct drive *drive_named(const char *name)
{
    for (size_t i = 0; i < sizeof drives / sizeof *drives; i++)
        if (strcmp(drives[i].name, name) == 0)
            return &drives[i];
    return NULL;
}

/* The type of its media as the manual has it: five letters of five bits, and a number of seven. The letters are those of the
 * driver, DU, or DJ for the pack of an RA60, and those of the name, of which most have two. */
static inline uint32_t drive_media(const struct drive *drive)
{
    char second = drive->is_removable && drive->name[1] == 'A' ? 'J' : 'U';
    uint32_t all = (uint32_t)('D' - '@') << 5 | (uint32_t)(second - '@');
    bool is_letter = true;
    for (size_t i = 0; i < 3; i++) {
        is_letter = is_letter && drive->name[i] >= 'A';
        all = all << 5 | (is_letter ? (uint32_t)(drive->name[i] - '@') : 0);
    }
    return all << 7 | drive->number;
}

/* A unit of such a drive. Its identifier has the class of a disk, 2, in its highest byte, the model in the next one, and after
 * them what no other unit has. */
static inline struct mscp_unit drive_unit(const struct drive *drive, uint16_t number, uint64_t unique)
{
    const struct mscp_unit unit = {
        .id = (uint64_t)2 << 56 | (uint64_t)drive->model << 48 | unique,
        .size = drive->blocks, .media = drive_media(drive), .serial = (uint32_t)unique + 1, .number = number,
        .track = drive->track, .group = drive->group, .cylinder = drive->cylinder,
    };
    return unit;
}

/* What is put into it. Nothing may be written on what is always read only. */
static inline struct mscp_medium drive_medium(const struct drive *drive, bool is_protected)
{
    const struct mscp_medium medium = {
        .size = drive->blocks, .media = drive_media(drive), .is_protected = is_protected || drive->is_read_only,
        .is_removable = drive->is_removable,
    };
    return medium;
}
#endif
