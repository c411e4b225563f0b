/* scripting.h: scripts and packets with each fault, which scripts.c and workload.c share. What is wanted is of
 * docs/FORMATS.md. */
#ifndef SCRIPTING_H
#define SCRIPTING_H
#include "mscp.h"
#include <stdio.h>
#include <string.h>

#define HEADER "credits 4\nbudget 16\nlongest 8\ntimeout 60\nunit 0 10 2 1 1000\ngo\n"
#define FIFTY "01234567890123456789012345678901234567890123456789"
#define TWENTY "00000000000000000000"

static const struct { const char *text; int32_t fault; uint32_t line; } SCRIPTS[] = {
    {HEADER "look\n#" FIFTY FIFTY FIFTY FIFTY "\n", MSCP_SCRIPT_LONG, 8},
    {HEADER "look\t\n", MSCP_SCRIPT_BYTE, 7},
    {HEADER "jump\n", MSCP_SCRIPT_WORD, 7},
    {HEADER "read 1\n", MSCP_SCRIPT_COUNT, 7},
    {HEADER "step 1001\n", MSCP_SCRIPT_NUMBER, 7},
    {HEADER "packet 0\n", MSCP_SCRIPT_HEX, 7},
    {HEADER "bad 0001\n", MSCP_SCRIPT_STATUS, 7},
    {"credits 4\nbudget 16\nlongest 8\ntimeout 60\nunit 0 0 2 1 1000\ngo\n", MSCP_SCRIPT_UNIT, 5},
    {"credits 65\nbudget 1\nlongest 1\ntimeout 1\nunit 0 1 1 1 1\ngo\n", MSCP_SCRIPT_CONFIG, 6},
    {"credits 4\nbudget 16\n", MSCP_SCRIPT_HEADER, 3},
    {"", MSCP_SCRIPT_HEADER, 1},
};

static const struct { const char *word; int32_t status; const char *text; } PACKETS[] = {
    {"050000000000000005000000", MSCP_DONE, "command 5 unit 0 unknown opcode 5\n"},
    {"050000000000000080000108", MSCP_DONE, "end 5 unit 0 code 80 status 0801\n"},
    {"0100000000000000210000000004000000000000000000000000000028000000", MSCP_DONE, "command 1 unit 0 READ bytes 1024 block 40\n"},
    {"0600000000000000220000000010000000000000000000000000000007000000", MSCP_DONE, "command 6 unit 0 WRITE bytes 4096 block 7\n"},
    {"0403020102010000100000000002000000000000000000000000000001000000", MSCP_DONE,
     "command 16909060 unit 258 ACCESS bytes 512 block 1\n"},
    {"03000000FFFF0000120000000100000000000000000000000000000000FFFFFF", MSCP_DONE,
     "command 3 unit 65535 ERASE bytes 1 block 4294967040\n"},
    {"0400000001000000200000000000000000000000000000000000000000000000", MSCP_DONE,
     "command 4 unit 1 COMPARE HOST DATA bytes 0 block 0\n"},
    {"07000000000000000100000001000000", MSCP_DONE, "command 7 unit 0 ABORT of 1\n"},
    {"02000000000000000200000001000000", MSCP_DONE, "command 2 unit 0 GET COMMAND STATUS of 1\n"},
    {"080000000000000003000000", MSCP_DONE, "command 8 unit 0 GET UNIT STATUS\n"},
    {"0900000000000000040000000100", MSCP_DONE, "command 9 unit 0 SET CONTROLLER CHARACTERISTICS version 1\n"},
    {"0A0000000000000008000000", MSCP_DONE, "command 10 unit 0 AVAILABLE\n"},
    {"0B0000000200000009000000", MSCP_DONE, "command 11 unit 2 ONLINE\n"},
    {"0C000000000000000A000000", MSCP_DONE, "command 12 unit 0 SET UNIT CHARACTERISTICS\n"},
    {"010000000000000021000000", MSCP_DONE, "command 1 unit 0 short opcode 33\n"},
    {"07000000000000008100000001000000", MSCP_DONE, "end 7 unit 0 code 81 status 0000 of 1\n"},
    {"0200000000000000820000000100000012000000", MSCP_DONE, "end 2 unit 0 code 82 status 0000 of 1 figure 18\n"},
    {"0800000001000000830004000000000000000000020000000000000000010000000000000A0002000100000000000000", MSCP_DONE,
     "end 8 unit 1 code 83 status 0004 id 2 media 256 track 10 group 2 cylinder 1\n"},
    {"090000000000000084000000000000003C0000000100000000000000", MSCP_DONE,
     "end 9 unit 0 code 84 status 0000 timeout 60 id 1\n"},
    {"090000000000000089000000000000000000000001000000000000000000000000000000E803000001000000", MSCP_DONE,
     "end 9 unit 0 code 89 status 0000 id 1 media 0 size 1000 serial 1\n"},
    {"0100000000000000A10000000004000000000000000000000000000000000000", MSCP_DONE,
     "end 1 unit 0 code a1 status 0000 bytes 1024\n"},
    {"05000000000000001300000", MSCP_WORD_HEX, ""},
    {"0500", MSCP_WORD_SHORT, ""},
    {TWENTY TWENTY TWENTY TWENTY TWENTY TWENTY TWENTY, MSCP_WORD_LONG, ""},
    {"050000000000000094000000", MSCP_WORD_CODE, ""},
    {"050000000000000082000000", MSCP_WORD_LENGTH, ""},
};

/* A script that is too large, by a line, by a byte or by an event, and how many bytes it has. */
static char large[16777217];

static inline size_t make_large(int32_t fault)
{
    char *end = large + sprintf(large, HEADER);
    memset(end, '\n', sizeof large - (size_t)(end - large));
    if (fault == MSCP_SCRIPT_SIZE)
        return sizeof large;
    if (fault == MSCP_SCRIPT_LINES)
        return (size_t)(end - large) + 999995;
    for (int i = 0; i < 1000; i++)
        end += sprintf(end, "step 1000\n");
    return (size_t)(end - large) + (size_t)sprintf(end, "look\n");
}
#endif
