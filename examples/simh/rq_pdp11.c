/* rq_pdp11.c: what the disks of pdp11_rq.c want of a PDP-11, its memory and BOOT. */
#include "rq.h"
#include "pdp11_defs.h"

extern uint16 *M;
extern int32 cpu_bme, saved_PC, sim_end;
extern t_addr cpu_memsize;
extern uint32 Map_Addr (uint32 address);

/* Where these bytes of the bus lie in SIMH's memory, or NULL where they don't lie there in one piece: the Unibus map may move
 * them page by page, and a host of the other order of bytes has each word swapped. */
static uint8_t *in_memory (uint32_t address, uint32_t count)
{
    if (!sim_end || (cpu_bme && UBM_GETOFF (address) + count > UBM_PAGSIZE))
        return NULL;
    if (cpu_bme)
        address = Map_Addr (address);
    return address + count <= cpu_memsize ? (uint8_t *)M + address : NULL;
}

enum mscp_outcome rq_read_memory (void *machine, uint32_t address, uint8_t *bytes, uint32_t count)
{
    const uint8_t *from = in_memory (address, count);
    if (from == NULL)
        return Map_ReadB (address, count, bytes) == 0 ? MSCP_OUTCOME_DONE : MSCP_OUTCOME_MISSING;
    memcpy (bytes, from, count);
    return MSCP_OUTCOME_DONE;
}

enum mscp_outcome rq_write_memory (void *machine, uint32_t address, const uint8_t *bytes, uint32_t count)
{
    uint8_t *to = in_memory (address, count);
    if (to == NULL)
        return Map_WriteB (address, count, (uint8 *)bytes) == 0 ? MSCP_OUTCOME_DONE : MSCP_OUTCOME_MISSING;
    memcpy (to, bytes, count);
    return MSCP_OUTCOME_DONE;
}

/* ---- BOOT: the words of boot.s, which reads block 0 of the unit to address 0 and jumps there, with the unit in R0 and
 * the address of IP in R1 */

enum { BOOT = 016000, BOOT_ENTRY = BOOT + 2, BOOT_UNIT = BOOT + 010, BOOT_IP = BOOT + 014 };

static const uint16 boot_words[] = {
    0042125,                   /* start:  .word "UD" */
    0012706, BOOT,             /*         mov #start, sp */
    0012700, 0,                /* unit:   mov #0, r0 */
    0012701, 0,                /* csr:    mov #172150, r1 */
    0012702, 0016216,          /*         mov #answers, r2 */
    0012703, 0004000,          /*         mov #4000, r3 */
    0005021,                   /*         clr (r1)+              write IP. From here on R1 is SA */
    0005711, 0100470,          /* step:   tst (r1), bmi fail     a fatal error */
    0030311, 0001774,          /*         bit r3, (r1), beq step until the port shows this step */
    0012211,                   /*         mov (r2)+, (r1) */
    0006303, 0100371,          /*         asl r3, bpl step       the four steps have bits 11 to 14 */
    0012703, 0002000,          /*         mov #text-4, r3 */
    0005023,                   /* clear:  clr (r3)+ */
    0020327, 0002210,          /*         cmp r3, #rings */
    0103774,                   /*         blo clear */
    0110067, 0164026,          /*         movb r0, command+4 */
    0112767, 0000011, 0164024, /*         movb #11, command+10   ONLINE */
    0004767, 0000034,          /*         jsr pc, send */
    0112767, 0000041, 0164012, /*         movb #41, command+10   READ */
    0012767, 0001000, 0164010, /*         mov #1000, command+14  of 512 bytes of block 0 to address 0 */
    0004767, 0000014,          /*         jsr pc, send */
    0005041,                   /*         clr -(r1)              write IP: the port forgets the rings */
    0005003,                   /*         clr r3                 R3 to R5 as SIMH's other boot code leaves them */
    0012704, 0016020,          /*         mov #start+20, r4 */
    0005005,                   /*         clr r5 */
    0005007,                   /*         clr pc */
    0012767, 0000074, 0163742, /* send:   mov #60., command-4    the length of the text */
    0012703, 0002210,          /*         mov #rings, r3 */
    0012723, 0002004,          /*         mov #text, (r3)+       both slots are the port's */
    0012723, 0100000,          /*         mov #100000, (r3)+ */
    0012723, 0002110,          /*         mov #command, (r3)+ */
    0012713, 0100000,          /*         mov #100000, (r3) */
    0005761, 0177776,          /*         tst -2(r1)             read IP */
    0005711,                   /* wait:   tst (r1) */
    0100407,                   /*         bmi fail */
    0005767, 0164010,          /*         tst rings+2 */
    0100773,                   /*         bmi wait               until the response is the host's */
    0005767, 0163606,          /*         tst text+12            its status */
    0001001,                   /*         bne fail */
    0000207,                   /*         rts pc */
    0000000,                   /* fail:   halt */
    0100000, 0002210, 0, 1,    /* answers: one slot a ring, where they are, and go */
};

bool rq_boot (uint16_t number, uint16_t address)
{
    for (size_t i = 0; i < sizeof boot_words / sizeof *boot_words; i++)
        M[BOOT / 2 + i] = boot_words[i];
    M[BOOT_UNIT / 2] = number;
    M[BOOT_IP / 2] = address;
    saved_PC = BOOT_ENTRY;
    return true;
}
