/* pdp11_rq.c: the disks RQ, RQB, RQC and RQD of SIMH 3.8.1's PDP-11 and VAX, over the proved port of mscp.h.
 *
 *     examples/simh/build SOURCE FOLDER [vax]      (SOURCE is SIMH's tarball, or a folder with what is in it)
 *
 * It takes the place of SIMH's own file of this name, and has nothing of it. docs/PORT.md says how to use it. */
#include "drives.h"
#include "port.h"
#include "rq.h"
#ifdef VM_VAX
#include "vax_defs.h"
#else
#include "pdp11_defs.h"
#endif
#include <unistd.h>

enum { CONTROLLERS = 4, DRIVES = 4, WORK = DRIVES, SECOND, UNITS, RD54 = 6, RA82 = 12, RRD40 = 15, RAUSER };

#define UNIT_LOCKED (1u << UNIT_V_UF) /* a flag of a unit: the host may not write on it */
#define DRIVE u3                      /* in a unit: which drive of drives.h it is, or RAUSER */

/* A controller: the port, an interrupt that was posted and not yet taken, what SA shows, and which build's port it is, since
 * SIMH restores what another one saved. */
struct controller {
    struct port port;
    DEVICE *device;
    int32 is_posted, vector;
    uint32 shown, build;
};

extern int32 int_req[IPL_HLVL];
extern int32 cpu_opt, sim_switches, tmr_poll, clk_tps;
extern FILE *sim_deb;
extern DEVICE rq_dev, rqb_dev, rqc_dev, rqd_dev;

static UNIT units[CONTROLLERS][UNITS];
static struct controller controllers[CONTROLLERS] = {
    {.device = &rq_dev}, {.device = &rqb_dev}, {.device = &rqc_dev}, {.device = &rqd_dev}};

/* How many actions a turn of the port has at most, and how many instructions go by before each turn. A block is one action. */
static int32 actions = 150, slack = 200;

/* ---- what the port wants of the machine */

static void interrupt (void *machine, uint16_t vector)
{
    struct controller *it = machine;
    it->is_posted = TRUE;
    it->vector = vector + VEC_Q;
    SET_INT (RQ);
}

/* As with SIMH's own disks the units of a PDP-11's RQ have the numbers 0 to 3, those of RQB 4 to 7, and so on. */
static uint16_t first_number (const struct controller *it)
{
    return RQ_NUMBERS_RISE ? (uint16_t)((it - controllers) * DRIVES) : 0;
}

static UNIT *unit_of (const struct controller *it, uint16_t number)
{
    return it->device->units + number - first_number (it);
}

static uint16_t number_of (const struct controller *it, const UNIT *unit)
{
    return (uint16_t)(first_number (it) + (unit - it->device->units));
}

/* The file of what is attached to a unit, as the operating system has it: a block that was written is there, also if the disk is
 * full then, and an error says nothing of the next block. Negative where nothing is attached. */
static int file_of (const UNIT *unit)
{
    return unit->flags & UNIT_ATT ? fileno (unit->fileref) : -1;
}

/* Behind the end of its file a volume has zeros. */
static bool read_run (void *machine, uint16_t number, uint32_t block, uint32_t count, uint8_t *bytes)
{
    size_t wanted = (size_t)count * MSCP_BLOCK;
    ssize_t length = pread (file_of (unit_of (machine, number)), bytes, wanted, (off_t)block * MSCP_BLOCK);
    if (length < 0)
        return false;
    memset (bytes + length, 0, wanted - (size_t)length);
    return true;
}

static bool read_block (void *machine, uint16_t number, uint32_t block, uint8_t *bytes)
{
    return read_run (machine, number, block, 1, bytes);
}

static bool write_run (void *machine, uint16_t number, uint32_t block, uint32_t count, const uint8_t *bytes)
{
    size_t wanted = (size_t)count * MSCP_BLOCK;
    return pwrite (file_of (unit_of (machine, number)), bytes, wanted, (off_t)block * MSCP_BLOCK) == (ssize_t)wanted;
}

static bool write_block (void *machine, uint16_t number, uint32_t block, const uint8_t *bytes)
{
    return write_run (machine, number, block, 1, bytes);
}

/* With SET RQ DEBUG the file of SET DEBUG gets a line for each message. */
static void see_message (void *machine, bool is_to_host, const uint8_t *bytes, uint32_t length)
{
    struct controller *it = machine;
    if (DEBUG_PRD (it->device))
        rq_show_message (sim_deb, it->device->name, is_to_host, bytes, length);
}

/* ---- the controller's two registers, its interrupt and its time */

/* Takes back an interrupt that was posted. */
static void withdraw (struct controller *it)
{
    it->is_posted = FALSE;
    CLR_INT (RQ);
    for (int i = 0; i < CONTROLLERS; i++)
        if (controllers[i].is_posted)
            SET_INT (RQ);
}

/* The processor takes the interrupt of the first controller that has one. */
static int32 acknowledge (void)
{
    for (int i = 0; i < CONTROLLERS; i++)
        if (controllers[i].is_posted) {
            withdraw (&controllers[i]);
            return controllers[i].vector;
        }
    return 0;
}

static struct controller *controller_at (int32 address)
{
    for (int i = 0; i < CONTROLLERS; i++) {
        DIB *dib = controllers[i].device->ctxt;
        if (!(controllers[i].device->flags & DEV_DIS) && (uint32)address - dib->ba < dib->lnt)
            return &controllers[i];
    }
    return NULL;
}

/* The port has something to do. It does it in a while, as the host has to go on between the steps of the initialisation. */
static void call (struct controller *it)
{
    UNIT *unit = &it->device->units[WORK];
    if (unit->wait > slack || !sim_is_active (unit))
        sim_activate_abs (unit, unit->wait = slack);
}

/* SA is kept for EXAMINE. */
static void show_sa (struct controller *it)
{
    it->shown = port_read (&it->port, 2);
}

/* Of the sources of the port that is linked, by what they say of themselves. */
static uint32 this_build (void)
{
    return mscp_version () << 8 ^ (uint32)mscp_port_size ();
}

static t_stat reset (DEVICE *device);

/* SIMH has restored what another build saved: that is no port here. The controller is as new, and that is said. */
static void check_build (struct controller *it)
{
    if (it->build == this_build ())
        return;
    printf ("%s: saved by another build of the port. The controller is reset.\n", it->device->name);
    reset (it->device);
}

static t_stat read_register (int32 *data, int32 address, int32 access)
{
    struct controller *it = controller_at (address);
    if (it == NULL)
        return SCPE_NXM;
    check_build (it);
    *data = port_read (&it->port, address & 2);
    if (!(address & 2))
        call (it);
    return SCPE_OK;
}

static t_stat write_register (int32 data, int32 address, int32 access)
{
    struct controller *it = controller_at (address);
    if (it == NULL)
        return SCPE_NXM;
    check_build (it);
    port_write (&it->port, address & 2, (uint16_t)data);
    show_sa (it);
    if (!(address & 2)) {
        if (DEBUG_PRD (it->device))
            fprintf (sim_deb, "%s host: reset\n", it->device->name);
        withdraw (it);
        sim_activate_abs (&it->device->units[SECOND], tmr_poll * clk_tps);
    }
    call (it);
    return SCPE_OK;
}

static struct controller *controller_of (const UNIT *unit)
{
    return &controllers[(unit - units[0]) / UNITS];
}

/* A turn of the port. Nothing tells it when its host has given a slot for responses back. So while it rests it looks again,
 * at first soon, and at last with each tick of the clock. */
static t_stat work (UNIT *unit)
{
    unit->wait = port_turn (&controller_of (unit)->port, actions) ? slack : unit->wait * 2;
    show_sa (controller_of (unit));
    if (unit->wait < tmr_poll)
        return sim_activate (unit, unit->wait);
    unit->wait = tmr_poll;
    return sim_activate (unit, clk_cosched (tmr_poll));
}

static t_stat second (UNIT *unit)
{
    port_second (&controller_of (unit)->port);
    show_sa (controller_of (unit));
    return sim_activate (unit, tmr_poll * clk_tps);
}

/* ---- SIMH's commands */

/* The drive of a unit: one of drives.h, or RAUSER, which is an RA82 with as many blocks as the unit has. */
static struct drive drive_of (const UNIT *unit)
{
    struct drive drive = drives[unit->DRIVE == RAUSER ? RA82 : unit->DRIVE];
    if (unit->DRIVE == RAUSER)
        drive.blocks = (uint32_t)(unit->capac / MSCP_BLOCK);
    return drive;
}

/* What is attached to a unit comes into it. */
static void load (struct controller *it, UNIT *unit)
{
    const struct drive drive = drive_of (unit);
    const struct mscp_medium medium = drive_medium (&drive, (unit->flags & (UNIT_RO | UNIT_LOCKED)) != 0);
    port_insert (&it->port, number_of (it, unit), &medium);
}

/* Makes the port as new: RESET, BOOT, the processor's RESET, and whatever changes the drives. On a Unibus it is a UDA50,
 * and on a Q-bus an RQDX3. */
static t_stat reset (DEVICE *device)
{
    static const struct mscp_hardware uda50 = {MSCP_BUS_UNI, 6, 3, 1}, rqdx3 = {MSCP_BUS_Q, 19, 3, 1};
    struct controller *it = controller_of (device->units);
    const struct port_bus bus = {.machine = it, .read = rq_read_memory, .write = rq_write_memory,
                                 .interrupt = interrupt, .read_block = read_block, .write_block = write_block,
                                 .read_run = read_run, .write_run = write_run, .see_message = see_message};
    struct mscp_unit told[DRIVES];
    size_t count = 0;
    for (uint16_t i = 0; i < DRIVES; i++) {
        const struct drive drive = drive_of (&device->units[i]);
        told[count] = drive_unit (&drive, first_number (it) + i, (uint64_t)(it - controllers) << 16 | i);
        count += !(device->units[i].flags & UNIT_DIS) || (i == DRIVES - 1 && count == 0); /* a port has one at least */
    }
    if (port_open (&it->port, &bus, UNIBUS ? &uda50 : &rqdx3, told, count) != MSCP_DONE)
        return SCPE_IERR;
    for (uint16_t i = 0; i < DRIVES; i++)
        if (device->units[i].flags & UNIT_ATT)
            load (it, &device->units[i]);
    it->build = this_build ();
    show_sa (it);
    withdraw (it);
    sim_cancel (&device->units[WORK]);
    sim_cancel (&device->units[SECOND]);
    return auto_config (NULL, 0);
}

static t_stat attach (UNIT *unit, char *name)
{
    struct controller *it = controller_of (unit);
    t_stat status = attach_unit (unit, name);
    if (status != SCPE_OK)
        return status;
    setvbuf (unit->fileref, NULL, _IONBF, 0); /* what EXAMINE and DEPOSIT move is in the file at once, too */
    load (it, unit);
    if (sim_is_active (&it->device->units[WORK]))
        call (it); /* a host that has asked for attention messages gets one */
    return SCPE_OK;
}

static t_stat detach (UNIT *unit)
{
    if (unit->flags & UNIT_ATT)
        port_eject (&controller_of (unit)->port, number_of (controller_of (unit), unit));
    return detach_unit (unit);
}

/* The drive of a unit is another one, of so many blocks, and so the controller is another one. */
static t_stat change (UNIT *unit, int32 drive, uint32_t blocks)
{
    if (unit->flags & UNIT_ATT)
        return SCPE_ALATT;
    unit->DRIVE = drive;
    unit->capac = (t_addr)blocks * MSCP_BLOCK;
    return reset (controller_of (unit)->device);
}

static t_stat set_drive (UNIT *unit, int32 value, char *text, void *nothing)
{
    return text != NULL ? SCPE_ARG : change (unit, value, drives[value].blocks);
}

/* RAUSER is as large as SIMH's own: of so many megabytes, of so many blocks with the switch -L, or as an RA82. */
static t_stat set_user (UNIT *unit, int32 value, char *text, void *nothing)
{
    enum { A_MEGABYTE = 1954, LEAST = 10000, MOST = 4000000 };
    if (text == NULL)
        return change (unit, RAUSER, drives[RA82].blocks);
    t_stat status;
    uint32 per = sim_switches & SWMASK ('L') ? 1 : A_MEGABYTE;
    uint32 blocks = (uint32)get_uint (text, 10, (MOST - 1) / per, &status) * per;
    return status != SCPE_OK || blocks < LEAST ? SCPE_ARG : change (unit, RAUSER, blocks);
}

enum { SHOW_TYPE, SHOW_WRITE, SHOW_QUEUE, SHOW_VECTOR };

/* A part of what SHOW says of a unit or a device. Whether one may write is told as of SIMH's own disks. */
static t_stat show (FILE *to, UNIT *unit, int32 value, void *nothing)
{
    struct controller *it = controller_of (unit);
    const char *writes = unit->flags & (UNIT_RO | UNIT_LOCKED) ? "write locked" : "write enabled";
    check_build (it);
    switch (value) {
    case SHOW_TYPE: fputs (unit->DRIVE == RAUSER ? "RAUSER" : drive_of (unit).name, to); break;
    case SHOW_WRITE: fputs (drive_of (unit).is_read_only ? "read only" : writes, to); break;
    case SHOW_QUEUE: rq_show_queue (to, port_itself (&it->port), it->device->name, first_number (it)); break;
    default: rq_show_vector (to, port_itself (&it->port));
    }
    return SCPE_OK;
}

/* A disk is locked or not from now on, also one that is attached, but for one that can't be written on. */
static t_stat lock (UNIT *unit, int32 value, char *text, void *nothing)
{
    struct controller *it = controller_of (unit);
    if (drive_of (unit).is_read_only)
        return SCPE_NOFNC;
    if (unit->flags & UNIT_ATT)
        mscp_port_protect (port_itself (&it->port), number_of (it, unit), value != 0 || unit->flags & UNIT_RO);
    return SCPE_OK;
}

static t_stat boot (int32 number, DEVICE *device)
{
    uint16_t unit = number_of (controller_of (device->units), device->units + number);
    return rq_boot (unit, (uint16_t)((DIB *)device->ctxt)->ba) ? SCPE_OK : SCPE_NOFNC;
}

/* ---- SIMH's tables */

#define A_DRIVE {UDATA (NULL, UNIT_FIX | UNIT_ATTABLE | UNIT_ROABLE | UNIT_DISABLE, 311200 * MSCP_BLOCK), 0, RD54}
#define ALL_UNITS {A_DRIVE, A_DRIVE, A_DRIVE, A_DRIVE, {UDATA (work, UNIT_IDLE | UNIT_DIS, 0)}, \
                   {UDATA (second, UNIT_IDLE | UNIT_DIS, 0)}}
static UNIT units[CONTROLLERS][UNITS] = {ALL_UNITS, ALL_UNITS, ALL_UNITS, ALL_UNITS};

#define A_DIB(name) {IOBA_##name, IOLN_##name, read_register, write_register, 1, IVCL (RQ), 0, {acknowledge}}
static DIB dibs[CONTROLLERS] = {A_DIB (RQ), A_DIB (RQB), A_DIB (RQC), A_DIB (RQD)};

/* Two are set by hand, one shows what SA does, and the others are those which SAVE and RESTORE want. */
#define REGISTERS(n) \
    {{DRDATA (ACTIONS, actions, 24), PV_LEFT + REG_NZ}, {DRDATA (PAUSE, slack, 24), PV_LEFT + REG_NZ}, \
     {GRDATA (SA, controllers[n].shown, DEV_RDX, 16, 0), REG_RO}, \
     {BRDATA (PORT, (char *)controllers[n].port.memory + MSCP_HEAD, 16, 8, MSCP_PORT_SIZE), REG_HIDDEN}, \
     {GRDATA (BUILD, controllers[n].build, 16, 32, 0), REG_HIDDEN}, \
     {DRDATA (POSTED, controllers[n].is_posted, 1), REG_HIDDEN}, {GRDATA (VECTOR, controllers[n].vector, 8, 16, 0), REG_HIDDEN}, \
     {DRDATA (WAIT, units[n][WORK].wait, 24), REG_HIDDEN}, {NULL}}
static REG registers[CONTROLLERS][9] = {REGISTERS (0), REGISTERS (1), REGISTERS (2), REGISTERS (3)};

#define SET_TO(number, name) {MTAB_XTD | MTAB_VUN, number, NULL, name, set_drive, NULL, NULL}
#define SHOWN(part, name) {MTAB_XTD | MTAB_VUN, part, name, NULL, NULL, show, NULL}
static MTAB modifiers[] = {
    SET_TO (0, "RX33"), SET_TO (1, "RX50"), SET_TO (2, "RD31"), SET_TO (3, "RD51"), SET_TO (4, "RD52"),
    SET_TO (5, "RD53"), SET_TO (6, "RD54"), SET_TO (7, "RA60"), SET_TO (8, "RA71"), SET_TO (9, "RA72"),
    SET_TO (10, "RA80"), SET_TO (11, "RA81"), SET_TO (12, "RA82"), SET_TO (13, "RA90"), SET_TO (14, "RA92"),
    SET_TO (RRD40, "RRD40"), SET_TO (RRD40, "CDROM"),
    {MTAB_XTD | MTAB_VUN, RAUSER, NULL, "RAUSER", set_user, NULL, NULL},
    SHOWN (SHOW_WRITE, "WRITE"), SHOWN (SHOW_TYPE, "TYPE"),
    {UNIT_LOCKED, 0, NULL, "WRITEENABLED", lock}, {UNIT_LOCKED, UNIT_LOCKED, NULL, "LOCKED", lock},
    {MTAB_XTD | MTAB_VDV, 4, "ADDRESS", "ADDRESS", set_addr, show_addr, NULL},
    {MTAB_XTD | MTAB_VDV, 0, NULL, "AUTOCONFIGURE", set_addr_flt, NULL, NULL},
    {MTAB_XTD | MTAB_VDV, SHOW_VECTOR, "VECTOR", NULL, NULL, show, NULL},
    {MTAB_XTD | MTAB_VDV | MTAB_NMO, SHOW_QUEUE, "QUEUE", NULL, NULL, show, NULL},
    {0}};

#define A_DEVICE(name, number, flags) \
    {name, units[number], registers[number], modifiers, UNITS, DEV_RDX, 31, 2, DEV_RDX, 16, NULL, NULL, reset, boot, \
     attach, detach, &dibs[number], (flags) | DEV_DISABLE | DEV_UBUS | DEV_QBUS | DEV_DEBUG}
DEVICE rq_dev = A_DEVICE ("RQ", 0, DEV_FLTA);
DEVICE rqb_dev = A_DEVICE ("RQB", 1, DEV_FLTA | DEV_DIS);
DEVICE rqc_dev = A_DEVICE ("RQC", 2, DEV_FLTA | DEV_DIS);
DEVICE rqd_dev = A_DEVICE ("RQD", 3, DEV_FLTA | DEV_DIS);
