/* port.h: a disk port between the bus of an emulated machine and its disks, by callbacks. port.c has it. */
#ifndef PORT_H
#define PORT_H
#include "mscp.h"
#include <stdbool.h>

#define PORT_COMMANDS 16u /* that a host may have outstanding */
#ifndef PORT_RUN
#define PORT_RUN 64u /* blocks that are moved at once, for which a port has room: 1 if memory is short */
#endif

/* What the machine does for its port. Each callback gets `machine` as it is here. Addresses are those of the bus, of 22 bits or
 * 18, and mapping them is the machine's: it answers MSCP_OUTCOME_DONE, or else MSCP_OUTCOME_MISSING, _PARITY or _UNMAPPED. */
struct port_bus {
    void *machine;
    enum mscp_outcome (*read)(void *machine, uint32_t address, uint8_t *bytes, uint32_t count);
    enum mscp_outcome (*write)(void *machine, uint32_t address, const uint8_t *bytes, uint32_t count);
    void (*interrupt)(void *machine, uint16_t vector);
    /* A block of 512 bytes of a unit's volume. True if it was read or written; what was written can be read then. */
    bool (*read_block)(void *machine, uint16_t unit, uint32_t block, uint8_t *bytes);
    bool (*write_block)(void *machine, uint16_t unit, uint32_t block, const uint8_t *bytes);
    /* So many blocks of it at once, from one on, of one command and in one turn; NULL if the machine has no such calls. If one
     * of the blocks can't be moved the answer is false, and they are moved one by one. */
    bool (*read_run)(void *machine, uint16_t unit, uint32_t block, uint32_t count, uint8_t *bytes);
    bool (*write_run)(void *machine, uint16_t unit, uint32_t block, uint32_t count, const uint8_t *bytes);
    /* In place of those four, for a disk that takes its time: they begin with a block and return, and port_moved reports it by
     * its serial when it is done. Do blocks in the order in which they were begun, also those that the port wants no more, and copy
     * the bytes before you return. */
    void (*begin_read)(void *machine, uint16_t unit, uint32_t block, uint64_t serial);
    void (*begin_write)(void *machine, uint16_t unit, uint32_t block, const uint8_t *bytes, uint64_t serial);
    /* A command came from the host, or an end or an attention message is there for it: for logs, NULL where there is none. */
    void (*see_message)(void *machine, bool is_to_host, const uint8_t *bytes, uint32_t length);
};

/* A block that takes its time: none is begun, one is, or it was moved, or it couldn't be. */
enum port_slow { PORT_IDLE, PORT_BEGUN, PORT_MOVED, PORT_FAILED };

/* A port, with a controller. It holds no pointer but those of its bus: it may be copied, and saved as the bytes after `bus`; but
 * not while a block takes its time: use mscp_port_save and port_restore then. */
struct port {
    struct port_bus bus;
    uint8_t lines; /* of the bus, an enum mscp_bus */
    struct {
        uint32_t first, done, count; /* of its command: after how many blocks the run and the next of it are, and how many wait */
    } ahead;                         /* blocks that were moved in this turn, and not reported yet */
    uint32_t left; /* actions in this turn */
    enum port_slow slow;
    uint64_t step;   /* the port's serial of the step whose block was begun last */
    uint64_t serial; /* the disk's own of that block: a count that goes on over a restore, too */
    struct {
        uint8_t bytes[MSCP_MESSAGE_MAX];
        uint8_t length; /* 0 if there is none */
        bool is_to_host;
    } passing; /* a message whose slot wasn't given back yet */
    uint8_t blocks[PORT_RUN * MSCP_BLOCK];
    MSCP_ALIGNED uint64_t memory[(MSCP_HEAD + MSCP_PORT_SIZE) / sizeof(uint64_t)];
};

/* Makes a port of these units in rising order of their numbers, without volumes. A status of mscp_port_init. */
int32_t port_open(struct port *port, const struct port_bus *bus, const struct mscp_hardware *hardware,
                  const struct mscp_unit *units, size_t count);

/* The port for the calls of mscp.h that have no other name here: mscp_port_protect, _state, _volume, _look, _save. Those of a
 * volume answer a status there. */
struct mscp_port *port_itself(struct port *port);

/* Makes the port that mscp_port_save saved, in place of the one that runs, whose machine, bus and count of the disk's serials stay.
 * If this fails, that one goes on. A status of mscp_port_restore, or MSCP_BAD_BUS if it is a port on another bus. */
int32_t port_restore(struct port *port, const uint8_t *bytes, size_t length);

/* The host reads or writes a word at the port's first address (IP, with 0) or the second (SA, with 2). */
uint16_t port_read(struct port *port, unsigned offset);
void port_write(struct port *port, unsigned offset, uint16_t word);

/* From the machine's clock, every few hundred instructions: so many actions at most, or as many as there are until the
 * host has to go on a little. Whether more is to be done. */
bool port_turn(struct port *port, unsigned most);

/* The block of this serial was moved, with the bytes that were read, or it couldn't be. Whether it is the one that port.c waits for.
 * If so it is time for a turn, which drops the block if an ABORT or a reset came. To be called while no other call is under way. */
bool port_moved(struct port *port, uint64_t serial, bool went_well, const uint8_t *bytes);

/* A second of the machine went by. */
void port_second(struct port *port);

/* A volume is put into a unit, or taken out. Whether there is such a unit, and the volume fits. */
bool port_insert(struct port *port, uint16_t unit, const struct mscp_medium *medium);
bool port_eject(struct port *port, uint16_t unit);
#endif
