/* mscp.h: the command queue of an MSCP disk controller, a host's end of it, and a port over it, proved. C99 and C++.
 *
 * A controller lies in memory of yours. No call takes memory, waits, or keeps a pointer. What each answers is proved:
 * docs/PROVED.md, in the sources of the library, says how, and what the proof asks of you:
 *
 * - No pointer that you pass is NULL, save that of a list or of bytes with a length of 0. Each points to as much as its
 *   type or the length beside it says. Those of one call don't overlap.
 * - A handle is made by mscp_in_memory or mscp_over (of a host by mscp_host_in_memory or mscp_host_over, of a port by
 *   mscp_port_in_memory or mscp_port_over, of a driver's account by mscp_driver_in_memory or mscp_driver_over), over memory
 *   that is really there and really yours. After that only the calls write the handle and its memory. Two handles are never
 *   over one memory, and no copy of a handle is used beside it. For a NULL handle an init or a restore answers
 *   MSCP_NO_MEMORY, and every other inline call MSCP_NOT_MADE.
 * - Memory that moves, as by realloc or to a file and back, moves whole, and mscp_moved says so before the next call.
 *   Only a library of the same version knows what lies in it.
 * - One call at a time on a handle.
 *
 * Not proved, but tested: a handle may go from one thread to another, if a lock lets one call at a time through.
 *
 * A fault changes nothing: not the handle, not its memory, nor any output, except that a save always sets `*length`. Nor do
 * MSCP_NOTHING and MSCP_BUSY write any output.
 *
 * Numbers are the machine's own. Messages and ends are bytes, as the manual (DEC AA-L619A-TK) has them, and
 * docs/FORMATS.md in the sources. */
#ifndef MSCP_H
#define MSCP_H
#include <stddef.h>
#include <stdint.h>
#ifdef __cplusplus
extern "C" {
#endif
#ifdef __GNUC__
#define MSCP_MUST_USE __attribute__((warn_unused_result)) /* a status that is passed over may be a fault */
#else
#define MSCP_MUST_USE
#endif
#ifndef MSCP_INLINE
#define MSCP_INLINE static inline /* shared.c makes calls of libmscp.so of these */
#endif

/* libmscp.a is for x86-64 and 64-bit ARM, with numbers and calls as on Linux. For any machine there is mscp.c in its place,
 * a file that you compile with yours. A handle asks for that if libmscp.a can't be called, so the linker refuses it there. */
#if (defined(__x86_64__) || (defined(__aarch64__) && !defined(__AARCH64EB__))) && defined(__LP64__) && defined(__ELF__)
#define MSCP_HERE() ((void)0)
#else
#define MSCP_HERE() \
    do { \
        extern void mscp_is_for_any_machine(void); \
        mscp_is_for_any_machine(); \
    } while (0)
#endif

/* What a handle, and memory for what it is on, is aligned to, in bytes; and the bytes of a handle. Both are so on every
 * machine: put MSCP_ALIGNED before memory of 64-bit numbers, which may be aligned to fewer. */
#define MSCP_ALIGN 8u
#define MSCP_HEAD 32u
#if defined(__GNUC__)
#define MSCP_ALIGNED __attribute__((aligned(8)))
#elif defined(_MSC_VER)
#define MSCP_ALIGNED __declspec(align(8))
#elif defined(__cplusplus)
#define MSCP_ALIGNED alignas(8)
#else
#define MSCP_ALIGNED
#endif

/* The version of this header, 2.0.0, and that of the library: a byte for each of the three numbers. The two fit if the first
 * number is the same: docs/C.md in the sources says what is the same then. If they don't, an init says MSCP_NO_HANDLE, since
 * a handle that this header makes is none for that library. */
#define MSCP_VERSION UINT32_C(0x020000)
#define MSCP_FITS() ((mscp_version() ^ MSCP_VERSION) >> 16 == 0)
uint32_t mscp_version(void);

#define MSCP_CREDITS_MAX 64u  /* commands that wait and ends that weren't taken, of both connections together */
#define MSCP_UNITS_MAX 16u    /* units of a controller */
#define MSCP_MESSAGE_MIN 12u  /* bytes of a message */
#define MSCP_MESSAGE_MAX 64u
#define MSCP_PACKET_MAX 48u   /* bytes that a call writes of a message or an end, at most */
#define MSCP_BLOCK 512u       /* bytes of a block */
#define MSCP_SAVED_MAX 4608u  /* bytes that a controller is saved as, at most, by any library that fits */
#define MSCP_HOST_SAVED_MAX 1024u /* the same of a host */
#define MSCP_PORT_SAVED_MAX 7168u /* and of a port */
#define MSCP_DRIVER_SAVED_MAX 1536u /* and of a driver's account */

/* What a call answers: 0 and up what came of it, below 0 why it was refused. */
enum mscp_status {
    MSCP_NOTHING = 0,   /* no command waits, no end is there, no poll is to be sent, a port wants nothing */
    MSCP_DONE = 1,      /* the call did what it says */
    MSCP_QUEUED = 2,    /* mscp_send: the command waits for steps */
    MSCP_ANSWERED = 3,  /* mscp_send: its end was made at once: take it */
    MSCP_BUSY = 4,      /* mscp_host_poll: the end of the last poll is still to come */
    MSCP_ENDED = 5,     /* mscp_host_receive: a command ended, or a poll was refused */
    MSCP_FIRST = 6,     /* the polled command's first figure */
    MSCP_PROGRESS = 7,  /* the polled command's figure, which has fallen */
    MSCP_LATE = 8,      /* the polled command has ended in the meantime */
    MSCP_NO_PROGRESS = 9, /* the polled command's figure hasn't fallen: reset the controller */
    MSCP_LOST = 10,     /* the controller doesn't know the polled command: reset it */
    MSCP_MOVED_TOO_MUCH = 11, /* mscp_driver_hear: a command ended, and its end says that more bytes moved than it asked for */
    MSCP_REFUSED = 12,  /* the end of a poll, without a figure */
    MSCP_NOW_AVAILABLE = 13, /* a unit became available */
    MSCP_ATTENTION = 14, /* another attention message */
    MSCP_LOGGED = 15,   /* an error log */
    MSCP_CREDITS = 16,  /* credits, and nothing else */
    MSCP_POLL = 17,     /* mscp_driver_tick: poll the oldest command */
    MSCP_SILENT = 18,   /* no answer came for a timeout: reset the port */

    MSCP_SHORT = -1,        /* the message has under 12 bytes */
    MSCP_LONG = -2,         /* it has over 64 bytes */
    MSCP_NO_CREDIT = -3,    /* no credit is free */
    MSCP_LAST_CREDIT = -4,  /* one is free, which is kept for commands that are answered at once, as a poll */
    MSCP_DOUBLED = -5,      /* the reference number is outstanding */
    MSCP_NOT_BEGUN = -6,    /* mscp_finish: the command of that connection and number isn't begun, or not any more */
    MSCP_BAD_STATUS = -7,   /* mscp_finish, mscp_step: the block's is neither 0 nor one of low five bits 5 to 31 */
    MSCP_UNREADABLE = -8,   /* mscp_host_receive, mscp_read_end: the bytes are no end */
    MSCP_UNKNOWN = -9,      /* mscp_host_receive: the end of no outstanding command */

    MSCP_NOT_MADE = -10,    /* nothing was made in the handle's memory: init it first */
    MSCP_MADE = -11,        /* an init, if something is made: reset a controller, restore, or take a new handle */
    MSCP_NO_HANDLE = -12,   /* an init of what is no handle, or of one by the header of another version */
    MSCP_NO_MEMORY = -13,   /* an init: the handle or its memory is NULL */
    MSCP_MISALIGNED = -14,  /* an init: its address isn't a multiple of the alignment */
    MSCP_SMALL = -15,       /* it has fewer bytes than what is to be made, saved or written there takes */

    MSCP_CUT = -16,         /* mscp_driver_hear: there are fewer bytes than the envelope says */
    MSCP_OTHER_CONNECTION = -17, /* a message of another connection than the disks' */
    MSCP_BAD_KIND = -18,    /* a message of no known type */

    MSCP_BAD_PICKER = -20,    /* mscp_init: no enum mscp_picker */
    MSCP_ZERO_TRACK = -21,    /* the first unit that is refused has a track of no blocks */
    MSCP_ZERO_GROUP = -22,    /* a group of no tracks */
    MSCP_ZERO_CYLINDER = -23, /* a cylinder of no groups */
    MSCP_ZERO_SIZE = -24,     /* no blocks */
    MSCP_MANY_UNITS = -25,    /* there are more than 16 */
    MSCP_UNITS_FALL = -26,    /* a unit's number isn't above that of the one before it */
    MSCP_NO_UNITS = -27,      /* there is none */
    MSCP_BAD_CREDITS = -28,   /* the first's credits aren't 2 to 64, the second's are 1, or both have over 64 */
    MSCP_BAD_LONGEST = -29,   /* the longest transfer isn't 1 to 8388608 blocks */
    MSCP_BAD_TIMEOUT = -30,   /* the timeout isn't 1 to 255 seconds */
    MSCP_BAD_BOUND = -31,     /* the bound of figures doesn't fit 32 bits: see struct mscp_limits */

    MSCP_BAD_CONNECTION = -32, /* no enum mscp_connection */

    MSCP_BAD_BUS = -33,          /* mscp_port_init: no enum mscp_bus */
    MSCP_BAD_HOST_CREDITS = -34, /* mscp_port_init: the host's are 0, or not below those of the first connection */
    MSCP_BAD_OUTCOME = -35,      /* mscp_port_went, _went_by: no enum mscp_outcome, or a block's status of low five bits 0 to 4 */
    MSCP_UNASKED = -36,          /* the port didn't want what was reported */
    MSCP_UNKNOWN_UNIT = -37,     /* no unit has this number */
    MSCP_BAD_SIZE = -38,         /* mscp_port_volume_came: a volume without blocks, or with more than its unit has */

    MSCP_SAVED_LENGTH = -40,  /* a restore: the bytes aren't as many as they say */
    MSCP_SAVED_MAGIC = -41,   /* they don't begin with "MSCQ", "MSCH" for a host, "MSCP" for a port, "MSCD" for a driver */
    MSCP_SAVED_VERSION = -42, /* they are of a version of the format that isn't known */
    MSCP_SAVED_UNITS = -43,   /* they say units that no controller has */
    MSCP_SAVED_LIMITS = -44,  /* limits that no controller has, or credits that no host has */
    MSCP_SAVED_HEADS = -45,   /* a head on no cylinder of its unit */
    MSCP_SAVED_CREDITS = -46, /* more commands and ends than the credits of a connection cover */
    MSCP_SAVED_COMMAND = -47, /* a waiting command that would not wait */
    MSCP_SAVED_DOUBLED = -48, /* two of one connection and reference number */
    MSCP_SAVED_STEPS = -49,   /* one with no steps left, or two in service */
    MSCP_SAVED_PASSED = -50,  /* one that was passed by more blocks than the budget, or than an older one */
    MSCP_SAVED_ENDS = -51,    /* an end without an endcode */
    MSCP_SAVED_BEGUN = -52,   /* that a command is begun which doesn't wait, or may not be served */
    MSCP_SAVED_PICKER = -53,  /* no enum mscp_picker */
    MSCP_SAVED_FORM = -54,    /* they say what may be, but not as it is saved */
    MSCP_SAVED_POLL = -55,    /* a poll in flight, or a polled figure, that no host has */
    MSCP_SAVED_SIZE = -56,    /* what a port has in hand has a size that nothing in hand has */

    MSCP_SCRIPT_SIZE = -60,   /* mscp_run_script: the script has over 16777216 bytes */
    MSCP_SCRIPT_LINES = -61,  /* it is line 1000001 */
    MSCP_SCRIPT_LONG = -62,   /* the line has over 200 bytes */
    MSCP_SCRIPT_BYTE = -63,   /* a byte that is neither a space nor a printed ASCII character */
    MSCP_SCRIPT_WORD = -64,   /* its first word isn't one that may be there */
    MSCP_SCRIPT_COUNT = -65,  /* it has too few or too many words */
    MSCP_SCRIPT_NUMBER = -66, /* a number that isn't one of 1 to 10 digits, or out of its range */
    MSCP_SCRIPT_HEX = -67,    /* digits that aren't hexadecimal, or not as many as there may be */
    MSCP_SCRIPT_STATUS = -68, /* a bad block's status of low five bits 0 to 4 */
    MSCP_SCRIPT_UNIT = -69,   /* the unit is refused */
    MSCP_SCRIPT_CONFIG = -70, /* the limits are refused */
    MSCP_SCRIPT_HEADER = -71, /* the script ends before its header does */
    MSCP_SCRIPT_EVENTS = -72, /* the line brings the events over 1000000 */

    MSCP_WORD_HEX = -73,   /* mscp_show_packet: the word isn't an even number of hexadecimal digits */
    MSCP_WORD_SHORT = -74, /* a message of under 12 bytes */
    MSCP_WORD_LONG = -75,  /* one of over 64 */
    MSCP_WORD_CODE = -76,  /* an end of no endcode */
    MSCP_WORD_LENGTH = -77 /* an end that is shorter than its endcode says */
};

/* By which connection a host talks to the controller. Each has its own credits, ends and reference numbers. */
enum mscp_connection {
    MSCP_CONNECTION_FIRST = 0,
    MSCP_CONNECTION_SECOND = 1 /* only if the limits give it credits */
};

/* Which of the commands that may start is started. */
enum mscp_picker {
    MSCP_OLDEST = 0, /* the oldest */
    MSCP_SWEEP = 1   /* the one that costs the head the least: an elevator over all units */
};

/* The opcodes of the manual's commands: byte 8 of a message. docs/FORMATS.md says which a controller answers, which a port, and
 * which nobody. */
enum mscp_opcode {
    MSCP_ABORT = 1,
    MSCP_GET_COMMAND_STATUS = 2,
    MSCP_GET_UNIT_STATUS = 3,
    MSCP_SET_CONTROLLER_CHARACTERISTICS = 4,
    MSCP_AVAILABLE = 8,
    MSCP_ONLINE = 9,
    MSCP_SET_UNIT_CHARACTERISTICS = 10,
    MSCP_DETERMINE_ACCESS_PATHS = 11,
    MSCP_ACCESS = 16,
    MSCP_COMPARE_CONTROLLER_DATA = 17,
    MSCP_ERASE = 18,
    MSCP_FLUSH = 19,
    MSCP_REPLACE = 20,
    MSCP_FORMAT = 24,
    MSCP_COMPARE_HOST_DATA = 32,
    MSCP_READ = 33,
    MSCP_WRITE = 34
};

/* A command, by its fields. Those that its opcode doesn't have aren't looked at. */
struct mscp_command {
    uint32_t reference;
    uint32_t other;     /* of ABORT and GET COMMAND STATUS: the reference number of the command that it is about */
    uint32_t bytes;     /* of a transfer: how many, */
    uint32_t lbn;       /* from this block on, */
    uint32_t buffer;    /* and where in host memory: the first four bytes of its buffer descriptor */
    uint16_t unit;
    uint16_t modifiers;
    uint16_t version;   /* of SET CONTROLLER CHARACTERISTICS: that of MSCP, which is 0, */
    uint16_t flags;     /* the controller's, of which 0x80 asks for attention messages, */
    uint16_t timeout;   /* and the host's, in seconds, or 0 for none */
    uint8_t opcode;     /* an enum mscp_opcode, or another one that has none of these fields */
};

/* A unit. No size is 0. The host reads its identifiers. */
struct mscp_unit {
    uint64_t id;       /* of the unit */
    uint32_t size;     /* in blocks */
    uint32_t media;    /* the type of its media */
    uint32_t serial;   /* of its volume */
    uint16_t number;
    uint16_t track;    /* in blocks */
    uint16_t group;    /* in tracks */
    uint16_t cylinder; /* in groups */
};

/* The limits of a controller: no command waits for more than (credits - 1) * longest + budget steps, and with a second
 * connection for no more than (credits - 1 + second - 1) * longest + budget. If a later command of either connection
 * starts before a waiting one, that takes from the budget of the waiting one all the steps that the later one takes: one
 * for each of its blocks, and 1 if it has none. It may start only if no budget is overdrawn. With a budget of
 * (uint64_t)times * longest later commands may go first `times` times, each time with a longest transfer. */
struct mscp_limits {
    uint64_t id;      /* of the controller, which the host reads */
    uint64_t budget;  /* the blocks that later commands may have in all that start before a waiting command */
    uint32_t credits; /* of the first connection: commands that wait and ends that weren't taken, together: 2 to 64 */
    uint32_t second;  /* of the second: 2 to 62, or 0 if there is none. Both together have up to 64 */
    uint32_t longest; /* the longest transfer in blocks: 1 to 8388608 */
    uint16_t timeout; /* in seconds, which the host reads: 1 to 255 */
};

/* The bus of a port's host. */
enum mscp_bus {
    MSCP_BUS_Q = 0,  /* the Q-bus, with addresses of 22 bits */
    MSCP_BUS_UNI = 1 /* the Unibus, with addresses of 18 bits: drop all other bits of what a port names */
};

/* What a port says of itself. */
struct mscp_hardware {
    uint8_t bus;      /* an enum mscp_bus */
    uint8_t model;    /* the host reads its low seven bits: 19 is an RQDX3, 6 a UDA50 */
    uint8_t software; /* the version of its software, of which the host reads the low four bits */
    uint8_t version;  /* that of its hardware */
};

/* What is put into a unit. */
struct mscp_medium {
    uint32_t size;        /* in blocks: 1 to those of the unit */
    uint32_t media;       /* the type of its media, which the host reads */
    uint8_t is_protected; /* whether nothing may be written on it */
    uint8_t is_removable; /* whether it can be taken out, which the host reads */
};

/* What a port wants done. Its `address` and `count` are of host memory: `count` bytes from `address` on. */
enum mscp_action_kind {
    MSCP_ACTION_PAUSE = 1,     /* nothing, but the host is to go on a little: some hundred instructions */
    MSCP_ACTION_READ = 2,      /* hand those bytes to mscp_port_was_read */
    MSCP_ACTION_WRITE = 3,     /* write `bytes` there */
    MSCP_ACTION_INTERRUPT = 4, /* interrupt the host by `vector` */
    MSCP_ACTION_TRANSFER = 5   /* what `opcode` says with `block` of `unit`: MSCP_READ writes its first `count` bytes
                                * there, MSCP_WRITE writes those bytes to it, and zeros after them, and
                                * MSCP_COMPARE_HOST_DATA compares them with its first. MSCP_ACCESS reads the block,
                                * MSCP_ERASE writes zeros to it, and both touch no memory */
};

/* How far a port has come since its host wrote IP. */
enum mscp_stage {
    MSCP_STAGE_FIRST = 0,    /* the first step of the initialisation: the host is to write its first word to SA */
    MSCP_STAGE_WRAPPED = 1,  /* whatever the host writes to SA is shown there again */
    MSCP_STAGE_SECOND = 2,   /* the host is to write the low half of the base of its rings */
    MSCP_STAGE_THIRD = 3,    /* the high half */
    MSCP_STAGE_PURGING = 4,  /* the host is to write 0 to SA */
    MSCP_STAGE_PROBING = 5,  /* the host is to read IP */
    MSCP_STAGE_CLEARING = 6, /* the communication area is cleared */
    MSCP_STAGE_LAST = 7,     /* the host is to say go */
    MSCP_STAGE_UP = 8,       /* the rings are in use */
    MSCP_STAGE_DEAD = 9      /* a fatal error */
};

/* How an action went. */
enum mscp_outcome {
    MSCP_OUTCOME_DONE = 0,
    MSCP_OUTCOME_MISSING = 1,   /* not all of the host's memory is there */
    MSCP_OUTCOME_PARITY = 2,    /* the host's memory has a parity error */
    MSCP_OUTCOME_UNMAPPED = 3,  /* the bus maps no memory there */
    MSCP_OUTCOME_DIFFERENT = 4, /* the bytes that were compared differ */
    MSCP_OUTCOME_FAILED = 5     /* the block couldn't be read or written, and its command ends with the status beside it */
};

/* A handle on memory of yours: where it is, and what is in it. Nothing in it is for you, save if the memory moves:
 * see mscp_moved. */
struct mscp {
    MSCP_ALIGNED void *at;
    MSCP_ALIGNED uint64_t address;
    uint64_t length;
    uint64_t mark;
};
struct mscp_host {
    MSCP_ALIGNED void *at;
    MSCP_ALIGNED uint64_t address;
    uint64_t length;
    uint64_t mark;
};
struct mscp_port {
    MSCP_ALIGNED void *at;
    MSCP_ALIGNED uint64_t address;
    uint64_t length;
    uint64_t mark;
};

struct mscp_driver {
    MSCP_ALIGNED void *at;
    MSCP_ALIGNED uint64_t address;
    uint64_t length;
    uint64_t mark;
};

/* What calls answer. A flag ("whether ..") is 1 or 0. */

/* What became of a message. */
struct mscp_sent {
    uint32_t reference;  /* of its command */
    uint32_t aborted;    /* the reference number of the command that an ABORT ended */
    uint8_t has_aborted; /* whether it ended one */
};

/* A message or an end. */
struct mscp_packet {
    uint32_t length;                /* of its bytes */
    uint8_t bytes[MSCP_PACKET_MAX]; /* those after `length` are what they were */
};

/* An end, by its fields. Those that its endcode doesn't have are 0. */
struct mscp_end {
    uint64_t id;        /* of the unit, or of SET CONTROLLER CHARACTERISTICS that of the controller */
    uint32_t reference; /* of its command */
    uint32_t other;     /* of ABORT and GET COMMAND STATUS: the reference number of the command that it is about */
    uint32_t figure;    /* of GET COMMAND STATUS: that command's, in steps */
    uint32_t moved;     /* of a transfer: bytes of its good blocks */
    uint32_t media;     /* of GET UNIT STATUS, ONLINE and SET UNIT CHARACTERISTICS: the type of the unit's media */
    uint32_t size;      /* of the latter two: the unit's, in blocks, */
    uint32_t serial;    /* and its volume's serial number */
    uint16_t unit;
    uint16_t status;
    uint16_t track;     /* of GET UNIT STATUS: in blocks, */
    uint16_t group;     /* in tracks, */
    uint16_t cylinder;  /* and in groups */
    uint16_t timeout;   /* of SET CONTROLLER CHARACTERISTICS: the controller's, in seconds */
    uint8_t code;       /* its endcode */
};

/* What the next step serves. */
struct mscp_upcoming {
    uint64_t serial;    /* of a port's step, which mscp_port_next tells with a TRANSFER; 0 of a controller's */
    uint32_t reference; /* of the command */
    uint32_t bytes;     /* of a transfer in all, 0 of another command */
    uint32_t lbn;       /* the block that the step touches, if it touches one */
    uint32_t done;      /* the steps that the command had: this one's data begin 512 * done bytes into its buffer */
    uint32_t weight;    /* the steps that it takes in all */
    uint16_t unit;
    uint8_t opcode;
    uint8_t touches;    /* whether the step touches a block: with 0 bytes it touches the first, but moves nothing */
    uint8_t connection; /* of the command, an enum mscp_connection */
};

/* What a step did. */
struct mscp_report {
    uint32_t reference; /* of the command */
    uint32_t lbn;       /* the block that it touched, if it touched one */
    uint32_t seek;      /* cylinders that the head went */
    uint16_t unit;
    uint16_t status;    /* of the end, if the command ended */
    uint8_t touched;    /* whether it touched a block */
    uint8_t started;    /* whether it was the command's first step */
    uint8_t ended;      /* whether the command ended: its end can be taken */
    uint8_t connection; /* of the command, an enum mscp_connection */
};

/* A waiting command. */
struct mscp_waiting {
    uint32_t reference;
    uint32_t figure;    /* how many steps it may still wait, at most */
    uint8_t connection; /* that it came by, an enum mscp_connection */
};

/* A command that keeps another one back, in one of these ways or both. */
struct mscp_holder {
    uint32_t reference;
    uint8_t connection; /* that it came by, an enum mscp_connection */
    uint8_t fences;     /* whether both are of one unit, and one of them is sequential */
    uint8_t overdrawn;  /* whether it has less left of its budget than the other one takes */
};

/* What a received end says. MSCP_ENDED fills all fields but the figure, and MSCP_FIRST and MSCP_PROGRESS fill the
 * figure alone. Every other field is 0. */
struct mscp_news {
    uint32_t figure;    /* of the polled command, in steps */
    uint32_t reference; /* of the command that ended */
    uint32_t moved;     /* bytes of its good blocks, if it is a transfer */
    uint16_t unit;
    uint16_t status;
    uint8_t code;       /* its endcode */
};

/* What a message from a port says: of MSCP_ENDED and MSCP_MOVED_TOO_MUCH the end and what was asked, of MSCP_REFUSED the end, of
 * MSCP_FIRST and MSCP_PROGRESS the figure, of MSCP_NOW_AVAILABLE and MSCP_ATTENTION unit and code, of MSCP_CREDITS the credits. Every
 * other field is 0. */
struct mscp_heard {
    uint32_t figure;
    uint32_t reference; /* of the command that ended */
    uint32_t moved;     /* bytes of its good blocks, if it is a transfer */
    uint32_t asked;     /* bytes that it asked for */
    uint16_t unit;
    uint16_t status;
    uint8_t code;       /* its endcode, or the code of the attention message */
    uint8_t opcode;     /* of the command */
    uint8_t credits;
};

/* A command whose end wasn't heard. */
struct mscp_asked {
    uint32_t reference;
    uint16_t unit;
    uint8_t opcode;
    uint32_t bytes; /* that it asks for */
};

/* Counts the ticks of a driver's timer. Begin with {timeout, 0, 0}, and again after a reset. */
struct mscp_watch {
    uint32_t timeout; /* of the controller, in ticks */
    uint32_t waited;  /* for how many something has waited that wasn't polled */
    uint32_t silent;  /* for how many an answer is owed and none came */
};

/* What a port wants done. What its kind doesn't say is 0. */
struct mscp_action {
    uint64_t serial;   /* of TRANSFER: 1 or more, higher for each block that is begun, and the same for one that is wanted anew */
    uint32_t address;  /* in host memory, on the bus */
    uint32_t count;    /* how many bytes: at most 64 of READ and WRITE, and MSCP_BLOCK of TRANSFER */
    uint32_t block;    /* of TRANSFER */
    uint16_t unit;
    uint16_t vector;   /* of INTERRUPT */
    uint8_t kind;      /* an enum mscp_action_kind */
    uint8_t opcode;    /* of TRANSFER, an enum mscp_opcode */
    uint8_t bytes[64]; /* of WRITE `count`, and those after them are what they were */
};

/* What a port is. */
struct mscp_state {
    uint16_t word;        /* of WRAPPED the word that is shown, of DEAD the code of the error, and else 0 */
    uint8_t stage;        /* an enum mscp_stage */
    uint8_t is_held_back; /* whether something is to go out, and the next slot of the ring of responses was the host's */
};

/* What is in a unit. */
struct mscp_volume {
    uint32_t size;                /* in blocks, of what is there or was last; 0 if nothing was */
    uint32_t media;               /* and the type of its media */
    uint8_t is_there;             /* whether a volume is */
    uint8_t is_protected;         /* whether nothing may be written on it */
    uint8_t is_protected_by_host; /* whether its host said so */
    uint8_t is_online;            /* whether the unit is online with it */
    uint8_t is_removable;         /* whether it can be taken out, or what was there last could */
};

/* ---- memory */

/* How many bytes a controller, a host, a port or a driver's account takes in this library, and what its address is a multiple
 * of. malloc aligns so. */
size_t mscp_size(void);
size_t mscp_align(void);
size_t mscp_host_size(void);
size_t mscp_host_align(void);
size_t mscp_port_size(void);
size_t mscp_port_align(void);
size_t mscp_driver_size(void);
size_t mscp_driver_align(void);

/* No library that fits takes more, so memory may be there from the start, as
 * static MSCP_ALIGNED uint64_t memory[(MSCP_HEAD + MSCP_SIZE) / sizeof(uint64_t)]; */
#define MSCP_SIZE 17920u
#define MSCP_HOST_SIZE 1536u
#define MSCP_PORT_SIZE 20480u
#define MSCP_DRIVER_SIZE 3072u

/* Marks of handles on memory in which nothing was made yet. */
#define MSCP_ROOM UINT64_C(0x4D534350524F4F4D)
#define MSCP_HOST_ROOM UINT64_C(0x484F5354524F4F4D)
#define MSCP_PORT_ROOM UINT64_C(0x504F5254524F4F4D)
#define MSCP_DRIVER_ROOM UINT64_C(0x44525652524F4F4D)

/* A handle on memory that is yours, for an init. The handle lies where you put it. */
MSCP_INLINE struct mscp mscp_over(void *memory, size_t length)
{
    struct mscp handle = {memory, (uintptr_t)memory, length, MSCP_FITS() ? MSCP_ROOM : 0};
    MSCP_HERE();
    return handle;
}
MSCP_INLINE struct mscp_host mscp_host_over(void *memory, size_t length)
{
    struct mscp_host handle = {memory, (uintptr_t)memory, length, MSCP_FITS() ? MSCP_HOST_ROOM : 0};
    MSCP_HERE();
    return handle;
}
MSCP_INLINE struct mscp_port mscp_port_over(void *memory, size_t length)
{
    struct mscp_port handle = {memory, (uintptr_t)memory, length, MSCP_FITS() ? MSCP_PORT_ROOM : 0};
    MSCP_HERE();
    return handle;
}
MSCP_INLINE struct mscp_driver mscp_driver_over(void *memory, size_t length)
{
    struct mscp_driver handle = {memory, (uintptr_t)memory, length, MSCP_FITS() ? MSCP_DRIVER_ROOM : 0};
    MSCP_HERE();
    return handle;
}

/* A handle at the head of memory that is yours, whose own pointer then serves each call. A controller takes
 * MSCP_HEAD + mscp_size() bytes so. NULL, if the memory is NULL, isn't aligned, or has no room for a handle: mscp_init says
 * MSCP_NO_MEMORY then. A controller that is in the memory already is forgotten: this call takes the memory for room,
 * whatever lies there. */
MSCP_INLINE struct mscp *mscp_in_memory(void *memory, size_t length)
{
    if (memory == NULL || (uintptr_t)memory % MSCP_ALIGN != 0 || length < MSCP_HEAD)
        return NULL;
    *(struct mscp *)memory = mscp_over((char *)memory + MSCP_HEAD, length - MSCP_HEAD);
    return (struct mscp *)memory;
}
MSCP_INLINE struct mscp_host *mscp_host_in_memory(void *memory, size_t length)
{
    if (memory == NULL || (uintptr_t)memory % MSCP_ALIGN != 0 || length < MSCP_HEAD)
        return NULL;
    *(struct mscp_host *)memory = mscp_host_over((char *)memory + MSCP_HEAD, length - MSCP_HEAD);
    return (struct mscp_host *)memory;
}
MSCP_INLINE struct mscp_port *mscp_port_in_memory(void *memory, size_t length)
{
    if (memory == NULL || (uintptr_t)memory % MSCP_ALIGN != 0 || length < MSCP_HEAD)
        return NULL;
    *(struct mscp_port *)memory = mscp_port_over((char *)memory + MSCP_HEAD, length - MSCP_HEAD);
    return (struct mscp_port *)memory;
}
MSCP_INLINE struct mscp_driver *mscp_driver_in_memory(void *memory, size_t length)
{
    if (memory == NULL || (uintptr_t)memory % MSCP_ALIGN != 0 || length < MSCP_HEAD)
        return NULL;
    *(struct mscp_driver *)memory = mscp_driver_over((char *)memory + MSCP_HEAD, length - MSCP_HEAD);
    return (struct mscp_driver *)memory;
}

/* The memory with the handle at its head lies here now: whoever moved it calls this before any other call. Its
 * alignment is the same. A controller, a host and a port have no pointer into themselves, and the drive's work goes on:
 * mscp_begin or mscp_port_next answers it again. The first two fields of a handle that mscp_over made say where its
 * memory is. If you move that memory, set these two fields, and no other. */
MSCP_INLINE struct mscp *mscp_moved(void *memory)
{
    struct mscp *handle = (struct mscp *)memory;
    handle->at = (char *)memory + MSCP_HEAD;
    handle->address = (uintptr_t)handle->at;
    return handle;
}
MSCP_INLINE struct mscp_host *mscp_host_moved(void *memory)
{
    struct mscp_host *handle = (struct mscp_host *)memory;
    handle->at = (char *)memory + MSCP_HEAD;
    handle->address = (uintptr_t)handle->at;
    return handle;
}
MSCP_INLINE struct mscp_port *mscp_port_moved(void *memory)
{
    struct mscp_port *handle = (struct mscp_port *)memory;
    handle->at = (char *)memory + MSCP_HEAD;
    handle->address = (uintptr_t)handle->at;
    return handle;
}
MSCP_INLINE struct mscp_driver *mscp_driver_moved(void *memory)
{
    struct mscp_driver *handle = (struct mscp_driver *)memory;
    handle->at = (char *)memory + MSCP_HEAD;
    handle->address = (uintptr_t)handle->at;
    return handle;
}

/* The library's own form of the calls that are inline below: neither a handle nor a pointer to a list or to bytes is ever
 * NULL. In C call those without _at. */
int32_t mscp_init_at(struct mscp *mscp, const struct mscp_limits *limits, const struct mscp_unit *units, size_t count,
                     uint32_t picker);
int32_t mscp_send_at(struct mscp *mscp, uint32_t connection, const uint8_t *message, size_t length,
                     struct mscp_sent *sent);
int32_t mscp_look_at(const struct mscp *mscp, struct mscp_waiting *list, size_t room);
int32_t mscp_settings_at(const struct mscp *mscp, struct mscp_limits *limits, struct mscp_unit *units, size_t room);
int32_t mscp_why_at(const struct mscp *mscp, uint32_t connection, uint32_t reference, struct mscp_holder *list,
                    size_t room);
int32_t mscp_save_at(const struct mscp *mscp, uint8_t *bytes, size_t room, size_t *length);
int32_t mscp_restore_at(struct mscp *mscp, const uint8_t *bytes, size_t length);
int32_t mscp_host_init_at(struct mscp_host *host, uint32_t credits);
int32_t mscp_host_submit_at(struct mscp_host *host, const uint8_t *message, size_t length);
int32_t mscp_host_receive_at(struct mscp_host *host, const uint8_t *bytes, size_t length, struct mscp_news *news);
int32_t mscp_host_save_at(const struct mscp_host *host, uint8_t *bytes, size_t room, size_t *length);
int32_t mscp_host_restore_at(struct mscp_host *host, const uint8_t *bytes, size_t length);
int32_t mscp_driver_init_at(struct mscp_driver *driver);
int32_t mscp_driver_submit_at(struct mscp_driver *driver, const uint8_t *message, size_t length);
int32_t mscp_driver_hear_at(struct mscp_driver *driver, struct mscp_watch *watch, const uint8_t *bytes, size_t length,
                            struct mscp_heard *heard);
int32_t mscp_driver_outstanding_at(const struct mscp_driver *driver, struct mscp_asked *list, size_t room);
int32_t mscp_driver_save_at(const struct mscp_driver *driver, uint8_t *bytes, size_t room, size_t *length);
int32_t mscp_driver_restore_at(struct mscp_driver *driver, const uint8_t *bytes, size_t length);
int32_t mscp_port_init_at(struct mscp_port *port, const struct mscp_limits *limits, const struct mscp_unit *units,
                          size_t count, uint32_t picker, const struct mscp_hardware *hardware, uint32_t credits);
int32_t mscp_port_was_read_at(struct mscp_port *port, const uint8_t *bytes, size_t length);
int32_t mscp_port_settings_at(const struct mscp_port *port, struct mscp_limits *limits, struct mscp_unit *units,
                              size_t room);
int32_t mscp_port_look_at(const struct mscp_port *port, struct mscp_waiting *list, size_t room);
int32_t mscp_port_why_at(const struct mscp_port *port, uint32_t connection, uint32_t reference,
                         struct mscp_holder *list, size_t room);
int32_t mscp_port_save_at(const struct mscp_port *port, uint8_t *bytes, size_t room, size_t *length);
int32_t mscp_port_restore_at(struct mscp_port *port, const uint8_t *bytes, size_t length);
int32_t mscp_run_script_at(const uint8_t *script, size_t length, uint8_t *bytes, size_t room, size_t *count,
                           uint32_t *line);
int32_t mscp_show_packet_at(const uint8_t *word, size_t length, uint8_t *bytes, size_t room, size_t *count);
int32_t mscp_read_end_at(const uint8_t *bytes, size_t length, struct mscp_end *end);

/* ---- the controller. Each call but mscp_init and mscp_restore answers MSCP_NOT_MADE if there is none. Otherwise a
 * call that takes a connection answers MSCP_BAD_CONNECTION if its number is no enum mscp_connection, and changes
 * nothing. A second connection that has no credits takes no message in, and has no ends. */

/* Makes a controller in the handle's memory: of these limits, of `count` units in rising order of their numbers, served
 * by a picker of enum mscp_picker. MSCP_DONE, or the first fault in this order: those of the memory (-11 to -15),
 * MSCP_BAD_PICKER, MSCP_MANY_UNITS, those of the first unit that has one (-21 to -24), MSCP_UNITS_FALL, MSCP_NO_UNITS,
 * those of the limits (-28 to -31). This takes up to 8 KiB of the stack. No other call takes over 2, but for mscp_why with
 * up to 3, those that save and restore, and mscp_run_script.
 * On s390x and 32-bit x86 mscp.c may take 256 bytes more. No call is needed before you free the memory. */
MSCP_MUST_USE
MSCP_INLINE int32_t mscp_init(struct mscp *mscp, const struct mscp_limits *limits, const struct mscp_unit *units,
                              size_t count, uint32_t picker)
{
    const struct mscp_unit none = {0, 0, 0, 0, 0, 0, 0, 0};
    if (mscp == NULL)
        return MSCP_NO_MEMORY;
    return mscp_init_at(mscp, limits, count == 0 ? &none : units, count, picker);
}

/* Forgets all that came, as a reset of the port does: the controller is as new, with its limits, units and picker. Ends
 * that weren't taken are gone. MSCP_DONE. */
MSCP_MUST_USE int32_t mscp_reset(struct mscp *mscp);

/* Takes a message of the connection's host in. MSCP_QUEUED or MSCP_ANSWERED, and then `sent` is filled; or the first
 * that holds of MSCP_SHORT, MSCP_LONG, MSCP_NO_CREDIT, MSCP_LAST_CREDIT and MSCP_DOUBLED. A message that names no valid
 * command is no fault: it gets an end that says why. An ABORT and a GET COMMAND STATUS name a command of the same
 * connection. */
MSCP_MUST_USE
MSCP_INLINE int32_t mscp_send(struct mscp *mscp, uint32_t connection, const uint8_t *message, size_t length,
                              struct mscp_sent *sent)
{
    const uint8_t none = 0;
    if (mscp == NULL)
        return MSCP_NOT_MADE;
    return mscp_send_at(mscp, connection, length == 0 ? &none : message, length, sent);
}

/* Takes the connection's oldest end that wasn't taken, which frees its credit. MSCP_DONE, or MSCP_NOTHING if there
 * is none. */
MSCP_MUST_USE int32_t mscp_take(struct mscp *mscp, uint32_t connection, struct mscp_packet *end);

/* What the next step serves. MSCP_DONE, or MSCP_NOTHING if no command waits. The choice is kept: until a step, an
 * ABORT of that command or a reset this answers the same. It changes nothing that any other call answers. */
MSCP_MUST_USE int32_t mscp_begin(struct mscp *mscp, struct mscp_upcoming *upcoming);

/* The step of the command that is begun, if that is of this connection and has this reference number. Its block had
 * this status: 0 for a good one, and with another the command ends. MSCP_DONE, or the first that holds of
 * MSCP_BAD_STATUS and MSCP_NOT_BEGUN (the command isn't begun, or not any more). Have one block at a time in work: a
 * command is known by its connection and its number alone. */
MSCP_MUST_USE int32_t mscp_finish(struct mscp *mscp, uint32_t connection, uint32_t reference, uint16_t status,
                                  struct mscp_report *report);

/* mscp_begin and mscp_finish in one: serves what was begun, or what the picker picks. MSCP_DONE, or the first that
 * holds of MSCP_BAD_STATUS and MSCP_NOTHING (no command waits). */
MSCP_MUST_USE int32_t mscp_step(struct mscp *mscp, uint16_t status, struct mscp_report *report);

/* Lists the figures of the waiting commands of both connections, oldest first, as many as there is room for. It answers
 * how many commands wait: 0 to 63. */
MSCP_MUST_USE
MSCP_INLINE int64_t mscp_look(const struct mscp *mscp, struct mscp_waiting *list, size_t room)
{
    struct mscp_waiting none = {0, 0, 0};
    if (mscp == NULL)
        return MSCP_NOT_MADE;
    return mscp_look_at(mscp, room == 0 ? &none : list, room);
}

/* Lists the commands that keep the connection's waiting command of this reference number back, oldest first, as many as
 * there is room for. It answers how many keep it back: 0 to 62, and 0 too if no command of that number waits. While no
 * other command is in service, a command that nobody keeps back may start. For the command in service this lists those
 * that would keep it back if it had still to start. */
MSCP_MUST_USE
MSCP_INLINE int64_t mscp_why(const struct mscp *mscp, uint32_t connection, uint32_t reference,
                             struct mscp_holder *list, size_t room)
{
    struct mscp_holder none = {0, 0, 0, 0};
    if (mscp == NULL)
        return MSCP_NOT_MADE;
    return mscp_why_at(mscp, connection, reference, room == 0 ? &none : list, room);
}

/* How many steps the connection's waiting command of this reference number may still wait, at most; 0 if no command of
 * that number waits. */
int64_t mscp_figure(const struct mscp *mscp, uint32_t connection, uint32_t reference);

/* How many commands of the connection wait: 0 to 63. */
int64_t mscp_waiting(const struct mscp *mscp, uint32_t connection);

/* How many ends of the connection weren't taken: 0 to 64. */
int64_t mscp_untaken(const struct mscp *mscp, uint32_t connection);

/* How many credits of the connection are free: 0 to 64. */
int64_t mscp_balance(const struct mscp *mscp, uint32_t connection);

/* Whether the unit of this number is online: 1, or 0 if it isn't, or isn't configured. */
int32_t mscp_is_online(const struct mscp *mscp, uint16_t unit);

/* The limits of the controller, and its units, as many as there is room for: what it was made of, also if it was restored.
 * It answers how many units there are: 1 to 16. */
MSCP_MUST_USE
MSCP_INLINE int64_t mscp_settings(const struct mscp *mscp, struct mscp_limits *limits, struct mscp_unit *units,
                                  size_t room)
{
    struct mscp_unit none = {0, 0, 0, 0, 0, 0, 0, 0};
    if (mscp == NULL)
        return MSCP_NOT_MADE;
    return mscp_settings_at(mscp, limits, room == 0 ? &none : units, room);
}

/* ---- a controller as bytes */

/* As many bytes as this library saves a controller as, at most: no more than MSCP_SAVED_MAX. */
size_t mscp_save_size(void);

/* Writes all that the calls answer of the controller, and its limits, units and picker, as `*length` bytes to the front
 * of the room. docs/SAVED.md has their layout. MSCP_DONE, or MSCP_SMALL if the room has fewer bytes: `*length` is how many
 * they are then too, and nothing is written. The same state has the same bytes, on every machine. */
MSCP_MUST_USE
MSCP_INLINE int32_t mscp_save(const struct mscp *mscp, uint8_t *bytes, size_t room, size_t *length)
{
    uint8_t none = 0;
    if (mscp == NULL)
        return MSCP_NOT_MADE;
    return mscp_save_at(mscp, room == 0 ? &none : bytes, room, length);
}

/* Makes the controller that was saved, in the handle's memory, in place of the one that is made there, if one is: whatever is
 * called then answers as if it had been called there. MSCP_DONE, or the first fault of those of the memory (-12 to -15)
 * and those of the bytes (-40 to -54): then the one that is made there goes on. Bytes of a stranger make a controller with
 * which every call is safe, or none. Only whoever saved a controller knows what came to it before. This takes up to 18 KiB
 * of the stack, and mscp_save up to 12. */
MSCP_MUST_USE
MSCP_INLINE int32_t mscp_restore(struct mscp *mscp, const uint8_t *bytes, size_t length)
{
    const uint8_t none = 0;
    if (mscp == NULL)
        return MSCP_NO_MEMORY;
    return mscp_restore_at(mscp, length == 0 ? &none : bytes, length);
}

/* ---- the host's end. Each call but mscp_host_init and mscp_host_restore answers MSCP_NOT_MADE if there is none. */

/* Makes a host in the handle's memory, with as many credits as its connection has: 2 to 64. MSCP_DONE, or a fault of
 * the memory (-11 to -15), or MSCP_BAD_CREDITS. Do it anew (in fresh memory, or over a new handle) when the port is
 * reset. */
MSCP_MUST_USE
MSCP_INLINE int32_t mscp_host_init(struct mscp_host *host, uint32_t credits)
{
    if (host == NULL)
        return MSCP_NO_MEMORY;
    return mscp_host_init_at(host, credits);
}

/* How many credits are free: 0 to 64. */
int64_t mscp_host_balance(const struct mscp_host *host);

/* This message is to be sent. MSCP_DONE: send it; its command is outstanding from now on. Or the first that holds of
 * MSCP_SHORT, MSCP_LONG, MSCP_NO_CREDIT, MSCP_LAST_CREDIT and MSCP_DOUBLED: don't. */
MSCP_MUST_USE
MSCP_INLINE int32_t mscp_host_submit(struct mscp_host *host, const uint8_t *message, size_t length)
{
    const uint8_t none = 0;
    if (host == NULL)
        return MSCP_NOT_MADE;
    return mscp_host_submit_at(host, length == 0 ? &none : message, length);
}

/* The oldest command that isn't answered when it arrives is to be polled, by a GET COMMAND STATUS of this reference
 * number. MSCP_DONE: send `message`, which is outstanding from now on. MSCP_BUSY and MSCP_NOTHING: there is nothing to
 * send. Or MSCP_NO_CREDIT or MSCP_DOUBLED. */
MSCP_MUST_USE int32_t mscp_host_poll(struct mscp_host *host, uint32_t reference, struct mscp_packet *message);

/* An end was received. What it says is MSCP_ENDED to MSCP_LOST, and then `news` is filled and its command's credit is
 * free again; or MSCP_UNREADABLE or MSCP_UNKNOWN. */
MSCP_MUST_USE
MSCP_INLINE int32_t mscp_host_receive(struct mscp_host *host, const uint8_t *bytes, size_t length,
                                      struct mscp_news *news)
{
    const uint8_t none = 0;
    if (host == NULL)
        return MSCP_NOT_MADE;
    return mscp_host_receive_at(host, length == 0 ? &none : bytes, length, news);
}

/* As many bytes as this library saves a host as, at most: no more than MSCP_HOST_SAVED_MAX. */
size_t mscp_host_save_size(void);

/* All that the host keeps, as mscp_save does it of a controller. */
MSCP_MUST_USE
MSCP_INLINE int32_t mscp_host_save(const struct mscp_host *host, uint8_t *bytes, size_t room, size_t *length)
{
    uint8_t none = 0;
    if (host == NULL)
        return MSCP_NOT_MADE;
    return mscp_host_save_at(host, room == 0 ? &none : bytes, room, length);
}

/* Makes the host that was saved, as mscp_restore makes a controller. MSCP_DONE, or the first fault of those of the memory
 * (-12 to -15) and MSCP_SAVED_LENGTH, _MAGIC, _VERSION, _LIMITS, _CREDITS, _DOUBLED, _POLL and _FORM. This takes up to
 * 6 KiB of the stack, and mscp_host_save up to 3. */
MSCP_MUST_USE
MSCP_INLINE int32_t mscp_host_restore(struct mscp_host *host, const uint8_t *bytes, size_t length)
{
    const uint8_t none = 0;
    if (host == NULL)
        return MSCP_NO_MEMORY;
    return mscp_host_restore_at(host, length == 0 ? &none : bytes, length);
}

/* ---- commands and ends, by their fields */

/* The message of a command, of 12 to 32 bytes: what a controller reads in it is the command. MSCP_DONE. */
int32_t mscp_write_command(const struct mscp_command *command, struct mscp_packet *message);

/* What an end says. MSCP_DONE; or MSCP_UNREADABLE if there aren't 12 to 64 bytes, or fewer than its endcode has, or that isn't
 * 0x80, alone or with an enum mscp_opcode. */
MSCP_MUST_USE
MSCP_INLINE int32_t mscp_read_end(const uint8_t *bytes, size_t length, struct mscp_end *end)
{
    const uint8_t none = 0;
    return mscp_read_end_at(length == 0 ? &none : bytes, length, end);
}

/* ---- a driver's account of a real port. Each call but mscp_driver_init and mscp_driver_restore answers MSCP_NOT_MADE if there
 * is none. */

/* As mscp_host_init, with one credit. MSCP_DONE, or a fault of the memory (-11 to -15). */
MSCP_MUST_USE
MSCP_INLINE int32_t mscp_driver_init(struct mscp_driver *driver)
{
    if (driver == NULL)
        return MSCP_NO_MEMORY;
    return mscp_driver_init_at(driver);
}

/* How many credits are free: 0 to 65535. */
int64_t mscp_driver_credits(const struct mscp_driver *driver);

/* As mscp_host_submit. The command takes a credit. */
MSCP_MUST_USE
MSCP_INLINE int32_t mscp_driver_submit(struct mscp_driver *driver, const uint8_t *message, size_t length)
{
    const uint8_t none = 0;
    if (driver == NULL)
        return MSCP_NOT_MADE;
    return mscp_driver_submit_at(driver, length == 0 ? &none : message, length);
}

/* As mscp_host_poll. The poll takes a credit. */
MSCP_MUST_USE int32_t mscp_driver_poll(struct mscp_driver *driver, uint32_t reference, struct mscp_packet *message);

/* The port sent this: an envelope of four bytes, and its text. MSCP_ENDED to MSCP_CREDITS: `heard` is filled, `watch` knows of it,
 * and the credits of the envelope are free. Or MSCP_CUT, MSCP_OTHER_CONNECTION,
 * MSCP_BAD_KIND, MSCP_UNREADABLE or MSCP_UNKNOWN. */
MSCP_MUST_USE
MSCP_INLINE int32_t mscp_driver_hear(struct mscp_driver *driver, struct mscp_watch *watch, const uint8_t *bytes,
                                     size_t length, struct mscp_heard *heard)
{
    const uint8_t none = 0;
    if (driver == NULL)
        return MSCP_NOT_MADE;
    return mscp_driver_hear_at(driver, watch, length == 0 ? &none : bytes, length, heard);
}

/* A tick of the driver's timer: MSCP_POLL, MSCP_SILENT or MSCP_NOTHING. */
MSCP_MUST_USE int32_t mscp_driver_tick(const struct mscp_driver *driver, struct mscp_watch *watch);

/* The commands whose ends weren't heard, in the order of sending, as many as there is room for. How many there are: up to 64. */
MSCP_MUST_USE
MSCP_INLINE int32_t mscp_driver_outstanding(const struct mscp_driver *driver, struct mscp_asked *list, size_t room)
{
    struct mscp_asked none = {0, 0, 0, 0};
    if (driver == NULL)
        return MSCP_NOT_MADE;
    return mscp_driver_outstanding_at(driver, room == 0 ? &none : list, room);
}

/* As many bytes as this library saves an account as, at most: no more than MSCP_DRIVER_SAVED_MAX. */
size_t mscp_driver_save_size(void);

/* All that the account keeps, as mscp_save does it of a controller. Its watch is yours: three numbers. */
MSCP_MUST_USE
MSCP_INLINE int32_t mscp_driver_save(const struct mscp_driver *driver, uint8_t *bytes, size_t room, size_t *length)
{
    uint8_t none = 0;
    if (driver == NULL)
        return MSCP_NOT_MADE;
    return mscp_driver_save_at(driver, room == 0 ? &none : bytes, room, length);
}

/* Makes the account that was saved, in the handle's memory, as mscp_host_restore makes a host. This takes up to 20 KiB of
 * the stack, and mscp_driver_save up to 4. */
MSCP_MUST_USE
MSCP_INLINE int32_t mscp_driver_restore(struct mscp_driver *driver, const uint8_t *bytes, size_t length)
{
    const uint8_t none = 0;
    if (driver == NULL)
        return MSCP_NO_MEMORY;
    return mscp_driver_restore_at(driver, length == 0 ? &none : bytes, length);
}

/* ---- a port over a controller of its own. Each call but mscp_port_init and mscp_port_restore answers MSCP_NOT_MADE if
 * there is none. docs/PORT.md says how an emulator takes it in. */

/* Makes a port in the handle's memory, over a controller as mscp_init makes one. Its host may have `credits`
 * commands outstanding: 1 to one fewer than the first connection has. Its units have no volumes yet. MSCP_DONE, or the
 * first fault of those of mscp_init (-11 to -15 and -20 to -31), MSCP_BAD_BUS and MSCP_BAD_HOST_CREDITS. This takes up
 * to 8 KiB of the stack. No other call of a port takes over 2, but for mscp_port_why with up to 3, and those that save and
 * restore. */
MSCP_MUST_USE
MSCP_INLINE int32_t mscp_port_init(struct mscp_port *port, const struct mscp_limits *limits,
                                   const struct mscp_unit *units, size_t count, uint32_t picker,
                                   const struct mscp_hardware *hardware, uint32_t credits)
{
    const struct mscp_unit none = {0, 0, 0, 0, 0, 0, 0, 0};
    if (port == NULL)
        return MSCP_NO_MEMORY;
    return mscp_port_init_at(port, limits, count == 0 ? &none : units, count, picker, hardware, credits);
}

/* The host reads IP, the first register, which shows 0. MSCP_DONE. */
int32_t mscp_port_read_ip(struct mscp_port *port);

/* The host writes IP, whatever it writes there, or its bus is reset: the port forgets all that its host has said, and
 * what is in work, and is in the first step of its initialisation. Volumes stay. MSCP_DONE. */
int32_t mscp_port_write_ip(struct mscp_port *port);

/* What SA shows, the second register: 0 to 65535. */
int32_t mscp_port_read_sa(const struct mscp_port *port);

/* The host writes this word to SA. MSCP_DONE. */
int32_t mscp_port_write_sa(struct mscp_port *port, uint16_t word);

/* What the port wants done next. MSCP_DONE, or MSCP_NOTHING until a register is touched, a volume comes or goes, the
 * clock ticks, or it is to look again. Until you report how its action went the port answers the same, unless a
 * register is touched, a volume comes, goes, or is protected or no more, the clock ticks, the port is to look again, or messages
 * alone are asked for. The processor may run meanwhile: if the port no longer wants the action, a report of it is answered by
 * MSCP_UNASKED: ask again. The same holds of a block if a volume
 * changed: the port wants the block once more, or its command ends. */
MSCP_MUST_USE int32_t mscp_port_next(struct mscp_port *port, struct mscp_action *action);

/* What the port wants done next while a block takes its time: polls are answered, messages come and go, and no block is
 * begun. A TRANSFER that was in hand is put aside, and mscp_port_next wants it anew. So an emulator that mscp_port_next asks for a
 * block may go on by this call until the block's time has come. Then it asks mscp_port_next, and does the block if that wants it
 * with the same serial. Otherwise this is like mscp_port_next. */
MSCP_MUST_USE int32_t mscp_port_next_message(struct mscp_port *port, struct mscp_action *action);

/* These bytes were read in host memory, as the port wanted: just as many. MSCP_DONE, or MSCP_UNASKED. */
MSCP_MUST_USE
MSCP_INLINE int32_t mscp_port_was_read(struct mscp_port *port, const uint8_t *bytes, size_t length)
{
    const uint8_t none = 0;
    if (port == NULL)
        return MSCP_NOT_MADE;
    return mscp_port_was_read_at(port, length == 0 ? &none : bytes, length);
}

/* What the port wanted went so, by an enum mscp_outcome. The status counts for MSCP_OUTCOME_FAILED alone: low five bits of 5
 * to 31. A read that was done is reported by mscp_port_was_read. MSCP_DONE, or the first that holds of MSCP_BAD_OUTCOME and
 * MSCP_UNASKED. */
MSCP_MUST_USE int32_t mscp_port_went(struct mscp_port *port, uint32_t outcome, uint16_t status);

/* The block of this serial went so, which mscp_port_next told: for a disk that takes its time. The port hears of it exactly if it
 * wants that block now. Otherwise nothing changes, and the answer is MSCP_UNASKED: its command was aborted, say, and another one has
 * its number; or messages alone were asked for, and mscp_port_next hasn't told the block again. MSCP_DONE, or the first that
 * holds of MSCP_BAD_OUTCOME and MSCP_UNASKED. */
MSCP_MUST_USE int32_t mscp_port_went_by(struct mscp_port *port, uint64_t serial, uint32_t outcome, uint16_t status);

/* The port looks again whether its host has given slots for ends back, since the host doesn't say so. Call this when
 * the machine has time for the disk. MSCP_DONE. */
int32_t mscp_port_look_again(struct mscp_port *port);

/* A second went by. The port looks again, too, and takes a host that was silent for too long for dead. MSCP_DONE. */
int32_t mscp_port_tick(struct mscp_port *port);

/* A volume came into a unit, in place of one that was there. It may have fewer blocks than the unit, and media of another
 * type. The host reads the volume's, and transfers past its end are refused. MSCP_DONE, MSCP_UNKNOWN_UNIT or
 * MSCP_BAD_SIZE. */
MSCP_MUST_USE int32_t mscp_port_volume_came(struct mscp_port *port, uint16_t unit, const struct mscp_medium *medium);

/* The volume of a unit went. MSCP_DONE, or MSCP_UNKNOWN_UNIT. */
MSCP_MUST_USE int32_t mscp_port_volume_went(struct mscp_port *port, uint16_t unit);

/* Nothing may be written on the volume of a unit from now on, or with 0 something may again. It stays the same volume to
 * its host. Of a unit without a volume nothing is kept. MSCP_DONE, or MSCP_UNKNOWN_UNIT. */
MSCP_MUST_USE int32_t mscp_port_protect(struct mscp_port *port, uint16_t unit, uint32_t is_protected);

/* What kind of port it is, as it was told as it was made, also if it was restored. MSCP_DONE. */
MSCP_MUST_USE int32_t mscp_port_hardware(const struct mscp_port *port, struct mscp_hardware *hardware);

/* How far the port has come. If it answered MSCP_NOTHING and is held back, it is to look again: its host doesn't say that it
 * has given a slot of the ring of responses back. If it isn't, it waits for a register, a volume or the clock. MSCP_DONE. */
MSCP_MUST_USE int32_t mscp_port_state(const struct mscp_port *port, struct mscp_state *state);

/* What is in a unit. MSCP_DONE, or MSCP_UNKNOWN_UNIT. */
MSCP_MUST_USE int32_t mscp_port_volume(const struct mscp_port *port, uint16_t unit, struct mscp_volume *volume);

/* The step that is begun: if the port wants a block moved, its command and its block, with its serial. Its first block has
 * `done` 0, and its last one `done + 1 == weight`. MSCP_DONE, or MSCP_NOTHING if none is begun. */
MSCP_MUST_USE int32_t mscp_port_begun(const struct mscp_port *port, struct mscp_upcoming *upcoming);

/* The limits and units of the port's controller, as mscp_settings writes them. */
MSCP_MUST_USE
MSCP_INLINE int64_t mscp_port_settings(const struct mscp_port *port, struct mscp_limits *limits,
                                       struct mscp_unit *units, size_t room)
{
    struct mscp_unit none = {0, 0, 0, 0, 0, 0, 0, 0};
    if (port == NULL)
        return MSCP_NOT_MADE;
    return mscp_port_settings_at(port, limits, room == 0 ? &none : units, room);
}

/* The commands that wait in the port's controller, as mscp_look lists them, and who keeps one of them back, as mscp_why does.
 * The host's are those of the first connection. */
MSCP_MUST_USE
MSCP_INLINE int64_t mscp_port_look(const struct mscp_port *port, struct mscp_waiting *list, size_t room)
{
    struct mscp_waiting none = {0, 0, 0};
    if (port == NULL)
        return MSCP_NOT_MADE;
    return mscp_port_look_at(port, room == 0 ? &none : list, room);
}
MSCP_MUST_USE
MSCP_INLINE int64_t mscp_port_why(const struct mscp_port *port, uint32_t connection, uint32_t reference,
                                  struct mscp_holder *list, size_t room)
{
    struct mscp_holder none = {0, 0, 0, 0};
    if (port == NULL)
        return MSCP_NOT_MADE;
    return mscp_port_why_at(port, connection, reference, room == 0 ? &none : list, room);
}

/* An address of a port's action, as a bus of this enum mscp_bus has it: its low 22 bits on the Q-bus, and 18 on the Unibus.
 * What lies there, and whether anything does, is the machine's to say. */
MSCP_INLINE uint32_t mscp_on_bus(uint8_t bus, uint32_t address)
{
    return address & (bus == MSCP_BUS_UNI ? UINT32_C(0x3FFFF) : UINT32_C(0x3FFFFF));
}

/* As many bytes as this library saves a port as, at most: no more than MSCP_PORT_SAVED_MAX. */
size_t mscp_port_save_size(void);

/* All of the port, as mscp_save does it of a controller, which is in it. What it wants stays wanted: report how that went
 * after a restore, or ask again. */
MSCP_MUST_USE
MSCP_INLINE int32_t mscp_port_save(const struct mscp_port *port, uint8_t *bytes, size_t room, size_t *length)
{
    uint8_t none = 0;
    if (port == NULL)
        return MSCP_NOT_MADE;
    return mscp_port_save_at(port, room == 0 ? &none : bytes, room, length);
}

/* Makes the port that was saved, as mscp_restore makes a controller: it goes on as it would have there. MSCP_DONE, or the
 * first fault of those of the memory (-12 to -15) and those of the bytes (-40 to -54 and MSCP_SAVED_SIZE), which may be those
 * of its controller's. Bytes of a stranger make a port with which every call is safe, and which moves only blocks that its units
 * have, or none. Its serials go on behind the one that was saved, and may be those of blocks that a disk is still at. This takes up
 * to 18 KiB of the stack, and mscp_port_save up to 36. */
MSCP_MUST_USE
MSCP_INLINE int32_t mscp_port_restore(struct mscp_port *port, const uint8_t *bytes, size_t length)
{
    const uint8_t none = 0;
    if (port == NULL)
        return MSCP_NO_MEMORY;
    return mscp_port_restore_at(port, length == 0 ? &none : bytes, length);
}

/* ---- scripts. docs/FORMATS.md says what is in one, and what its report has. */

/* Runs a script of `length` bytes through a controller of its own, as the program mscpq does, and writes the report to the
 * front of the room, of `*count` bytes. MSCP_DONE; MSCP_SMALL, if the room has fewer than twice as many bytes as the
 * report; or, in any room, MSCP_SCRIPT_SIZE to _EVENTS, what is wrong in line `*line`, the first in which something is.
 * Whatever it answers, all of the room may be written over. This takes up to 40 KiB of the stack. */
MSCP_MUST_USE
MSCP_INLINE int32_t mscp_run_script(const uint8_t *script, size_t length, uint8_t *bytes, size_t room, size_t *count,
                                    uint32_t *line)
{
    uint8_t none = 0;
    return mscp_run_script_at(length == 0 ? &none : script, length, room == 0 ? &none : bytes, room, count, line);
}

/* Writes what a message says, whose hexadecimal digits are a word of `length` bytes, as `mscpq packet` does: a line of
 * `*count` bytes at the front of the room. MSCP_DONE; MSCP_SMALL, if the room has fewer than twice as many bytes as the
 * line; or MSCP_WORD_HEX to _LENGTH. Whatever it answers, all of the room may be written over. */
MSCP_MUST_USE
MSCP_INLINE int32_t mscp_show_packet(const uint8_t *word, size_t length, uint8_t *bytes, size_t room, size_t *count)
{
    uint8_t none = 0;
    return mscp_show_packet_at(length == 0 ? &none : word, length, room == 0 ? &none : bytes, room, count);
}

/* ---- statuses as texts */

/* What a status says, for people. */
MSCP_INLINE const char *mscp_status_text(int64_t status)
{
    switch (status) {
    case MSCP_NOTHING: return "there is nothing";
    case MSCP_DONE: return "done";
    case MSCP_QUEUED: return "the command waits for steps";
    case MSCP_ANSWERED: return "the command's end is there";
    case MSCP_BUSY: return "the end of the last poll is still to come";
    case MSCP_ENDED: return "a command ended";
    case MSCP_FIRST: return "the first figure of the polled command";
    case MSCP_PROGRESS: return "the figure has fallen";
    case MSCP_LATE: return "the polled command has ended in the meantime";
    case MSCP_NO_PROGRESS: return "the figure hasn't fallen";
    case MSCP_LOST: return "the controller doesn't know the polled command";
    case MSCP_SHORT: return "a message of under 12 bytes";
    case MSCP_LONG: return "a message of over 64 bytes";
    case MSCP_NO_CREDIT: return "no credit is free";
    case MSCP_LAST_CREDIT: return "the last credit is kept for commands that are answered at once";
    case MSCP_DOUBLED: return "the reference number is outstanding";
    case MSCP_NOT_BEGUN: return "the command isn't begun";
    case MSCP_BAD_STATUS: return "no status of a block";
    case MSCP_UNREADABLE: return "the bytes are no end";
    case MSCP_UNKNOWN: return "the end of no outstanding command";
    case MSCP_NOT_MADE: return "nothing was made in the memory";
    case MSCP_MADE: return "something was made in the memory already";
    case MSCP_NO_HANDLE: return "no handle, or one of another version";
    case MSCP_NO_MEMORY: return "the handle or its memory is NULL";
    case MSCP_MISALIGNED: return "the memory is misaligned";
    case MSCP_SMALL: return "the memory is too small";
    case MSCP_BAD_PICKER: return "no picker of this number";
    case MSCP_ZERO_TRACK: return "a track of no blocks";
    case MSCP_ZERO_GROUP: return "a group of no tracks";
    case MSCP_ZERO_CYLINDER: return "a cylinder of no groups";
    case MSCP_ZERO_SIZE: return "a unit of no blocks";
    case MSCP_MANY_UNITS: return "more than 16 units";
    case MSCP_UNITS_FALL: return "units whose numbers don't rise";
    case MSCP_NO_UNITS: return "no unit";
    case MSCP_BAD_CREDITS: return "credits that aren't 2 to 64, or over 64 of both connections";
    case MSCP_BAD_LONGEST: return "a longest transfer that isn't 1 to 8388608 blocks";
    case MSCP_BAD_TIMEOUT: return "a timeout that isn't 1 to 255 seconds";
    case MSCP_BAD_BOUND: return "a bound of figures that doesn't fit 32 bits";
    case MSCP_BAD_CONNECTION: return "no connection of this number";
    case MSCP_BAD_BUS: return "no bus of this number, or another one";
    case MSCP_MOVED_TOO_MUCH: return "a command ended with more bytes than it asked for";
    case MSCP_REFUSED: return "the end of a poll without a figure";
    case MSCP_NOW_AVAILABLE: return "a unit became available";
    case MSCP_ATTENTION: return "an attention message";
    case MSCP_LOGGED: return "an error log";
    case MSCP_CREDITS: return "credits";
    case MSCP_POLL: return "poll the oldest command";
    case MSCP_SILENT: return "no answer for a timeout: reset the port";
    case MSCP_CUT: return "fewer bytes than the envelope says";
    case MSCP_OTHER_CONNECTION: return "a message of another connection";
    case MSCP_BAD_KIND: return "a message of no known type";
    case MSCP_BAD_HOST_CREDITS: return "a port's host without credits, or with as many as the first connection";
    case MSCP_BAD_OUTCOME: return "no outcome of an action";
    case MSCP_UNASKED: return "the port didn't want what was reported";
    case MSCP_UNKNOWN_UNIT: return "no unit of this number";
    case MSCP_BAD_SIZE: return "a volume without blocks, or with more than its unit";
    case MSCP_SAVED_LENGTH: return "saved bytes that aren't as many as they say";
    case MSCP_SAVED_MAGIC: return "bytes that don't begin as saved ones";
    case MSCP_SAVED_VERSION: return "saved bytes of an unknown version";
    case MSCP_SAVED_LIMITS: return "saved limits that nothing has";
    case MSCP_SAVED_UNITS: return "saved units that no controller has";
    case MSCP_SAVED_HEADS: return "a saved head on no cylinder";
    case MSCP_SAVED_CREDITS: return "more saved commands and ends than credits cover";
    case MSCP_SAVED_COMMAND: return "a saved command that would not wait";
    case MSCP_SAVED_DOUBLED: return "two saved commands of one number";
    case MSCP_SAVED_STEPS: return "a saved command with no steps left, or two in service";
    case MSCP_SAVED_PASSED: return "a saved command that was passed too often";
    case MSCP_SAVED_ENDS: return "a saved end without an endcode";
    case MSCP_SAVED_BEGUN: return "a saved command that may not be begun";
    case MSCP_SAVED_PICKER: return "no picker of the saved number";
    case MSCP_SAVED_FORM: return "bytes that nothing is saved as";
    case MSCP_SAVED_POLL: return "a saved poll that no host has";
    case MSCP_SAVED_SIZE: return "a saved port with a size that none has";
    case MSCP_SCRIPT_SIZE: return "a script of over 16777216 bytes";
    case MSCP_SCRIPT_LINES: return "over 1000000 lines";
    case MSCP_SCRIPT_LONG: return "a line of over 200 bytes";
    case MSCP_SCRIPT_BYTE: return "a byte that may not be in a line";
    case MSCP_SCRIPT_WORD: return "a first word that may not be there";
    case MSCP_SCRIPT_COUNT: return "too few or too many words";
    case MSCP_SCRIPT_NUMBER: return "a number that isn't one, or out of its range";
    case MSCP_SCRIPT_HEX: return "no hexadecimal digits, or not as many as may be";
    case MSCP_SCRIPT_STATUS: return "no status of a bad block";
    case MSCP_SCRIPT_UNIT: return "a unit that is refused";
    case MSCP_SCRIPT_CONFIG: return "limits that are refused";
    case MSCP_SCRIPT_HEADER: return "a script that ends before its header";
    case MSCP_SCRIPT_EVENTS: return "over 1000000 events";
    case MSCP_WORD_HEX: return "no even number of hexadecimal digits";
    case MSCP_WORD_SHORT: return "a packet of under 12 bytes";
    case MSCP_WORD_LONG: return "a packet of over 64 bytes";
    case MSCP_WORD_CODE: return "an end of no endcode";
    case MSCP_WORD_LENGTH: return "an end that is too short";
    default: return "unknown status";
    }
}

/* ---- messages as texts */

/* What the manual calls a command of this opcode, for people. */
MSCP_INLINE const char *mscp_opcode_text(uint8_t opcode)
{
    switch (opcode) {
    case MSCP_ABORT: return "ABORT";
    case MSCP_GET_COMMAND_STATUS: return "GET COMMAND STATUS";
    case MSCP_GET_UNIT_STATUS: return "GET UNIT STATUS";
    case MSCP_SET_CONTROLLER_CHARACTERISTICS: return "SET CONTROLLER CHARACTERISTICS";
    case MSCP_AVAILABLE: return "AVAILABLE";
    case MSCP_ONLINE: return "ONLINE";
    case MSCP_SET_UNIT_CHARACTERISTICS: return "SET UNIT CHARACTERISTICS";
    case MSCP_DETERMINE_ACCESS_PATHS: return "DETERMINE ACCESS PATHS";
    case MSCP_ACCESS: return "ACCESS";
    case MSCP_COMPARE_CONTROLLER_DATA: return "COMPARE CONTROLLER DATA";
    case MSCP_ERASE: return "ERASE";
    case MSCP_FLUSH: return "FLUSH";
    case MSCP_REPLACE: return "REPLACE";
    case MSCP_FORMAT: return "FORMAT";
    case MSCP_COMPARE_HOST_DATA: return "COMPARE HOST DATA";
    case MSCP_READ: return "READ";
    case MSCP_WRITE: return "WRITE";
    case 47: return "FORMAT"; /* as SIMH's disk numbers it */
    default: return "command of an unknown opcode";
    }
}

/* Words for the status of an end, bytes 10 and 11: the manual's name of its code, and what its sub-code says if it has words. */
MSCP_INLINE const char *mscp_status_words(uint16_t status)
{
    switch (status) {
    case 0x0100: return "Success: already online";
    case 0x0001: return "Invalid Command: message length";
    case 0x0801: return "Invalid Command: opcode";
    case 0x0C01: return "Invalid Command: byte count, or MSCP version";
    case 0x1C01: return "Invalid Command: logical block number";
    case 0x0003: return "Unit-Offline: unknown unit";
    case 0x0023: return "Unit-Offline: no volume";
    case 0x1006: return "Write Protected: by software";
    case 0x2006: return "Write Protected: by hardware";
    case 0x0029: return "Host Buffer Access Error: odd transfer address";
    case 0x0049: return "Host Buffer Access Error: odd byte count";
    case 0x0069: return "Host Buffer Access Error: non-existent memory";
    case 0x0089: return "Host Buffer Access Error: memory parity error";
    case 0x00A9: return "Host Buffer Access Error: invalid page table entry";
    default: break;
    }
    switch (status % 32) {
    case 0: return "Success";
    case 1: return "Invalid Command";
    case 2: return "Command Aborted";
    case 3: return "Unit-Offline";
    case 4: return "Unit-Available";
    case 5: return "Media Format Error";
    case 6: return "Write Protected";
    case 7: return "Compare Error";
    case 8: return "Data Error";
    case 9: return "Host Buffer Access Error";
    case 10: return "Controller Error";
    case 11: return "Drive Error";
    default: return "unknown status";
    }
}

#ifdef __cplusplus
}
#endif
#endif
