/* Ports of mscp.h: how one is made, of which numbers and in which memory, and where it goes. Prints what is wrong, and
 * ends with 1 where something is. */
#include "trying.h"
#include <stdbool.h>

static const struct mscp_unit UNIT = {1, 1000, 0, 1, 0, 10, 2, 1};
static const struct mscp_limits LIMITS = {1, 16, 5, 0, 8, 60};
static const struct mscp_hardware HARDWARE = {MSCP_BUS_Q, 19, 3, 1};

static int32_t init(struct mscp_port *port)
{
    return mscp_port_init(port, &LIMITS, &UNIT, 1, MSCP_SWEEP, &HARDWARE, 4);
}

/* Each number that a port has none of, the first of them that counts, and then the numbers that it has. */
static void wrong_numbers(void)
{
    size_t size = MSCP_HEAD + mscp_port_size();
    void *memory = memory_of(size);
    struct mscp_port *port = mscp_port_in_memory(memory, size);
    const struct mscp_limits none = {1, 16, 1, 0, 8, 60}, most = {1, 16, 64, 0, 8, 60};
    const struct mscp_unit no_track = {1, 1000, 0, 1, 0, 0, 2, 1};
    const struct mscp_hardware no_bus = {2, 19, 3, 1};
    is("no picker", mscp_port_init(port, &none, &no_track, 1, 2, &no_bus, 0), MSCP_BAD_PICKER);
    is("no track", mscp_port_init(port, &none, &no_track, 1, 0, &no_bus, 0), MSCP_ZERO_TRACK);
    is("no unit", mscp_port_init(port, &none, NULL, 0, 0, &no_bus, 0), MSCP_NO_UNITS);
    is("one credit", mscp_port_init(port, &none, &UNIT, 1, 0, &no_bus, 0), MSCP_BAD_CREDITS);
    is("no bus", mscp_port_init(port, &LIMITS, &UNIT, 1, 0, &no_bus, 0), MSCP_BAD_BUS);
    is("no command", mscp_port_init(port, &LIMITS, &UNIT, 1, 0, &HARDWARE, 0), MSCP_BAD_HOST_CREDITS);
    is("all credits", mscp_port_init(port, &LIMITS, &UNIT, 1, 0, &HARDWARE, 5), MSCP_BAD_HOST_CREDITS);
    is("more than a byte", mscp_port_init(port, &LIMITS, &UNIT, 1, 0, &HARDWARE, 260), MSCP_BAD_HOST_CREDITS);
    is("64", mscp_port_init(port, &most, &UNIT, 1, 0, &HARDWARE, 64), MSCP_BAD_HOST_CREDITS);
    is("nothing was made", mscp_port_read_sa(port), MSCP_NOT_MADE);
    is("63", mscp_port_init(port, &most, &UNIT, 1, MSCP_OLDEST, &HARDWARE, 63), MSCP_DONE);
    is("twice", init(port), MSCP_MADE);
    is("it is there", mscp_port_read_sa(port), 0x0B40);
    free(memory);
}

/* Nothing is written where there is no port. */
static void calls_before_init(void)
{
    size_t size = MSCP_HEAD + mscp_port_size();
    void *memory = memory_of(size), *same = memory_of(size);
    struct mscp_port *port = mscp_port_in_memory(memory, size);
    struct mscp_action out, before;
    struct mscp_state state = {7, 7, 7};
    struct mscp_hardware hardware = {7, 7, 7, 7};
    struct mscp_volume volume;
    const struct mscp_medium medium = {0};
    struct mscp_upcoming begun;
    uint8_t bytes[4] = {0};
    memcpy(same, memory, size);
    memset(&out, 0xA5, sizeof out);
    memset(&before, 0xA5, sizeof before);
    memset(&volume, 7, sizeof volume);
    memset(&begun, 7, sizeof begun);
    is("read_ip", mscp_port_read_ip(port), MSCP_NOT_MADE);
    is("write_ip", mscp_port_write_ip(port), MSCP_NOT_MADE);
    is("read_sa", mscp_port_read_sa(port), MSCP_NOT_MADE);
    is("write_sa", mscp_port_write_sa(port, 0x8000), MSCP_NOT_MADE);
    is("next", mscp_port_next(port, &out), MSCP_NOT_MADE);
    is("next_message", mscp_port_next_message(port, &out), MSCP_NOT_MADE);
    is("was_read", mscp_port_was_read(port, bytes, 4), MSCP_NOT_MADE);
    is("went", mscp_port_went(port, MSCP_OUTCOME_DONE, 0), MSCP_NOT_MADE);
    is("look_again", mscp_port_look_again(port), MSCP_NOT_MADE);
    is("tick", mscp_port_tick(port), MSCP_NOT_MADE);
    is("volume_came", mscp_port_volume_came(port, 0, &medium), MSCP_NOT_MADE);
    is("volume_went", mscp_port_volume_went(port, 0), MSCP_NOT_MADE);
    is("protect", mscp_port_protect(port, 0, 1), MSCP_NOT_MADE);
    is("hardware", mscp_port_hardware(port, &hardware), MSCP_NOT_MADE);
    is("state", mscp_port_state(port, &state), MSCP_NOT_MADE);
    is("volume", mscp_port_volume(port, 0, &volume), MSCP_NOT_MADE);
    is("begun", mscp_port_begun(port, &begun), MSCP_NOT_MADE);
    is("look", mscp_port_look(port, NULL, 0), MSCP_NOT_MADE);
    is("why", mscp_port_why(port, FIRST, 1, NULL, 0), MSCP_NOT_MADE);
    is("what is told", memcmp(&out, &before, sizeof out), 0);
    is("what is seen", state.stage == 7 && hardware.bus == 7 && volume.is_there == 7 && begun.opcode == 7, 1);
    is("the memory", memcmp(memory, same, size), 0);
    free(memory);
    free(same);
}

/* What a handle says of its memory, and what of that is no room. */
static void memory_of_ports(void)
{
    size_t size = mscp_port_size();
    char *memory = (char *)memory_of(MSCP_HEAD + size + 8);
    const struct {
        void *memory;
        size_t less; /* than the size */
        int32_t status;
    } cases[] = {
        {NULL, 0, MSCP_NO_MEMORY},         {memory + 1, 0, MSCP_MISALIGNED}, {memory + 4, 0, MSCP_MISALIGNED},
        {memory, 1, MSCP_SMALL},           {memory, 8, MSCP_SMALL},          {memory, 0, MSCP_DONE},
    };
    is("a size that is known", MSCP_PORT_SIZE >= size && mscp_port_align() == 8, 1);
    for (size_t i = 0; i < COUNT(cases); i++) {
        struct mscp_port over = mscp_port_over(cases[i].memory, size - cases[i].less);
        is("a handle", over.at == cases[i].memory && over.address == (uintptr_t)cases[i].memory, 1);
        is("its length and mark", over.length == size - cases[i].less && over.mark == MSCP_PORT_ROOM, 1);
        is("beside its memory", init(&over), cases[i].status);
        struct mscp_port *head = mscp_port_in_memory(cases[i].memory, MSCP_HEAD + size - cases[i].less);
        const int is_there = cases[i].status == MSCP_SMALL || cases[i].status == MSCP_DONE;
        is("a head", head != NULL, is_there);
        is("at its head", init(head), is_there ? cases[i].status : MSCP_NO_MEMORY);
        if (is_there)
            is("it is there", mscp_port_read_sa(head), cases[i].status == MSCP_DONE ? 0x0B40 : MSCP_NOT_MADE);
    }
    is("a handle alone", init(mscp_port_in_memory(memory, MSCP_HEAD)), MSCP_SMALL);
    is("less than a handle", mscp_port_in_memory(memory, MSCP_HEAD - 1) == NULL, 1);
    free(memory);
}

/* A handle of one kind is none of another. */
static void marks(void)
{
    size_t size = MSCP_HEAD + mscp_port_size();
    void *memory = memory_of(size);
    struct mscp_port garbage, *port = mscp_port_in_memory(memory, size);
    memset(&garbage, 0xA5, sizeof garbage);
    is("garbage", init(&garbage), MSCP_NO_HANDLE);
    is("room for a port, for a host", mscp_host_init((struct mscp_host *)memory, 4), MSCP_NO_HANDLE);
    is("for a controller", mscp_init((struct mscp *)memory, &LIMITS, &UNIT, 1, MSCP_SWEEP), MSCP_NO_HANDLE);
    is("init", init(port), MSCP_DONE);
    is("a port is no controller", mscp_balance((struct mscp *)memory, FIRST), MSCP_NOT_MADE);
    is("and no host", mscp_host_balance((struct mscp_host *)memory), MSCP_NOT_MADE);
    is("nor becomes one", mscp_init((struct mscp *)memory, &LIMITS, &UNIT, 1, MSCP_SWEEP), MSCP_NO_HANDLE);
    is("init of a controller", mscp_init(mscp_in_memory(memory, size), &LIMITS, &UNIT, 1, MSCP_SWEEP), MSCP_DONE);
    is("a controller is no port", mscp_port_read_sa(port), MSCP_NOT_MADE);
    is("nor becomes one", init(port), MSCP_NO_HANDLE);
    is("a host", mscp_host_init(mscp_host_in_memory(memory, size), 4), MSCP_DONE);
    is("a host is no port", mscp_port_read_sa(port), MSCP_NOT_MADE);
    is("what lay there is forgotten", mscp_port_read_sa(mscp_port_in_memory(memory, size)), MSCP_NOT_MADE);
    free(memory);
}

/* In the middle of its initialisation the memory goes elsewhere. */
static void moves(void)
{
    size_t size = MSCP_HEAD + mscp_port_size();
    void *memory = memory_of(size), *there = memory_of(size);
    struct mscp_port *port = mscp_port_in_memory(memory, size);
    struct mscp_action action;
    is("init", init(port), MSCP_DONE);
    is("its first word", mscp_port_write_sa(port, 0x8000), MSCP_DONE);
    is("a pause", mscp_port_next(port, &action) == MSCP_DONE && action.kind == MSCP_ACTION_PAUSE, 1);
    memcpy(there, memory, size);
    memset(memory, 0xA5, size);
    free(memory);
    port = mscp_port_moved(there);
    is("where it is", (void *)port == there && port->at == (char *)there + MSCP_HEAD, 1);
    is("its address", port->address == (uintptr_t)there + MSCP_HEAD, 1);
    is("a pause again", mscp_port_next(port, &action) == MSCP_DONE && action.kind == MSCP_ACTION_PAUSE, 1);
    is("it went", mscp_port_went(port, MSCP_OUTCOME_DONE, 0), MSCP_DONE);
    is("the next step", mscp_port_read_sa(port), 0x1080);
    free(there);
}

/* What an action doesn't say is 0, and the bytes behind those of a write are what they were. */
static void fields(void)
{
    size_t size = MSCP_HEAD + mscp_port_size();
    void *memory = memory_of(size);
    struct mscp_port *port = mscp_port_in_memory(memory, size);
    const uint16_t words[3] = {0x8000, 0x1000, 0x0001};
    struct mscp_action action;
    is("init", init(port), MSCP_DONE);
    for (int i = 0; i < 3; i++) {
        memset(&action, 0xA5, sizeof action);
        is("a word", mscp_port_write_sa(port, words[i]), MSCP_DONE);
        is("a pause", mscp_port_next(port, &action), MSCP_DONE);
        is("its kind", action.kind, MSCP_ACTION_PAUSE);
        is("no number", (action.address | action.count | action.block | action.unit | action.vector | action.opcode) == 0, 1);
        is("its bytes", action.bytes[0] == 0xA5 && action.bytes[63] == 0xA5, 1);
        is("it went", mscp_port_went(port, MSCP_OUTCOME_DONE, 0), MSCP_DONE);
    }
    memset(&action, 0xA5, sizeof action);
    is("a write", mscp_port_next(port, &action) == MSCP_DONE && action.kind == MSCP_ACTION_WRITE, 1);
    is("of the area", action.address == 0x10FFC && action.count == 12, 1);
    is("no other number", (action.block | action.unit | action.vector | action.opcode) == 0, 1);
    is("zeros", action.bytes[0] == 0 && action.bytes[11] == 0 && action.bytes[12] == 0xA5, 1);
    is("it isn't there", mscp_port_went(port, MSCP_OUTCOME_MISSING, 0), MSCP_DONE);
    memset(&action, 0xA5, sizeof action);
    is("nothing is wanted", mscp_port_next(port, &action), MSCP_NOTHING);
    is("and nothing told", action.kind == 0xA5 && action.address == 0xA5A5A5A5, 1);
    free(memory);
}

int main(void)
{
    wrong_numbers();
    calls_before_init();
    memory_of_ports();
    marks();
    moves();
    fields();
    return wrong;
}
