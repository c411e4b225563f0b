/* rq_show.c: what SHOW RQ QUEUE and SHOW RQ VECTOR say, by the calls of mscp.h that look into a port, and what SET RQ
 * DEBUG has said. */
#include "rq.h"

/* Where something stands in the bytes of a saved port, and how long the parts are: docs/SAVED.md has them. */
enum {
    VERSION = 4, HOST_WORD = 30, TEXT = 71, KEPT = 72, ENDS = 73, HEAD = 82 + 16 * 18, A_KEPT = 21, AN_END = 13,
    DRIVES = 31, CONTROLLER_HEAD = 48, A_DRIVE = 34, A_COMMAND = 41, UNIT = 4, OPCODE = 8, STEPS = 32
};

static uint16_t word_at (const uint8_t *bytes)
{
    return (uint16_t)(bytes[0] | bytes[1] << 8);
}

/* The waiting commands of a saved port, oldest first. */
static const uint8_t *commands_of (const uint8_t *saved)
{
    const uint8_t *controller = saved + HEAD + saved[TEXT] + A_KEPT * saved[KEPT] + AN_END * saved[ENDS];
    return controller + CONTROLLER_HEAD + A_DRIVE * controller[DRIVES];
}

/* Saves a port in a form that is known here. */
static int save (const struct mscp_port *port, uint8_t *bytes)
{
    size_t length;
    return mscp_port_save (port, bytes, MSCP_PORT_SAVED_MAX, &length) == MSCP_DONE && bytes[VERSION] == 3;
}

static const char *name_of (uint8_t opcode)
{
    switch (opcode) {
    case MSCP_SET_CONTROLLER_CHARACTERISTICS: return "SET CONTROLLER CHARACTERISTICS";
    case MSCP_AVAILABLE: return "AVAILABLE";
    case MSCP_ONLINE: return "ONLINE";
    case MSCP_SET_UNIT_CHARACTERISTICS: return "SET UNIT CHARACTERISTICS";
    case MSCP_ACCESS: return "ACCESS";
    case MSCP_ERASE: return "ERASE";
    case MSCP_COMPARE_HOST_DATA: return "COMPARE HOST DATA";
    case MSCP_READ: return "READ";
    case MSCP_WRITE: return "WRITE";
    default: return "command";
    }
}

/* Who keeps a command back that hasn't started. */
static void show_why (FILE *to, const struct mscp_port *port, const struct mscp_waiting *waiting)
{
    struct mscp_holder list[MSCP_CREDITS_MAX];
    int64_t count = mscp_port_why (port, waiting->connection, waiting->reference, list, MSCP_CREDITS_MAX);
    fputs (count > 0 ? "kept back by" : "nobody keeps it back", to);
    for (int64_t i = 0; i < count; i++)
        fprintf (to, "%s %08X (%s%s%s)", i > 0 ? "," : "", list[i].reference, list[i].fences ? "sequential" : "",
                 list[i].fences && list[i].overdrawn ? ", " : "", list[i].overdrawn ? "budget" : "");
    fputc ('\n', to);
}

void rq_show_queue (FILE *to, const struct mscp_port *port, const char *name, uint16_t first)
{
    uint8_t saved[MSCP_PORT_SAVED_MAX];
    struct mscp_waiting list[MSCP_CREDITS_MAX];
    int64_t count = mscp_port_look (port, list, MSCP_CREDITS_MAX);
    if (count <= 0 || !save (port, saved)) {
        fprintf (to, "%s: no command waits\n", name);
        return;
    }
    const uint8_t *command = commands_of (saved);
    for (int64_t i = 0; i < count; i++, command += A_COMMAND) {
        fprintf (to, "%08X %s of %s%d, at most %u steps: ", list[i].reference, name_of (command[OPCODE]), name,
                 word_at (command + UNIT) - first, list[i].figure);
        if (word_at (command + STEPS) != 0)
            fputs ("in service\n", to);
        else
            show_why (to, port, &list[i]);
    }
}

void rq_show_vector (FILE *to, const struct mscp_port *port)
{
    uint8_t saved[MSCP_PORT_SAVED_MAX];
    int vector = save (port, saved) ? (word_at (saved + HOST_WORD) & 0177) << 2 : 0;
    if (vector == 0)
        fputs ("no vector", to);
    else
        fprintf (to, "vector=%o", vector);
}

/* In the words of mscp_show_packet, or by its bytes. It takes room for twice the line, which is shorter than 200. */
static void show_packet (FILE *to, const uint8_t *bytes, uint32_t length)
{
    uint8_t word[2 * MSCP_MESSAGE_MAX + 1], text[400];
    size_t count;
    for (uint32_t i = 0; i < length; i++)
        sprintf ((char *)word + 2 * i, "%02x", bytes[i]);
    if (mscp_show_packet (word, 2 * length, text, sizeof text, &count) == MSCP_DONE)
        fprintf (to, "%.*s", (int)count, (const char *)text);
    else
        fprintf (to, "%.*s\n", (int)(2 * length), (const char *)word);
}

void rq_show_message (FILE *to, const char *name, bool is_to_host, const uint8_t *bytes, uint32_t length)
{
    enum { ATTENTION = 0x40 };
    fprintf (to, "%s %s: ", name, is_to_host ? "controller" : "host");
    if (is_to_host && bytes[OPCODE] == ATTENTION)
        fprintf (to, "unit %d is available\n", word_at (bytes + UNIT));
    else
        show_packet (to, bytes, length);
}
