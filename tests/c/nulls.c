/* The inline calls of mscp.h against stand-ins for the library's own, which want a pointer that isn't NULL. With a
 * length of 0 they get one, also where the caller has none, and else just the caller's. With a handle that is NULL the library
 * isn't called. Prints what is wrong, and ends with 1 where something is. */
#define mscp_init_at init_seen
#define mscp_send_at send_seen
#define mscp_look_at look_seen
#define mscp_why_at why_seen
#define mscp_settings_at settings_seen
#define mscp_save_at save_seen
#define mscp_restore_at restore_seen
#define mscp_host_submit_at submit_seen
#define mscp_host_receive_at receive_seen
#define mscp_host_save_at host_save_seen
#define mscp_host_restore_at host_restore_seen
#define mscp_driver_submit_at driver_submit_seen
#define mscp_driver_hear_at driver_hear_seen
#define mscp_driver_outstanding_at driver_outstanding_seen
#define mscp_driver_save_at driver_save_seen
#define mscp_driver_restore_at driver_restore_seen
#define mscp_read_end_at read_end_seen
#define mscp_port_init_at port_init_seen
#define mscp_port_was_read_at was_read_seen
#define mscp_port_settings_at port_settings_seen
#define mscp_port_save_at port_save_seen
#define mscp_port_restore_at port_restore_seen
#define mscp_port_look_at port_look_seen
#define mscp_port_why_at port_why_seen
#define mscp_run_script_at script_seen
#define mscp_show_packet_at packet_seen
#include "trying.h"

static const void *seen;
static size_t length_seen;

static int32_t see(const void *pointer, size_t length)
{
    seen = pointer;
    length_seen = length;
    return 77;
}

int32_t init_seen(struct mscp *mscp, const struct mscp_limits *limits, const struct mscp_unit *units, size_t count,
                  uint32_t picker)
{
    return mscp != NULL && limits != NULL && picker == 3 ? see(units, count) : 0;
}

int32_t send_seen(struct mscp *mscp, uint32_t connection, const uint8_t *message, size_t length, struct mscp_sent *sent)
{
    return mscp != NULL && connection == 7 && sent != NULL ? see(message, length) : 0;
}

int32_t look_seen(const struct mscp *mscp, struct mscp_waiting *list, size_t room)
{
    return mscp != NULL ? see(list, room) : 0;
}

int32_t why_seen(const struct mscp *mscp, uint32_t connection, uint32_t reference, struct mscp_holder *list, size_t room)
{
    return mscp != NULL && connection == 7 && reference == 9 ? see(list, room) : 0;
}

int32_t submit_seen(struct mscp_host *host, const uint8_t *message, size_t length)
{
    return host != NULL ? see(message, length) : 0;
}

int32_t receive_seen(struct mscp_host *host, const uint8_t *bytes, size_t length, struct mscp_news *news)
{
    return host != NULL && news != NULL ? see(bytes, length) : 0;
}

int32_t driver_submit_seen(struct mscp_driver *driver, const uint8_t *message, size_t length)
{
    return driver != NULL ? see(message, length) : 0;
}

int32_t driver_hear_seen(struct mscp_driver *driver, struct mscp_watch *watch, const uint8_t *bytes, size_t length,
                         struct mscp_heard *heard)
{
    return driver != NULL && watch != NULL && heard != NULL ? see(bytes, length) : 0;
}

int32_t driver_outstanding_seen(const struct mscp_driver *driver, struct mscp_asked *list, size_t room)
{
    return driver != NULL ? see(list, room) : 0;
}

int32_t read_end_seen(const uint8_t *bytes, size_t length, struct mscp_end *end)
{
    return end != NULL ? see(bytes, length) : 0;
}

int32_t port_init_seen(struct mscp_port *port, const struct mscp_limits *limits, const struct mscp_unit *units,
                       size_t count, uint32_t picker, const struct mscp_hardware *hardware, uint32_t credits)
{
    return port != NULL && limits != NULL && picker == 3 && hardware != NULL && credits == 4 ? see(units, count) : 0;
}

int32_t was_read_seen(struct mscp_port *port, const uint8_t *bytes, size_t length)
{
    return port != NULL ? see(bytes, length) : 0;
}

int32_t port_look_seen(const struct mscp_port *port, struct mscp_waiting *list, size_t room)
{
    return port != NULL ? see(list, room) : 0;
}

int32_t port_why_seen(const struct mscp_port *port, uint32_t connection, uint32_t reference, struct mscp_holder *list,
                      size_t room)
{
    return port != NULL && connection == 7 && reference == 9 ? see(list, room) : 0;
}

int32_t script_seen(const uint8_t *script, size_t length, uint8_t *bytes, size_t room, size_t *count, uint32_t *line)
{
    return count != NULL && line != NULL && (room > 0 || bytes != NULL) ? see(script, length) : 0;
}

/* A packet's room is seen, or if that has two bytes its word. */
int32_t packet_seen(const uint8_t *word, size_t length, uint8_t *bytes, size_t room, size_t *count)
{
    if (word == NULL || bytes == NULL || count == NULL)
        return 0;
    return room == 2 ? see(word, length) : see(bytes, room);
}

int32_t settings_seen(const struct mscp *mscp, struct mscp_limits *limits, struct mscp_unit *units, size_t room)
{
    return mscp != NULL && limits != NULL ? see(units, room) : 0;
}

int32_t port_settings_seen(const struct mscp_port *port, struct mscp_limits *limits, struct mscp_unit *units, size_t room)
{
    return port != NULL && limits != NULL ? see(units, room) : 0;
}

/* A save and a restore of each. */
#define SAVES(name, type)                                                                          \
    int32_t name##save_seen(const struct type *it, uint8_t *bytes, size_t room, size_t *length)    \
    {                                                                                              \
        return it != NULL && length != NULL ? see(bytes, room) : 0;                                \
    }                                                                                              \
    int32_t name##restore_seen(struct type *it, const uint8_t *bytes, size_t length)               \
    {                                                                                              \
        return it != NULL ? see(bytes, length) : 0;                                                \
    }

SAVES(, mscp)
SAVES(host_, mscp_host)
SAVES(driver_, mscp_driver)
SAVES(port_, mscp_port)

/* No handle: an init and a restore say that there is no memory, and all others that nothing was made. */
static void handles(const struct mscp_limits *limits, const struct mscp_unit *units, const struct mscp_hardware *hardware)
{
    uint8_t bytes[2] = {0, 0};
    size_t count;
    struct mscp_heard heard;
    is("init", mscp_init(NULL, limits, units, 2, 3), MSCP_NO_MEMORY);
    is("restore", mscp_restore(NULL, bytes, 2), MSCP_NO_MEMORY);
    is("init of a host", mscp_host_init(NULL, 4), MSCP_NO_MEMORY);
    is("restore of a host", mscp_host_restore(NULL, bytes, 2), MSCP_NO_MEMORY);
    is("init of a port", mscp_port_init(NULL, limits, units, 2, 3, hardware, 4), MSCP_NO_MEMORY);
    is("restore of a port", mscp_port_restore(NULL, bytes, 2), MSCP_NO_MEMORY);
    is("send", mscp_send(NULL, 7, bytes, 2, &(struct mscp_sent){0, 0, 0}), MSCP_NOT_MADE);
    is("look", mscp_look(NULL, NULL, 0), MSCP_NOT_MADE);
    is("why", mscp_why(NULL, 7, 9, NULL, 0), MSCP_NOT_MADE);
    is("settings", mscp_settings(NULL, &(struct mscp_limits){0, 0, 0, 0, 0, 0}, NULL, 0), MSCP_NOT_MADE);
    is("save", mscp_save(NULL, bytes, 2, &count), MSCP_NOT_MADE);
    is("submit", mscp_host_submit(NULL, bytes, 2), MSCP_NOT_MADE);
    is("receive", mscp_host_receive(NULL, bytes, 2, &(struct mscp_news){0, 0, 0, 0, 0, 0}), MSCP_NOT_MADE);
    is("save of a host", mscp_host_save(NULL, bytes, 2, &count), MSCP_NOT_MADE);
    is("init of a driver", mscp_driver_init(NULL), MSCP_NO_MEMORY);
    is("submit of a driver", mscp_driver_submit(NULL, bytes, 2), MSCP_NOT_MADE);
    is("hear", mscp_driver_hear(NULL, &(struct mscp_watch){0, 0, 0}, bytes, 2, &heard), MSCP_NOT_MADE);
    is("outstanding", mscp_driver_outstanding(NULL, NULL, 0), MSCP_NOT_MADE);
    is("save of a driver", mscp_driver_save(NULL, bytes, 2, &count), MSCP_NOT_MADE);
    is("restore of a driver", mscp_driver_restore(NULL, bytes, 2), MSCP_NO_MEMORY);
    is("was read", mscp_port_was_read(NULL, bytes, 2), MSCP_NOT_MADE);
    is("settings of a port", mscp_port_settings(NULL, &(struct mscp_limits){0, 0, 0, 0, 0, 0}, NULL, 0), MSCP_NOT_MADE);
    is("look into a port", mscp_port_look(NULL, NULL, 0), MSCP_NOT_MADE);
    is("why in a port", mscp_port_why(NULL, 7, 9, NULL, 0), MSCP_NOT_MADE);
    is("save of a port", mscp_port_save(NULL, bytes, 2, &count), MSCP_NOT_MADE);
}

static void passes(const char *what, int64_t answer, const void *pointer, size_t length)
{
    is(what, answer, 77);
    is(what, length > 0 ? seen == pointer : seen != NULL, 1);
    is(what, length_seen == length, 1);
}

static void saves(struct mscp *mscp, struct mscp_host *host, struct mscp_driver *driver, struct mscp_port *port)
{
    uint8_t bytes[2] = {0, 0};
    size_t count;
    passes("save", mscp_save(mscp, bytes, 2, &count), bytes, 2);
    passes("save in no room", mscp_save(mscp, NULL, 0, &count), NULL, 0);
    passes("restore", mscp_restore(mscp, bytes, 2), bytes, 2);
    passes("restore of no byte", mscp_restore(mscp, NULL, 0), NULL, 0);
    passes("save of a host", mscp_host_save(host, bytes, 2, &count), bytes, 2);
    passes("save of a host in no room", mscp_host_save(host, NULL, 0, &count), NULL, 0);
    passes("restore of a host", mscp_host_restore(host, bytes, 2), bytes, 2);
    passes("restore of a host of no byte", mscp_host_restore(host, NULL, 0), NULL, 0);
    passes("save of a driver", mscp_driver_save(driver, bytes, 2, &count), bytes, 2);
    passes("save of a driver in no room", mscp_driver_save(driver, NULL, 0, &count), NULL, 0);
    passes("restore of a driver", mscp_driver_restore(driver, bytes, 2), bytes, 2);
    passes("restore of a driver of no byte", mscp_driver_restore(driver, NULL, 0), NULL, 0);
    passes("save of a port", mscp_port_save(port, bytes, 2, &count), bytes, 2);
    passes("save of a port in no room", mscp_port_save(port, NULL, 0, &count), NULL, 0);
    passes("restore of a port", mscp_port_restore(port, bytes, 2), bytes, 2);
    passes("restore of a port of no byte", mscp_port_restore(port, NULL, 0), NULL, 0);
}

int main(void)
{
    static struct mscp mscp;
    static struct mscp_host host;
    static struct mscp_port port;
    static struct mscp_driver driver;
    static struct mscp_hardware hardware;
    static struct mscp_limits limits;
    static struct mscp_unit units[2];
    static struct mscp_waiting list[2];
    static struct mscp_holder holders[2];
    static struct mscp_asked asked[2];
    struct mscp_watch watch = {0, 0, 0};
    struct mscp_heard heard;
    struct mscp_end end;
    struct mscp_sent sent;
    struct mscp_news news;
    uint8_t bytes[2] = {0, 0}, out[2];
    size_t count;
    uint32_t line;
    passes("init", mscp_init(&mscp, &limits, units, 2, 3), units, 2);
    passes("send", mscp_send(&mscp, 7, bytes, 2, &sent), bytes, 2);
    passes("look", mscp_look(&mscp, list, 2), list, 2);
    passes("why", mscp_why(&mscp, 7, 9, holders, 2), holders, 2);
    passes("submit", mscp_host_submit(&host, bytes, 2), bytes, 2);
    passes("receive", mscp_host_receive(&host, bytes, 2, &news), bytes, 2);
    passes("submit of a driver", mscp_driver_submit(&driver, bytes, 2), bytes, 2);
    passes("hear", mscp_driver_hear(&driver, &watch, bytes, 2, &heard), bytes, 2);
    passes("outstanding", mscp_driver_outstanding(&driver, asked, 2), asked, 2);
    passes("read end", mscp_read_end(bytes, 2, &end), bytes, 2);
    passes("init of a port", mscp_port_init(&port, &limits, units, 2, 3, &hardware, 4), units, 2);
    passes("was read", mscp_port_was_read(&port, bytes, 2), bytes, 2);
    passes("look into a port", mscp_port_look(&port, list, 2), list, 2);
    passes("why in a port", mscp_port_why(&port, 7, 9, holders, 2), holders, 2);
    passes("script", mscp_run_script(bytes, 2, out, 2, &count, &line), bytes, 2);
    passes("packet", mscp_show_packet(bytes, 2, out, 1, &count), out, 1);
    passes("packet's word", mscp_show_packet(bytes, 2, out, 2, &count), bytes, 2);
    passes("packet of no word", mscp_show_packet(NULL, 0, out, 2, &count), NULL, 0);
    passes("settings", mscp_settings(&mscp, &limits, units, 2), units, 2);
    passes("settings of no unit", mscp_settings(&mscp, &limits, NULL, 0), NULL, 0);
    passes("settings of a port", mscp_port_settings(&port, &limits, units, 2), units, 2);
    passes("settings of no unit of a port", mscp_port_settings(&port, &limits, NULL, 0), NULL, 0);
    saves(&mscp, &host, &driver, &port);
    passes("init of none", mscp_init(&mscp, &limits, NULL, 0, 3), NULL, 0);
    passes("send of none", mscp_send(&mscp, 7, NULL, 0, &sent), NULL, 0);
    passes("look at none", mscp_look(&mscp, NULL, 0), NULL, 0);
    passes("why of none", mscp_why(&mscp, 7, 9, NULL, 0), NULL, 0);
    passes("submit of none", mscp_host_submit(&host, NULL, 0), NULL, 0);
    passes("receive of none", mscp_host_receive(&host, NULL, 0, &news), NULL, 0);
    passes("submit of none by a driver", mscp_driver_submit(&driver, NULL, 0), NULL, 0);
    passes("hear none", mscp_driver_hear(&driver, &watch, NULL, 0, &heard), NULL, 0);
    passes("none outstanding", mscp_driver_outstanding(&driver, NULL, 0), NULL, 0);
    passes("read no end", mscp_read_end(NULL, 0, &end), NULL, 0);
    passes("init of a port of none", mscp_port_init(&port, &limits, NULL, 0, 3, &hardware, 4), NULL, 0);
    passes("look into a port at none", mscp_port_look(&port, NULL, 0), NULL, 0);
    passes("why of none in a port", mscp_port_why(&port, 7, 9, NULL, 0), NULL, 0);
    passes("no script", mscp_run_script(NULL, 0, NULL, 0, &count, &line), NULL, 0);
    passes("packet in no room", mscp_show_packet(bytes, 2, NULL, 0, &count), NULL, 0);
    handles(&limits, units, &hardware);
    passes("none was read", mscp_port_was_read(&port, NULL, 0), NULL, 0);
    return wrong;
}
