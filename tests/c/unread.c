/* Each call of mscp.h that answers a status, of which nobody reads it: the compiler warns of each. */
#include "mscp.h"

void calls(struct mscp *mscp, struct mscp_host *host, const struct mscp_limits *limits, const struct mscp_unit *units,
           const uint8_t *bytes, struct mscp_sent *sent, struct mscp_packet *packet, struct mscp_upcoming *upcoming,
           struct mscp_report *report, struct mscp_news *news, uint8_t *out, size_t *length,
           struct mscp_port *port, const struct mscp_hardware *hardware, struct mscp_action *action,
           const struct mscp_medium *medium, uint32_t *line, struct mscp_limits *told, struct mscp_unit *list,
           struct mscp_waiting *waiting, struct mscp_holder *holders, struct mscp_state *state, struct mscp_volume *volume,
           struct mscp_driver *driver, struct mscp_watch *watch, struct mscp_heard *heard, struct mscp_asked *asked,
           struct mscp_end *end, struct mscp_hardware *kind);

void calls(struct mscp *mscp, struct mscp_host *host, const struct mscp_limits *limits, const struct mscp_unit *units,
           const uint8_t *bytes, struct mscp_sent *sent, struct mscp_packet *packet, struct mscp_upcoming *upcoming,
           struct mscp_report *report, struct mscp_news *news, uint8_t *out, size_t *length,
           struct mscp_port *port, const struct mscp_hardware *hardware, struct mscp_action *action,
           const struct mscp_medium *medium, uint32_t *line, struct mscp_limits *told, struct mscp_unit *list,
           struct mscp_waiting *waiting, struct mscp_holder *holders, struct mscp_state *state, struct mscp_volume *volume,
           struct mscp_driver *driver, struct mscp_watch *watch, struct mscp_heard *heard, struct mscp_asked *asked,
           struct mscp_end *end, struct mscp_hardware *kind)
{
    mscp_init(mscp, limits, units, 1, MSCP_SWEEP);
    mscp_reset(mscp);
    mscp_send(mscp, MSCP_CONNECTION_FIRST, bytes, 12, sent);
    mscp_take(mscp, MSCP_CONNECTION_FIRST, packet);
    mscp_begin(mscp, upcoming);
    mscp_finish(mscp, MSCP_CONNECTION_FIRST, 1, 0, report);
    mscp_step(mscp, 0, report);
    mscp_look(mscp, waiting, 1);
    mscp_why(mscp, MSCP_CONNECTION_FIRST, 1, holders, 1);
    mscp_settings(mscp, told, list, 1);
    mscp_save(mscp, out, 1, length);
    mscp_restore(mscp, bytes, 12);
    mscp_host_init(host, 2);
    mscp_host_submit(host, bytes, 12);
    mscp_host_poll(host, 1, packet);
    mscp_host_receive(host, bytes, 12, news);
    mscp_host_save(host, out, 1, length);
    mscp_host_restore(host, bytes, 12);
    mscp_driver_init(driver);
    mscp_driver_submit(driver, bytes, 12);
    mscp_driver_poll(driver, 1, packet);
    mscp_driver_hear(driver, watch, bytes, 12, heard);
    mscp_driver_tick(driver, watch);
    mscp_driver_outstanding(driver, asked, 1);
    mscp_driver_save(driver, out, 1, length);
    mscp_driver_restore(driver, bytes, 12);
    mscp_read_end(bytes, 12, end);
    mscp_port_init(port, limits, units, 1, MSCP_SWEEP, hardware, 2);
    mscp_port_next(port, action);
    mscp_port_next_message(port, action);
    mscp_port_was_read(port, bytes, 4);
    mscp_port_went(port, MSCP_OUTCOME_DONE, 0);
    mscp_port_went_by(port, 1, MSCP_OUTCOME_DONE, 0);
    mscp_port_volume_came(port, 0, medium);
    mscp_port_volume_went(port, 0);
    mscp_port_protect(port, 0, 1);
    mscp_port_hardware(port, kind);
    mscp_port_state(port, state);
    mscp_port_volume(port, 0, volume);
    mscp_port_begun(port, upcoming);
    mscp_port_settings(port, told, list, 1);
    mscp_port_look(port, waiting, 1);
    mscp_port_why(port, MSCP_CONNECTION_FIRST, 1, holders, 1);
    mscp_port_save(port, out, 1, length);
    mscp_port_restore(port, bytes, 12);
    mscp_run_script(bytes, 1, out, 1, length, line);
    mscp_show_packet(bytes, 1, out, 1, length);
}
