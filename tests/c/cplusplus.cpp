// A program in C++ over mscp.h: a controller and a host that bring a unit online, a port that shows its first step, and bytes
// of them. It ends with 0 where all is as in C. A struct and a call of one name are told apart by the word struct.
#include "mscp.h"
#include <cstdlib>
#include <cstring>
#include <vector>

namespace {

template <typename T> T *make(T *(*in_memory)(void *, size_t), std::vector<uint64_t> &room)
{
    return in_memory(room.data(), room.size() * sizeof room[0]);
}

std::vector<uint64_t> room_of(size_t bytes) { return std::vector<uint64_t>((MSCP_HEAD + bytes) / sizeof(uint64_t)); }

const mscp_unit UNIT = {1, 64, 0, 1, 0, 4, 2, 1};
const mscp_limits LIMITS = {1, 16, 4, 0, 8, 60};

// The controller ends an ONLINE, and the host hears of it.
bool comes_online(struct mscp *controller, mscp_host *host)
{
    const uint8_t message[32] = {7, 0, 0, 0, 0, 0, 0, 0, MSCP_ONLINE};
    mscp_sent sent;
    mscp_report report;
    mscp_packet end;
    mscp_news news;
    struct mscp_waiting list;
    return mscp_host_submit(host, message, sizeof message) == MSCP_DONE &&
           mscp_send(controller, MSCP_CONNECTION_FIRST, message, sizeof message, &sent) == MSCP_QUEUED &&
           mscp_look(controller, &list, 1) == mscp_waiting(controller, MSCP_CONNECTION_FIRST) && list.reference == 7 &&
           mscp_step(controller, 0, &report) == MSCP_DONE && mscp_take(controller, MSCP_CONNECTION_FIRST, &end) == MSCP_DONE &&
           mscp_host_receive(host, end.bytes, end.length, &news) == MSCP_ENDED && news.reference == 7;
}

// What is saved is restored elsewhere.
bool is_kept(const struct mscp *controller)
{
    std::vector<uint8_t> bytes(mscp_save_size());
    std::vector<uint64_t> room = room_of(mscp_size());
    size_t length;
    return mscp_save(controller, bytes.data(), bytes.size(), &length) == MSCP_DONE &&
           mscp_restore(make(mscp_in_memory, room), bytes.data(), length) == MSCP_DONE &&
           mscp_is_online(reinterpret_cast<struct mscp *>(room.data()), 0) == 1;
}

bool has_a_port()
{
    const mscp_hardware rqdx3 = {MSCP_BUS_Q, 19, 3, 1};
    std::vector<uint64_t> room = room_of(mscp_port_size());
    mscp_port *port = make(mscp_port_in_memory, room);
    return mscp_port_init(port, &LIMITS, &UNIT, 1, MSCP_SWEEP, &rqdx3, 3) == MSCP_DONE && mscp_port_read_sa(port) == 0x0B40;
}

} // namespace

int main()
{
    std::vector<uint64_t> room = room_of(mscp_size()), host_room = room_of(mscp_host_size());
    struct mscp *controller = make(mscp_in_memory, room);
    mscp_host *host = make(mscp_host_in_memory, host_room);
    const bool is_none = mscp_in_memory(nullptr, 0) == nullptr && mscp_init(nullptr, &LIMITS, &UNIT, 1, MSCP_SWEEP) == MSCP_NO_MEMORY &&
                         mscp_look(nullptr, nullptr, 0) == MSCP_NOT_MADE;
    const bool is_right = mscp_init(controller, &LIMITS, &UNIT, 1, MSCP_SWEEP) == MSCP_DONE &&
                          mscp_host_init(host, 4) == MSCP_DONE && comes_online(controller, host) && is_kept(controller) && has_a_port();
    return is_none && is_right && std::strcmp(mscp_status_text(MSCP_DONE), "done") == 0 ? EXIT_SUCCESS : EXIT_FAILURE;
}
