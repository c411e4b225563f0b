/* Memory and handles of mscp.h: what is room, who is in it, and where it goes. Prints what is wrong, and ends with 1
 * where something is. */
#include "trying.h"
#include <stdbool.h>

static const struct mscp_unit UNIT = {1, 1000, 0, 1, 0, 10, 2, 1};
static const struct mscp_limits LIMITS = {1, 16, 4, 0, 8, 60};

static int32_t init(struct mscp *mscp)
{
    return mscp_init(mscp, &LIMITS, &UNIT, 1, MSCP_OLDEST);
}

/* What a handle says of its memory, and whose it is. */
static void words_of_handles(void)
{
    static MSCP_ALIGNED uint64_t memory[8];
    struct mscp over = mscp_over(memory, 40), *head = mscp_in_memory(memory, sizeof memory);
    is("a handle", over.at == memory && over.address == (uintptr_t)memory && over.length == 40, 1);
    is("its mark", over.mark == MSCP_ROOM, 1);
    is("a head", head->at == memory + 4 && head->address == (uintptr_t)(memory + 4) && head->length == 32, 1);
    is("its mark", head->mark == MSCP_ROOM, 1);
    struct mscp_host host = mscp_host_over(memory, 40), *top = mscp_host_in_memory(memory, sizeof memory);
    is("a host's", host.at == memory && host.address == (uintptr_t)memory && host.length == 40, 1);
    is("its mark", host.mark == MSCP_HOST_ROOM, 1);
    is("a host's head", top->at == memory + 4 && top->address == (uintptr_t)(memory + 4) && top->length == 32, 1);
    is("its mark", top->mark == MSCP_HOST_ROOM, 1);
    struct mscp_driver driver = mscp_driver_over(memory, 40), *first = mscp_driver_in_memory(memory, sizeof memory);
    is("a driver's", driver.at == memory && driver.address == (uintptr_t)memory && driver.length == 40, 1);
    is("its mark", driver.mark == MSCP_DRIVER_ROOM, 1);
    is("a driver's head", first->at == memory + 4 && first->address == (uintptr_t)(memory + 4) && first->length == 32, 1);
    is("its mark", first->mark == MSCP_DRIVER_ROOM, 1);
    is("the bytes of a handle", sizeof over == MSCP_HEAD && sizeof host == MSCP_HEAD && sizeof(struct mscp_port) == MSCP_HEAD, 1);
    is("the bytes of a driver's", sizeof driver == MSCP_HEAD, 1);
}

/* An init judges what the handle says, with the handle at the head of the memory and beside it. Where that can't be at the head
 * there is none. */
static void inits_of_no_room(void)
{
    size_t size = mscp_size();
    char *memory = (char *)memory_of(MSCP_HEAD + size + 8);
    const struct {
        const char *what;
        void *memory;
        size_t less; /* than the size */
        int32_t status;
    } cases[] = {
        {"no memory", NULL, 0, MSCP_NO_MEMORY},          {"odd memory", memory + 1, 0, MSCP_MISALIGNED},
        {"memory at 4", memory + 4, 0, MSCP_MISALIGNED}, {"a byte too few", memory, 1, MSCP_SMALL},
        {"8 bytes too few", memory, 8, MSCP_SMALL},
    };
    for (size_t i = 0; i < COUNT(cases); i++) {
        struct mscp over = mscp_over(cases[i].memory, size - cases[i].less);
        struct mscp_host host = mscp_host_over(cases[i].memory, mscp_host_size() - cases[i].less);
        is(cases[i].what, init(&over), cases[i].status);
        is(cases[i].what, mscp_host_init(&host, 4), cases[i].status);
        const int is_there = cases[i].status == MSCP_SMALL;
        struct mscp *head = mscp_in_memory(cases[i].memory, MSCP_HEAD + size - cases[i].less);
        is(cases[i].what, head != NULL, is_there);
        is(cases[i].what, init(head), is_there ? MSCP_SMALL : MSCP_NO_MEMORY);
        is(cases[i].what, mscp_look(head, NULL, 0), MSCP_NOT_MADE);
        struct mscp_host *top = mscp_host_in_memory(cases[i].memory, MSCP_HEAD + mscp_host_size() - cases[i].less);
        is(cases[i].what, top != NULL, is_there);
        is(cases[i].what, mscp_host_init(top, 4), is_there ? MSCP_SMALL : MSCP_NO_MEMORY);
        is(cases[i].what, mscp_host_submit(top, NULL, 0), MSCP_NOT_MADE);
        struct mscp_driver driver = mscp_driver_over(cases[i].memory, mscp_driver_size() - cases[i].less);
        is(cases[i].what, mscp_driver_init(&driver), cases[i].status);
        struct mscp_driver *first = mscp_driver_in_memory(cases[i].memory, MSCP_HEAD + mscp_driver_size() - cases[i].less);
        is(cases[i].what, first != NULL, is_there);
        is(cases[i].what, mscp_driver_init(first), is_there ? MSCP_SMALL : MSCP_NO_MEMORY);
        is(cases[i].what, mscp_driver_outstanding(first, NULL, 0), MSCP_NOT_MADE);
    }
    is("a handle alone", init(mscp_in_memory(memory, MSCP_HEAD)), MSCP_SMALL);
    is("a host's alone", mscp_host_init(mscp_host_in_memory(memory, MSCP_HEAD), 4), MSCP_SMALL);
    is("less than a handle", mscp_in_memory(memory, MSCP_HEAD - 1) == NULL, 1);
    is("less than a host's", mscp_host_in_memory(memory, MSCP_HEAD - 1) == NULL, 1);
    is("aligned", mscp_align() == MSCP_ALIGN && mscp_host_align() == MSCP_ALIGN && mscp_port_align() == MSCP_ALIGN, 1);
    free(memory);
}

/* What no call has made is no handle, and a handle on a controller's memory is none on a host's. */
static void marks(void)
{
    size_t size = MSCP_HEAD + mscp_size();
    void *memory = memory_of(size);
    struct mscp garbage;
    struct mscp_host zeros;
    memset(&garbage, 0xA5, sizeof garbage);
    memset(&zeros, 0, sizeof zeros);
    is("garbage", init(&garbage), MSCP_NO_HANDLE);
    is("zeros", mscp_host_init(&zeros, 4), MSCP_NO_HANDLE);
    struct mscp *mscp = mscp_in_memory(memory, size);
    struct mscp_host *host = (struct mscp_host *)memory;
    is("a controller's room for a host", mscp_host_init(host, 4), MSCP_NO_HANDLE);
    is("init", init(mscp), MSCP_DONE);
    is("a controller for a host", mscp_host_init(host, 4), MSCP_NO_HANDLE);
    is("a controller is no host", mscp_host_balance(host), MSCP_NOT_MADE);
    host = mscp_host_in_memory(memory, size);
    is("what lay there is forgotten", mscp_balance(mscp, FIRST), MSCP_NOT_MADE);
    is("a host's room for a controller", init(mscp), MSCP_NO_HANDLE);
    is("init of a host", mscp_host_init(host, 4), MSCP_DONE);
    is("a host for a controller", init(mscp), MSCP_NO_HANDLE);
    is("a host is no controller", mscp_balance(mscp, FIRST), MSCP_NOT_MADE);
    is("a host's handle anew", mscp_host_init(mscp_host_in_memory(memory, size), 3), MSCP_DONE);
    is("it is another", mscp_host_balance(host), 3);
    struct mscp_driver *driver = (struct mscp_driver *)memory;
    is("a host for a driver", mscp_driver_init(driver), MSCP_NO_HANDLE);
    is("a host is no driver", mscp_driver_credits(driver), MSCP_NOT_MADE);
    driver = mscp_driver_in_memory(memory, size);
    is("a driver's room for a host", mscp_host_init(host, 4), MSCP_NO_HANDLE);
    is("init of a driver", mscp_driver_init(driver), MSCP_DONE);
    is("a driver is no host", mscp_host_balance(host), MSCP_NOT_MADE);
    free(memory);
}

/* The memory of a handle at its head goes elsewhere, and what was there is gone. */
static void *move(void *memory, size_t size)
{
    void *there = memory_of(size);
    memcpy(there, memory, size);
    memset(memory, 0xA5, size);
    free(memory);
    return there;
}

/* Between a begin and its finish the memory moves, with its handle at its head or beside it. */
static void moves(bool beside)
{
    size_t head = beside ? 0 : MSCP_HEAD, size = head + mscp_size();
    void *memory = memory_of(size);
    struct mscp over = mscp_over(memory, size);
    struct mscp *mscp = beside ? &over : mscp_in_memory(memory, size);
    struct mscp_sent sent;
    struct mscp_upcoming next;
    struct mscp_report report;
    is("init", init(mscp), MSCP_DONE);
    is("online", mscp_send(mscp, FIRST, command(1, MSCP_ONLINE, 0, 0), 32, &sent), MSCP_QUEUED);
    is("begin", mscp_begin(mscp, &next), MSCP_DONE);
    memory = move(memory, size);
    if (beside) {
        over.at = memory;
        over.address = (uintptr_t)memory;
    } else {
        mscp = mscp_moved(memory);
    }
    is("where it is", mscp->at == (char *)memory + head && mscp->address == (uintptr_t)memory + head, 1);
    is("begin again", mscp_begin(mscp, &next) == MSCP_DONE && next.reference == 1, 1);
    is("finish", mscp_finish(mscp, FIRST, 1, 0, &report) == MSCP_DONE && report.ended, 1);
    is("online", mscp_is_online(mscp, 0), 1);
    free(memory);
}

static void a_host_moves(void)
{
    size_t size = MSCP_HEAD + mscp_host_size();
    void *memory = memory_of(size);
    is("a host", mscp_host_init(mscp_host_in_memory(memory, size), 5), MSCP_DONE);
    memory = move(memory, size);
    struct mscp_host *host = mscp_host_moved(memory);
    is("where it is", (void *)host == memory && host->at == (char *)memory + MSCP_HEAD, 1);
    is("its address", host->address == (uintptr_t)memory + MSCP_HEAD, 1);
    is("its credits", mscp_host_balance(host), 5);
    free(memory);
}

static void a_driver_moves(void)
{
    size_t size = MSCP_HEAD + mscp_driver_size();
    void *memory = memory_of(size);
    is("a driver", mscp_driver_init(mscp_driver_in_memory(memory, size)), MSCP_DONE);
    memory = move(memory, size);
    struct mscp_driver *driver = mscp_driver_moved(memory);
    is("where it is", (void *)driver == memory && driver->at == (char *)memory + MSCP_HEAD, 1);
    is("its address", driver->address == (uintptr_t)memory + MSCP_HEAD, 1);
    is("its credits", mscp_driver_credits(driver), 1);
    free(memory);
}

int main(void)
{
    words_of_handles();
    inits_of_no_room();
    marks();
    moves(false);
    moves(true);
    a_host_moves();
    a_driver_moves();
    return wrong;
}
