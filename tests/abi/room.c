/* What a program has room for, by the header that it was compiled with, is enough for the library of today. Prints what is wrong,
 * and ends with 1 where something is. */
#include "trying.h"

int main(void)
{
    is("they fit", MSCP_FITS(), 1);
    is("a controller", mscp_size() <= MSCP_SIZE && mscp_align() <= MSCP_ALIGN, 1);
    is("a host", mscp_host_size() <= MSCP_HOST_SIZE && mscp_host_align() <= MSCP_ALIGN, 1);
    is("a port", mscp_port_size() <= MSCP_PORT_SIZE && mscp_port_align() <= MSCP_ALIGN, 1);
    is("a saved controller", mscp_save_size() <= MSCP_SAVED_MAX, 1);
    is("a saved host", mscp_host_save_size() <= MSCP_HOST_SAVED_MAX, 1);
    is("a saved port", mscp_port_save_size() <= MSCP_PORT_SAVED_MAX, 1);
    return wrong;
}
