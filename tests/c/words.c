/* Opcodes and statuses in the manual's words. tests/lines compares all of them with the tables. Prints what is wrong, and ends
 * with 1 where something is. */
#include "trying.h"

static void is_called(const char *text, const char *wanted) { is(wanted, strcmp(text, wanted), 0); }

int main(void)
{
    is_called(mscp_opcode_text(MSCP_READ), "READ");
    is_called(mscp_opcode_text(MSCP_FLUSH), "FLUSH");
    is_called(mscp_opcode_text(47), "FORMAT");
    is_called(mscp_opcode_text(0), "command of an unknown opcode");
    is_called(mscp_opcode_text(0xA1), "command of an unknown opcode");
    is_called(mscp_status_words(0x0000), "Success");
    is_called(mscp_status_words(0x0100), "Success: already online");
    is_called(mscp_status_words(0x0029), "Host Buffer Access Error: odd transfer address");
    is_called(mscp_status_words(0x0023), "Unit-Offline: no volume");
    is_called(mscp_status_words(0x00E8), "Data Error");
    is_called(mscp_status_words(0xFFE4), "Unit-Available");
    is_called(mscp_status_words(0x001F), "unknown status");
    return wrong;
}
