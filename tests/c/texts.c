/* The texts of statuses: each status has one of its own, and another number has the text for unknown ones. With the file
 * that mirror.awk prints. Prints what is wrong, and ends with 1 where something is. */
#include "trying.h"

int is_status(enum mscp_status);

int main(void)
{
    for (int32_t status = -100; status < 100; status++) {
        const char *text = mscp_status_text(status);
        is("unknown", strcmp(text, "unknown status") == 0, !is_status((enum mscp_status)status));
        for (int32_t other = -100; other < status; other++)
            if (is_status((enum mscp_status)status) && strcmp(text, mscp_status_text(other)) == 0)
                is(text, other, status);
    }
    return wrong;
}
