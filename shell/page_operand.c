#include "page_operand.h"

#include <string.h>

#include "arguments.h"
#include "command.h"
#include "desk_words.h"

int page_operand(const char *text, struct asked_page *p)
{
    static const char guest[] = "guest:", host[] = "host:";

    p->by = BY_NUMBER;
    if (strncmp(text, guest, sizeof guest - 1) == 0) {
        p->by = BY_GUEST_ADDRESS;
        return address_operand(text + sizeof guest - 1, &p->value);
    }
    if (strncmp(text, host, sizeof host - 1) == 0) {
        p->by = BY_HOST_ADDRESS;
        return address_operand(text + sizeof host - 1, &p->value);
    }
    if (marked_number(text, &p->value) == 0)
        return GO_ON;
    complain("page %s: must be a number of 32 bits, decimal or 0x and hexadecimal digits, or an address in the page, guest: or "
             "host: and hexadecimal digits", text);
    return STATUS_BAD;
}

uint32_t page_number(const struct case_file *c, const struct asked_page *p)
{
    if (p->by == BY_NUMBER)
        return p->value;
    return (p->by == BY_GUEST_ADDRESS ? p->value : p->value - extent_of(c).origin) / FRAME_BYTES;
}
