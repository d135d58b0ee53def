#include "plain_text.h"

#include <string.h>

int is_plain_text(const uint8_t *bytes, size_t length)
{
    size_t i;

    for (i = 0; i < length; i++)
        if (bytes[i] == 0x7f || (bytes[i] < 0x20 && memchr("\t\n\f\r", bytes[i], 4) == NULL))
            return 0;
    return length > 0;
}
