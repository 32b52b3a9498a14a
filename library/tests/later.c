/* The version of a later library, as it were, for binding.py to refuse. */
#include "../slotexec.h"

#include <string.h>

uint32_t ss_version(uint8_t *text, size_t room, size_t *length)
{
    static const char later[] = "9.10.11";
    if (room < sizeof later - 1) return SS_BAD_NUMBER;
    *length = sizeof later - 1;
    memcpy(text, later, *length);
    return SS_OK;
}
