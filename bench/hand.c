/* A bit put behind what a room holds, in plain C: include/qrbill.h says what is answered. */

#include <string.h>

#include "qrbill.h"

size_t qrbill_hand(uint8_t *held, size_t room, size_t length, const uint8_t *bit, size_t bytes)
{
    const size_t most = room < QRBILL_MOST_BYTES ? room : QRBILL_MOST_BYTES;
    if (length > most || bytes > most - length)
        return QRBILL_HELD;
    memcpy(held + length, bit, bytes);
    return length + bytes;
}
