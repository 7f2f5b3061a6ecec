/* The mender in plain C, as one writes it by hand, over the calls of bench/sieve.c: include/qrbill.h
   says what is answered. */

#include <string.h>

#include "qrbill.h"

enum { MOST_MENDED = 4096, KEPT_LINES = 31, TOO_MANY = 2000, NO_ROOM = 15000 };

/* What the steps leave, and what was counted. */
struct mended {
    uint8_t bytes[MOST_MENDED];
    size_t length;
    uint16_t counts[QRBILL_MEND_COUNTS];
};

/* Takes the spaces back that end a line, and gives the line's end. */
static inline uint8_t *trimmed(const uint8_t *start, uint8_t *to)
{
    while (to > start && to[-1] == ' ')
        to--;
    return to;
}

static void rework(const uint8_t *payload, size_t length, struct mended *out)
{
    const uint8_t *at = payload, *end = payload + length;
    uint8_t *to = out->bytes, *start = to;
    size_t line = 1, pairs = 0, breaks = 0, dropped = 0;
    for (; at < end; at++) {
        if (*at == '\n' || *at == '\r') {
            if (*at == '\r') {
                breaks++;
                if (at + 1 < end && at[1] == '\n') {
                    pairs++;
                    at++;
                }
            }
            to = trimmed(start, to);
            *to++ = '\n';
            start = to;
            line++;
        } else if (*at != ' ' || (line != 4 && line != 29)) {
            *to++ = *at;
        }
    }
    to = trimmed(start, to);
    const size_t spaces = length - pairs - (size_t)(to - out->bytes);
    for (; line > KEPT_LINES && to[-1] == '\n'; line--, to--)
        dropped++;
    out->length = (size_t)(to - out->bytes);
    out->counts[0] = (uint16_t)breaks;
    out->counts[1] = (uint16_t)spaces;
    out->counts[2] = (uint16_t)dropped;
}

static uint32_t laid(const uint8_t *bytes, size_t length, const uint16_t *told,
                     uint8_t *destination, size_t room, uint16_t *counts, size_t numbers)
{
    if (room < length || numbers < QRBILL_MEND_COUNTS)
        return NO_ROOM;
    memcpy(destination, bytes, length);
    memcpy(counts, told, QRBILL_MEND_COUNTS * sizeof *told);
    return (uint32_t)length;
}

uint32_t qrbill_mend(const uint8_t *payload, size_t length, uint8_t *destination, size_t room,
                     uint16_t *counts, size_t numbers)
{
    static const uint16_t none[QRBILL_MEND_COUNTS];
    struct mended out;
    if (length > MOST_MENDED)
        return TOO_MANY;
    if (qrbill_read(payload, length) < 1000)
        return laid(payload, length, none, destination, room, counts, numbers);
    rework(payload, length, &out);
    const uint32_t answer = qrbill_read(out.bytes, out.length);
    if (answer >= 1000)
        return answer;
    return laid(out.bytes, out.length, out.counts, destination, room, counts, numbers);
}
