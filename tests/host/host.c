/* A program that calls the library as a host in C does, and writes what it answers.

   Standard input is a row of records: a length of four bytes, the lowest first as x86-64 has it,
   and a payload of that length. For each record the host writes one line: what qrbill_read answers,
   then what qrbill_line answers for lines 0 to 35, then what qrbill_glance answers. Compiled for the
   girocode it makes the calls of that, for lines 0 to 13, and no glance. It ends with status 1 where a call changed the
   payload.

   A payload is laid against a wall. */

#include <stdbool.h>
#include <stdint.h>
#include <stdio.h>
#include <string.h>

#include "layout.h"
#include "wall.h"

enum { ROOM = 1 << 20 };

static uint8_t copy[ROOM];

/* Writes the line of numbers for one payload; answers false where a call changed the payload. */
static bool answer(const uint8_t *payload, size_t length)
{
    printf("%u", layout_read(payload, length));
    if (memcmp(payload, copy, length) != 0)
        return false;
    for (uint32_t line = 0; line <= LAST_LINE; line++) {
        printf(" %u", layout_line(payload, length, line));
        if (memcmp(payload, copy, length) != 0)
            return false;
    }
#ifndef GIROCODE
    printf(" %u", qrbill_glance(payload, length));
#endif
    printf("\n");
    if (memcmp(payload, copy, length) != 0)
        return false;
    fflush(stdout); /* so that the last line is there if the next payload ends the host */
    return true;
}

int main(void)
{
    uint8_t *end = end_of_room(ROOM);
    uint32_t length;
    if (end == NULL)
        return 2;
    while (fread(&length, sizeof length, 1, stdin) == 1) {
        if (length > ROOM || fread(copy, 1, length, stdin) != length)
            return 2;
        memcpy(end - length, copy, length);
        if (!answer(end - length, length))
            return 1;
    }
    return 0;
}
