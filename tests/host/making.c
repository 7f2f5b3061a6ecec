/* Makes a number for each record of standard input, and writes what comes of it: a struct result.

   A record is a struct given: the kind (0 a QR reference, 1 a creditor reference, 2 an IBAN), the
   lengths of three parts, of which the first two kinds take the first, the room, and the parts. Each
   part and the destination end at a wall, and the destination is full of marks before the call, as is
   the room in front of it. The host ends with status 1 where a call changed a part. */

#include <stdint.h>
#include <stdio.h>
#include <string.h>

#include "qrbill.h"
#include "wall.h"

enum { MARK = 0xAA, PARTS = 3, MOST_PART = 40, MOST_MADE = 40 };

struct given {
    uint32_t kind;
    uint32_t lengths[PARTS];
    uint32_t room;
    uint8_t parts[PARTS][MOST_PART];
};

struct result {
    uint32_t answer;
    uint8_t destination[MOST_MADE];
};

static uint8_t *ends[PARTS], *destination_end;

static uint32_t call(const struct given *given, uint8_t *const parts[PARTS], uint8_t *destination)
{
    switch (given->kind) {
    case 0:
        return qrbill_make_qrr(parts[0], given->lengths[0], destination, given->room);
    case 1:
        return qrbill_make_scor(parts[0], given->lengths[0], destination, given->room);
    default:
        return qrbill_make_iban(parts[0], given->lengths[0], parts[1], given->lengths[1],
                                parts[2], given->lengths[2], destination, given->room);
    }
}

/* Answers false where the call changed a part. */
static bool answer(const struct given *given, struct result *result)
{
    uint8_t *parts[PARTS];
    bool kept = true;
    for (int i = 0; i < PARTS; i++)
        parts[i] = memcpy(ends[i] - given->lengths[i], given->parts[i], given->lengths[i]);
    uint8_t *all = memset(destination_end - MOST_MADE, MARK, MOST_MADE);
    result->answer = call(given, parts, destination_end - given->room);
    memcpy(result->destination, all, MOST_MADE);
    for (int i = 0; i < PARTS; i++)
        kept = kept && memcmp(parts[i], given->parts[i], given->lengths[i]) == 0;
    return kept;
}

int main(void)
{
    struct given given;
    struct result result;
    for (int i = 0; i < PARTS; i++)
        if (!(ends[i] = end_of_room(WALL)))
            return 2;
    if (!(destination_end = end_of_room(WALL)))
        return 2;
    while (fread(&given, sizeof given, 1, stdin) == 1) {
        if (!answer(&given, &result))
            return 1;
        fwrite(&result, sizeof result, 1, stdout);
    }
    return 0;
}
