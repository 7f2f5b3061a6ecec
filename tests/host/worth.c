/* Makes each slip in a text of a payload, reads the payload with it, and writes what comes of it.

   Standard input is a row of records: three numbers of 32 bits, the lowest byte first as x86-64 has
   it, the length of a payload, where a text in it begins and where it ends, and then the payload. For
   each record the host writes a struct slip for every slip: first each byte of the text changed to
   every other digit, if it is one, or else to every other letter; then each two unlike neighbours
   swapped. A payload ends at a wall. The host ends with status 1 where the call changed the payload. */

#include <stdbool.h>
#include <stdint.h>
#include <stdio.h>
#include <string.h>

#include "qrbill.h"
#include "wall.h"

enum { MOST_PAYLOAD = 2000, SWAPPED = 0 };

struct head {
    uint32_t length, begin, end;
};

struct slip {
    uint32_t place, byte; /* the byte typed there, or SWAPPED */
    uint32_t answer;
};

static struct head head;
static uint8_t given[MOST_PAYLOAD];
static uint8_t *payload_end;

static bool next_given(void)
{
    return fread(&head, sizeof head, 1, stdin) == 1 && head.length <= MOST_PAYLOAD &&
           head.begin < head.end && head.end <= head.length &&
           fread(given, 1, head.length, stdin) == head.length;
}

static bool is_digit(uint32_t byte)
{
    return '0' <= byte && byte <= '9';
}

static bool is_letter(uint32_t byte)
{
    return ('A' <= byte && byte <= 'Z') || ('a' <= byte && byte <= 'z');
}

/* Reads what is given with a slip in it; answers false where the call changed the payload. */
static bool answer(uint32_t place, uint32_t byte)
{
    uint8_t *payload = memcpy(payload_end - head.length, given, head.length);
    const struct slip slip = {place, byte, qrbill_read(payload, head.length)};
    fwrite(&slip, sizeof slip, 1, stdout);
    return memcmp(payload, given, head.length) == 0;
}

static bool change(uint32_t place)
{
    const uint8_t right = given[place];
    bool kept = true;
    for (uint32_t byte = 1; byte < 128; byte++) {
        if (byte == right || !(is_digit(right) ? is_digit(byte) : is_letter(byte)))
            continue;
        given[place] = (uint8_t)byte;
        kept &= answer(place, byte);
    }
    given[place] = right;
    return kept;
}

static bool swap(uint32_t place)
{
    const uint8_t first = given[place], second = given[place + 1];
    if (first == second)
        return true;
    given[place] = second;
    given[place + 1] = first;
    const bool kept = answer(place, SWAPPED);
    given[place] = first;
    given[place + 1] = second;
    return kept;
}

static bool slips(void)
{
    bool kept = true;
    for (uint32_t place = head.begin; place < head.end; place++)
        kept &= change(place);
    for (uint32_t place = head.begin; place + 1 < head.end; place++)
        kept &= swap(place);
    return kept;
}

int main(void)
{
    payload_end = end_of_room(WALL);
    if (!payload_end)
        return 2;
    while (next_given())
        if (!slips())
            return 1;
    return 0;
}
