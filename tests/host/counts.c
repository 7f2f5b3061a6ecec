/* Makes a call that gives counts beside its number, CALL, for each record of standard input, and
   writes what comes of it: a struct result.

   A record is three numbers of 32 bits, the lowest byte first as x86-64 has it, the length of the
   payload, the room for the destination and how many numbers are lent for the counts, and then the
   payload. What is lent ends at a wall each, and both rooms are full of marks before the call, as is
   what lies in front of them. The host ends with status 1 where the call changed the payload.
   CALL, MOST_PAYLOAD and MOST_ROOM are given to the compiler, by tests/lib/counted_calls.py. */

#include <stdbool.h>
#include <stdint.h>
#include <stdio.h>
#include <string.h>

#include "qrbill.h"
#include "wall.h"

enum { MARK = 0xAA, MOST_NUMBERS = 8 };

struct head {
    uint32_t length, room, numbers;
};

struct result {
    uint32_t answer;
    uint8_t destination[MOST_ROOM];
    uint16_t counts[MOST_NUMBERS];
};

static struct head head;
static uint8_t given[MOST_PAYLOAD];
static uint8_t *payload_end, *destination_end, *counts_end;

static bool next_given(void)
{
    return fread(&head, sizeof head, 1, stdin) == 1 && head.length <= MOST_PAYLOAD &&
           head.room <= MOST_ROOM && head.numbers <= MOST_NUMBERS &&
           fread(given, 1, head.length, stdin) == head.length;
}

/* Answers false where the call changed the payload. */
static bool answer(struct result *result)
{
    uint8_t *payload = memcpy(payload_end - head.length, given, head.length);
    uint8_t *destinations = memset(destination_end - MOST_ROOM, MARK, MOST_ROOM);
    uint8_t *counts = memset(counts_end - sizeof result->counts, MARK, sizeof result->counts);
    uint8_t *lent = counts_end - head.numbers * sizeof(uint16_t);
    result->answer = CALL(payload, head.length, destination_end - head.room, head.room,
                          (uint16_t *)(void *)lent, head.numbers);
    memcpy(result->destination, destinations, MOST_ROOM);
    memcpy(result->counts, counts, sizeof result->counts);
    return memcmp(payload, given, head.length) == 0;
}

int main(void)
{
    struct result result;
    payload_end = end_of_room(WALL);
    destination_end = end_of_room(WALL);
    counts_end = end_of_room(WALL);
    if (!payload_end || !destination_end || !counts_end)
        return 2;
    while (next_given()) {
        if (!answer(&result))
            return 1;
        fwrite(&result, sizeof result, 1, stdout);
    }
    return 0;
}
