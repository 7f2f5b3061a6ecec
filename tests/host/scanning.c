/* Hands over the bits of each record of standard input, and writes what comes of it: the length and all
   that was lent after each bit, and a struct closing.

   A record is a struct head and then for each bit its length, of 32 bits with the lowest byte first as
   x86-64 has it, and its bytes. The room and the bit end at a wall each, and the room is full of
   marks before the first call, as is what lies in front of it. The host ends with status 1 where a call
   changed the bit. Where the last length is more than the room has, it is not read, and the closing is
   full of marks. */

#include <stdbool.h>
#include <stdint.h>
#include <stdio.h>
#include <string.h>

#include "qrbill.h"
#include "wall.h"

enum { MARK = 0xAA, MOST_ROOM = 1010, MOST_BIT = 8192 };

struct head {
    uint64_t length;
    uint32_t room, bits;
};

struct closing {
    uint32_t judged, read;
    uint16_t list[QRBILL_NUMBERS];
};

static uint8_t given[MOST_BIT];
static uint8_t *room_end, *bit_end;

static bool next_bit(uint32_t *bytes)
{
    return fread(bytes, sizeof *bytes, 1, stdin) == 1 && *bytes <= MOST_BIT &&
           fread(given, 1, *bytes, stdin) == *bytes;
}

/* Answers false where the call changed the bit. */
static bool hand(size_t room, uint64_t *length, uint32_t bytes)
{
    const uint8_t *bit = memcpy(bit_end - bytes, given, bytes);
    *length = qrbill_hand(room_end - room, room, *length, bit, bytes);
    fwrite(length, sizeof *length, 1, stdout);
    fwrite(room_end - MOST_ROOM, 1, MOST_ROOM, stdout);
    return memcmp(bit, given, bytes) == 0;
}

static void close_scan(size_t room, uint64_t length)
{
    struct closing closing;
    memset(&closing, MARK, sizeof closing);
    if (length <= room) {
        const uint8_t *held = room_end - room;
        closing.judged = qrbill_read(held, length);
        closing.read = qrbill_places(held, length, closing.list, QRBILL_NUMBERS);
    }
    fwrite(&closing, sizeof closing, 1, stdout);
}

int main(void)
{
    struct head head;
    uint32_t bytes;
    room_end = end_of_room(WALL);
    bit_end = end_of_room(WALL);
    if (!room_end || !bit_end)
        return 2;
    while (fread(&head, sizeof head, 1, stdin) == 1 && head.room <= MOST_ROOM) {
        memset(room_end - MOST_ROOM, MARK, MOST_ROOM);
        for (uint32_t i = 0; i < head.bits; i++)
            if (!next_bit(&bytes) || !hand(head.room, &head.length, bytes))
                return 1;
        close_scan(head.room, head.length);
    }
    return 0;
}
