/* A record of bills in one buffer, as the hosts that judge piles and try seasons read it.

   It is five numbers of 32 bits, the lowest byte first as x86-64 has it, the length of the buffer,
   how many numbers `places` has, the count, the room for entries and how many sums are lent, and
   then the places and the buffer. What is lent ends at a wall each. */

#ifndef PILE_RECORD_H
#define PILE_RECORD_H

#include <stdbool.h>
#include <stdio.h>
#include <string.h>

#include "wall.h"

enum { MARK = 0xAA, MOST_BUFFER = 8 * WALL, MOST_PLACES = 1010, MOST_ROOM = 1010, MOST_SUMS = 4 };

struct head {
    uint32_t length, numbers, count, room, sums;
};

struct given {
    struct head head;
    uint32_t places[MOST_PLACES];
    uint8_t buffer[MOST_BUFFER];
};

static struct given given;
static uint8_t *buffer_end, *places_end, *list_end;

/* The rooms; false where there are none. */
static bool made_room(void)
{
    buffer_end = end_of_room(MOST_BUFFER);
    places_end = end_of_room(WALL);
    list_end = end_of_room(WALL);
    return buffer_end && places_end && list_end;
}

/* Reads the next record and lends its buffer and its places; the room for entries, with what lies in
   front of it, is full of marks. */
static bool next_given(void)
{
    struct head *head = &given.head;
    if (fread(head, sizeof *head, 1, stdin) != 1 || head->length > MOST_BUFFER ||
        head->numbers > MOST_PLACES || head->room > MOST_ROOM || head->sums > MOST_SUMS ||
        fread(given.places, sizeof *given.places, head->numbers, stdin) != head->numbers ||
        fread(given.buffer, 1, head->length, stdin) != head->length)
        return false;
    memcpy(buffer_end - head->length, given.buffer, head->length);
    memcpy(places_end - head->numbers * sizeof *given.places, given.places,
           head->numbers * sizeof *given.places);
    memset(list_end - MOST_ROOM * sizeof(uint16_t), MARK, MOST_ROOM * sizeof(uint16_t));
    return true;
}

static const uint8_t *lent_buffer(void)
{
    return buffer_end - given.head.length;
}

static const uint32_t *lent_places(void)
{
    return (const uint32_t *)(const void *)(places_end - given.head.numbers * sizeof(uint32_t));
}

static uint16_t *lent_list(void)
{
    return (uint16_t *)(void *)(list_end - given.head.room * sizeof(uint16_t));
}

/* Writes all numbers that were lent for entries, with those in front of them. */
static void write_list(void)
{
    fwrite(list_end - MOST_ROOM * sizeof(uint16_t), sizeof(uint16_t), MOST_ROOM, stdout);
}

/* Whether a call left the buffer and the places as they were. */
static bool kept(void)
{
    return memcmp(lent_buffer(), given.buffer, given.head.length) == 0 &&
           memcmp(lent_places(), given.places, given.head.numbers * sizeof *given.places) == 0;
}

#endif
