/* Calls qrbill_places and qrbill_write for each record of standard input, and writes what comes of
   it: a struct result.

   qrbill_places takes the text as a payload and fills a list; qrbill_write joins the lines that the
   record's list finds in the text. Compiled for the girocode it makes the calls of that. What is
   lent is laid against a wall each, and full of marks before the call, as is the room in front of
   it. The host ends with status 1 where a call changed what it may only read. */

#include <string.h>

#include "layout.h"
#include "record.h"
#include "wall.h"

enum { MARK = 0xAA };

struct result {
    uint32_t read;
    uint16_t places[MOST_NUMBERS];
    uint32_t written;
    uint8_t destination[MOST_ROOM];
};

/* Where the room ends that is lent for each. */
static uint8_t *text_end, *given_end, *list_end, *destination_end;

static bool made_rooms(void)
{
    text_end = end_of_room(2 * WALL);
    given_end = end_of_room(WALL);
    list_end = end_of_room(WALL);
    destination_end = end_of_room(WALL);
    return text_end && given_end && list_end && destination_end;
}

/* Makes both calls; answers false where one of them changed the text or the list for the writer. */
static bool answer(const struct record *given, struct result *result)
{
    const size_t given_bytes = given->numbers * sizeof *given->places;
    uint8_t *text = memcpy(text_end - given->length, given->text, given->length);
    uint16_t *places = memcpy(given_end - given_bytes, given->places, given_bytes);
    uint8_t *lists = memset(list_end - sizeof result->places, MARK, sizeof result->places);
    uint8_t *destinations = memset(destination_end - MOST_ROOM, MARK, MOST_ROOM);

    result->read = layout_places(text, given->length, (uint16_t *)(void *)(list_end - given_bytes),
                                 given->numbers);
    result->written = layout_write(text, given->length, places, given->numbers,
                                   given->count, given->crlf != 0, destination_end - given->room,
                                   given->room);
    memcpy(result->places, lists, sizeof result->places);
    memcpy(result->destination, destinations, MOST_ROOM);
    return memcmp(text, given->text, given->length) == 0 &&
           memcmp(places, given->places, given_bytes) == 0;
}

int main(void)
{
    static struct record given;
    struct result result;
    if (!made_rooms())
        return 2;
    while (next_record(&given)) {
        if (!answer(&given, &result))
            return 1;
        fwrite(&result, sizeof result, 1, stdout);
    }
    return 0;
}
