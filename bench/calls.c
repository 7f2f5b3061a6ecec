/* Makes one of the calls for hosts again and again, for bench/run to count instructions:

       calls read|line|places|glance|write TIMES < record

   It writes the answer of a first call and then makes the call TIMES times. The line is 30. */

#include <stdlib.h>

#include "../tests/host/record.h"
#include "qrbill.h"
#include "marking.h"

static struct record given;

static uint32_t call(char kind)
{
    static uint16_t list[MOST_NUMBERS];
    static uint8_t destination[MOST_ROOM];
    switch (kind) {
    case 'r':
        return qrbill_read(given.text, given.length);
    case 'l':
        return qrbill_line(given.text, given.length, 30);
    case 'p':
        return qrbill_places(given.text, given.length, list, given.numbers);
    case 'g':
        return qrbill_glance(given.text, given.length);
    default:
        return qrbill_write(given.text, given.length, given.places, given.numbers, given.count,
                            given.crlf != 0, destination, given.room);
    }
}

int main(int argc, char **argv)
{
    if (argc < 3 || !next_record(&given))
        return 1;
    printf("%u\n", call(argv[1][0]));
    mark(argc);
    for (int left = atoi(argv[2]); left > 0; left--)
        call(argv[1][0]);
    mark(argc);
    return 0;
}
