/* Makes a call that gives counts beside its number, CALL, again and again, for bench/run and
   bench/mender to count instructions:

       counted_calls CALL TIMES < payload

   It writes the answer of a first call, what is laid and the counts, and then makes the call TIMES
   times. CALL, MOST_PAYLOAD and MOST_ROOM are given to the compiler, by tests/lib/counted_calls.py. */

#include <stdio.h>
#include <stdlib.h>

#include "qrbill.h"
#include "marking.h"

enum { NUMBERS = 8 };

int main(int argc, char **argv)
{
    static uint8_t payload[MOST_PAYLOAD], laid[MOST_ROOM];
    static uint16_t counts[NUMBERS];
    const size_t length = fread(payload, 1, MOST_PAYLOAD, stdin);
    if (argc < 3)
        return 1;
    printf("%u\n", CALL(payload, length, laid, MOST_ROOM, counts, NUMBERS));
    fwrite(laid, 1, sizeof laid, stdout);
    fwrite(counts, 1, sizeof counts, stdout);
    mark(argc);
    for (int left = atoi(argv[2]); left > 0; left--)
        CALL(payload, length, laid, MOST_ROOM, counts, NUMBERS);
    mark(argc);
    return 0;
}
