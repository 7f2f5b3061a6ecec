/* Hands over a payload in bits of so many bytes, for bench/run and bench/scanner to count
   instructions:

       scan_calls BYTES TIMES < payload

   It writes how many bytes are held, after a first round, and then goes round TIMES times. With 0 bytes
   a round hands over nothing. */

#include <stdio.h>
#include <stdlib.h>

#include "qrbill.h"
#include "marking.h"

static uint8_t payload[QRBILL_HELD], held[QRBILL_HELD];

static size_t go_round(size_t length, size_t bytes)
{
    size_t kept = 0;
    for (size_t at = 0; bytes > 0 && at < length; at += bytes)
        kept = qrbill_hand(held, sizeof held, kept, payload + at,
                           length - at < bytes ? length - at : bytes);
    return kept;
}

int main(int argc, char **argv)
{
    if (argc < 3)
        return 1;
    const size_t length = fread(payload, 1, sizeof payload, stdin);
    const size_t bytes = (size_t)atoi(argv[1]);
    printf("%u\n", (unsigned)go_round(length, bytes));
    mark(argc);
    for (int left = atoi(argv[2]); left > 0; left--)
        go_round(length, bytes);
    mark(argc);
    return 0;
}
