/* Makes a number again and again, for bench/run to count instructions:

       make_calls qrr|scor|iban TIMES < text

   The text is the 26 digits, the reference, or country, IID and account one after the other. It
   writes the answer of a first call and the number, and then makes the call TIMES times. */

#include <stdio.h>
#include <stdlib.h>

#include "qrbill.h"
#include "marking.h"

enum { MOST = 40 };

static uint8_t text[MOST], destination[MOST];

static uint32_t call(char kind, size_t length)
{
    switch (kind) {
    case 'q':
        return qrbill_make_qrr(text, length, destination, MOST);
    case 's':
        return qrbill_make_scor(text, length, destination, MOST);
    default:
        return qrbill_make_iban(text, 2, text + 2, 5, text + 7, length - 7, destination, MOST);
    }
}

int main(int argc, char **argv)
{
    const size_t length = fread(text, 1, MOST, stdin);
    if (argc < 3)
        return 1;
    printf("%u %.40s\n", call(argv[1][0], length), (const char *)destination);
    mark(argc);
    for (int left = atoi(argv[2]); left > 0; left--)
        call(argv[1][0], length);
    mark(argc);
    return 0;
}
