/* Makes one of the two reckonings of MOD 97-10 again and again, for bench/digits to count
   instructions:

       digit_calls plain|table TIMES < text

   It writes the remainder of a first call and then makes the call TIMES times. */

#include <stdint.h>
#include <stdio.h>
#include <stdlib.h>

#include "marking.h"

uint64_t plain97(const uint8_t *text, size_t length);
uint64_t table97(const uint8_t *text, size_t length);

static uint8_t text[100];
static size_t length;

static unsigned call(char kind)
{
    return (unsigned)(kind == 'p' ? plain97(text, length) : table97(text, length));
}

int main(int argc, char **argv)
{
    if (argc < 3)
        return 1;
    length = fread(text, 1, sizeof text, stdin);
    printf("%u\n", call(argv[1][0]));
    mark(argc);
    for (int left = atoi(argv[2]); left > 0; left--)
        call(argv[1][0]);
    mark(argc);
    return 0;
}
