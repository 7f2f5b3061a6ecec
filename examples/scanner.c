/* A payload that comes in bits, as from a serial scanner: takes standard input seven bytes at a time, and says why the
   payload is refused, or writes its lines, each with its number. */

#include <stdint.h>
#include <stdio.h>

#include "qrbill.h"

enum { BIT = 7 };

int main(void)
{
    static uint8_t held[QRBILL_HELD];
    uint8_t bit[BIT];
    size_t length = 0, bytes;
    while ((bytes = fread(bit, 1, BIT, stdin)) > 0)
        length = qrbill_hand(held, sizeof held, length, bit, bytes);
    if (ferror(stdin))
        return 2; /* what came is not whole */
    uint32_t answer = qrbill_read(held, length);
    if (answer >= 1000) {
        printf("refused %u line %u\n", answer / 1000, answer % 1000);
        return 1;
    }
    for (uint32_t line = 1; line <= answer; line++) {
        uint32_t place = qrbill_line(held, length, line);
        printf("%2u %.*s\n", line, (int)(place % 1000), (const char *)held + place / 1000);
    }
    return 0;
}
