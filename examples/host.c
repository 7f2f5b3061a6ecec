/* A host in C: says why the payload on standard input is refused, or writes its lines, each with its number. */

#include <stdint.h>
#include <stdio.h>

#include "qrbill.h"

enum { ROOM = 998 }; /* one byte more than a payload may have, so that a longer one is told */

int main(void)
{
    static uint8_t payload[ROOM];
    size_t length = fread(payload, 1, ROOM, stdin);
    uint32_t answer = qrbill_read(payload, length);
    if (ferror(stdin))
        return 2; /* what came is not whole */
    if (answer >= 1000) {
        printf("refused %u line %u\n", answer / 1000, answer % 1000);
        return 1;
    }
    for (uint32_t line = 1; line <= answer; line++) {
        uint32_t place = qrbill_line(payload, length, line);
        printf("%2u %.*s\n", line, (int)(place % 1000), (const char *)payload + place / 1000);
    }
    return 0;
}
