/* Mends the payload on standard input, as a mail program may have mangled it: writes what comes of it,
   or why it is refused, and says what was mended on a last line of its own. */

#include <stdio.h>

#include "qrbill.h"

enum { MOST_BYTES = 4096 };

int main(void)
{
    static uint8_t payload[MOST_BYTES + 1];
    uint8_t mended[QRBILL_MENDED_BYTES];
    uint16_t counts[QRBILL_MEND_COUNTS];
    size_t length = fread(payload, 1, sizeof payload, stdin);
    uint32_t answer =
        qrbill_mend(payload, length, mended, sizeof mended, counts, QRBILL_MEND_COUNTS);

    if (answer >= 1000) {
        printf("refused %u line %u\n", answer / 1000, answer % 1000);
        return 1;
    }
    fwrite(mended, 1, answer, stdout);
    printf("\nbreaks %u, spaces %u, lines %u\n", (unsigned)counts[0], (unsigned)counts[1],
           (unsigned)counts[2]);
    return 0;
}
