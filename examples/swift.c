/* SWIFT fields in C: writes those of the payload on standard input, each behind its tag, and how
   many characters were cut and replaced; or why there are none. */

#include <stdio.h>

#include "qrbill.h"

enum { MOST_BYTES = 997, FIELDS = 3 };

/* Writes so many lines from a place on, and gives the place behind them. */
static size_t write_lines(const uint8_t *bytes, size_t length, size_t at, uint16_t lines)
{
    while (lines > 0 && at < length) {
        if (bytes[at] == '\n')
            lines--;
        if (bytes[at] != '\r')
            fwrite(&bytes[at], 1, 1, stdout);
        at++;
    }
    return at;
}

int main(void)
{
    static const char *const tags[FIELDS] = {"59a", "32B", "70"};
    uint8_t payload[MOST_BYTES + 1], laid[QRBILL_SWIFT_BYTES];
    uint16_t counts[QRBILL_SWIFT_COUNTS];
    size_t length = fread(payload, 1, sizeof payload, stdin), at = 0;
    uint32_t answer = qrbill_swift(payload, length, laid, sizeof laid, counts, QRBILL_SWIFT_COUNTS);

    if (answer >= 1000) {
        printf("refused %u line %u\n", answer / 1000, answer % 1000);
        return 1;
    }
    for (int field = 0; field < FIELDS; field++) {
        if (counts[field] > 0)
            printf("%s:\n", tags[field]);
        at = write_lines(laid, answer, at, counts[field]);
    }
    printf("\ncut %u, replaced %u\n", (unsigned)counts[3], (unsigned)counts[4]);
    return 0;
}
