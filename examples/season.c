/* Last season again: tries the bills in the files that are named, up to 500, under both editions of the Guidelines.
   Writes the names of those on which the two differ, and the sums of what 2.2 accepts; or why none was tried. */

#include <stdint.h>
#include <stdio.h>

#include "qrbill.h"

enum { MOST_BILLS = 500, MOST_BYTES = 997 };

static uint8_t buffer[MOST_BILLS * (MOST_BYTES + 1)];
static uint32_t places[2 * MOST_BILLS];
static uint16_t list[MOST_BILLS];

static void write_sum(const char *currency, uint64_t cents)
{
    printf("%s %llu.%02llu\n", currency, (unsigned long long)(cents / 100),
           (unsigned long long)(cents % 100));
}

int main(int argc, char **argv)
{
    uint64_t sums[QRBILL_SUMS];
    uint32_t count = 0;
    size_t start = 0;
    while (count < MOST_BILLS && (int)count + 1 < argc) {
        FILE *file = fopen(argv[count + 1], "rb");
        if (!file)
            return 2;
        const size_t bytes = fread(buffer + start, 1, MOST_BYTES + 1, file); /* one too many shows */
        fclose(file);
        places[2 * count] = (uint32_t)start;
        places[2 * count + 1] = (uint32_t)bytes;
        start += bytes;
        count++;
    }
    const uint32_t answer = qrbill_season(buffer, start, places, 2 * MOST_BILLS, count, list,
                                          MOST_BILLS, sums, QRBILL_SUMS);
    if (answer >= 1000) {
        printf("refused %u position %u\n", answer / 1000, answer % 1000);
        return 1;
    }
    for (uint32_t i = 0; i < answer; i++)
        printf("%u %s\n", (unsigned)list[i], argv[list[i]]);
    write_sum("CHF", sums[0]);
    write_sum("EUR", sums[1]);
    return 0;
}
