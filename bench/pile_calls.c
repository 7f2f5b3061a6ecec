/* Judges a pile of bills, or the same bills one by one, or tries them under both editions, for
   bench/run, bench/pile and bench/season to count instructions:

       pile_calls pile|single|both TIMES < bills

   Standard input has a length of four bytes, the lowest first, and that many bytes for each bill. It
   writes the answer of a first round, all numbers that are lent for entries or positions, and the
   sums, and then goes round TIMES times. */

#include <stdio.h>
#include <stdlib.h>

#include "qrbill.h"
#include "marking.h"

enum { MOST_BILLS = 500, MOST_BYTES = 1000 };

static uint8_t buffer[MOST_BILLS * MOST_BYTES];
static uint32_t places[2 * MOST_BILLS], count;
static uint16_t answers[2 * MOST_BILLS];
static uint64_t sums[QRBILL_SUMS];

static void read_bills(void)
{
    uint32_t start = 0, length;
    while (count < MOST_BILLS && fread(&length, sizeof length, 1, stdin) == 1 &&
           length <= MOST_BYTES && fread(buffer + start, 1, length, stdin) == length) {
        places[2 * count] = start;
        places[2 * count + 1] = length;
        start += length;
        count++;
    }
}

static uint32_t go_round(char kind)
{
    if (kind == 'p')
        return qrbill_pile(buffer, sizeof buffer, places, 2 * MOST_BILLS, count, answers,
                           2 * MOST_BILLS);
    if (kind == 'b')
        return qrbill_season(buffer, sizeof buffer, places, 2 * MOST_BILLS, count, answers,
                             MOST_BILLS, sums, QRBILL_SUMS);
    for (uint32_t i = 0; i < count; i++) {
        const uint32_t answer = qrbill_read(buffer + places[2 * i], places[2 * i + 1]);
        answers[2 * i] = (uint16_t)(answer / 1000);
        answers[2 * i + 1] = (uint16_t)(answer % 1000);
    }
    return 0;
}

int main(int argc, char **argv)
{
    if (argc < 3)
        return 1;
    read_bills();
    printf("%u\n", go_round(argv[1][0]));
    fwrite(answers, 1, sizeof answers, stdout);
    fwrite(sums, 1, sizeof sums, stdout);
    mark(argc);
    for (int left = atoi(argv[2]); left > 0; left--)
        go_round(argv[1][0]);
    mark(argc);
    return 0;
}
