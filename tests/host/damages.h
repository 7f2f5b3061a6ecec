/* Payloads, and damage done to them by chance: the same for the same seed. */

#ifndef DAMAGES_H
#define DAMAGES_H

#include <stdbool.h>
#include <stddef.h>
#include <stdint.h>

enum { MOST_PAYLOAD = 2000 };

struct payload {
    size_t length;
    uint8_t bytes[MOST_PAYLOAD];
};

/* A part of a payload, in bytes. */
struct part {
    size_t start, length;
};

/* Takes the starting payloads from standard input, records as host.c reads them. Answers false
   where there is none, or one that is too long. */
bool read_starts(void);

/* Begins the row of numbers that `below` gives. */
void sow(uint64_t seed);

/* A number from 0 to bound - 1, by chance. */
size_t below(size_t bound);

/* A starting payload with none to three damages, by chance. */
void damaged_start(struct payload *payload);

/* Where the lines lie, without their breaks, of which no more than so many are told. How many there
   are. */
size_t cut(const struct payload *payload, struct part lines[], size_t most);

/* How many characters a part has, by their first bytes: those other than 80 to BF. */
size_t characters(const struct payload *payload, struct part part);

/* Whether the first break is CR LF. */
bool has_returns(const struct payload *payload);

#endif
