/* Piles and seasons in plain C, as one writes them by hand, over bench/sieve.c: include/qrbill.h says
   what is answered. A season judges by the rules itself: it cuts a bill once for both editions. */

#include <string.h>

#include "qrbill.h"
#include "rules.h"

/* Refuses a count, or the first place outside the buffer; 0 where each bill has its place. */
static inline uint32_t misplaced(size_t length, const uint32_t *places, size_t numbers,
                                 uint32_t count)
{
    if (count > QRBILL_MOST_BILLS || 2 * count > numbers)
        return refused(LINE_COUNT, 0);
    for (uint32_t i = 0; i < count; i++)
        if ((uint64_t)places[2 * i] + places[2 * i + 1] > length)
            return refused(OUTSIDE_TEXT, i + 1);
    return 0;
}

uint32_t qrbill_pile(const uint8_t *buffer, size_t length, const uint32_t *places, size_t numbers,
                     uint32_t count, uint16_t *answers, size_t room)
{
    const uint32_t refusal = misplaced(length, places, numbers, count);
    if (refusal != 0)
        return refusal;
    if (room < 2 * count)
        return refused(NO_ROOM, 0);
    for (uint32_t i = 0; i < count; i++) {
        const uint32_t answer = qrbill_read(buffer + places[2 * i], places[2 * i + 1]);
        answers[2 * i] = (uint16_t)(answer / 1000);
        answers[2 * i + 1] = (uint16_t)(answer % 1000);
    }
    return 0;
}

/* The amount of an accepted bill in cents; 0 without amount. */
static inline uint64_t cents_of(const struct bill *bill)
{
    const uint32_t size = size_of(bill, 19);
    const uint8_t *at = text_of(bill, 19), *point = at + size - 3; /* not used if there are no bytes */
    uint64_t cents = 0;
    if (size == 0)
        return 0;
    for (; at < point; at++)
        cents = 10 * cents + *at - '0';
    return 100 * cents + 10u * point[1] + point[2] - 11 * '0';
}

/* Whether the editions differ on a payload. The cents of what 2.2 accepts go to the sum of CHF, which
   comes first, or of EUR. What 2.4 accepts 2.2 accepts too. */
static inline bool differ(const uint8_t *payload, size_t length, uint64_t *sums)
{
    struct bill bill;
    if (cut(payload, length, &bill) != 0)
        return false;
    const uint32_t refusal = judge_lines(0, &bill, V24);
    const uint32_t old_refusal = refusal == 0 ? 0 : judge_lines(0, &bill, V22);
    if (old_refusal == 0)
        sums[*text_of(&bill, 20) == 'E'] += cents_of(&bill);
    return refusal != old_refusal;
}

uint32_t qrbill_season(const uint8_t *buffer, size_t length, const uint32_t *places, size_t numbers,
                       uint32_t count, uint16_t *list, size_t room, uint64_t *sums,
                       size_t sums_room)
{
    uint64_t found[QRBILL_SUMS] = {0, 0};
    uint32_t listed = 0;
    const uint32_t refusal = misplaced(length, places, numbers, count);
    if (refusal != 0)
        return refusal;
    if (room < count || sums_room < QRBILL_SUMS)
        return refused(NO_ROOM, 0);
    for (uint32_t i = 0; i < count; i++)
        if (differ(buffer + places[2 * i], places[2 * i + 1], found))
            list[listed++] = (uint16_t)(i + 1);
    memcpy(sums, found, sizeof found);
    return listed;
}
