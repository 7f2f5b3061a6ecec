/* Tries the season of each record of standard input, and writes what comes of it: the answer, all
   numbers that were lent for the positions, with those in front of them, and all that were lent for
   the sums. The host ends with status 1 where the call changed what it may only read. */

#include "pile_record.h"
#include "qrbill.h"

int main(void)
{
    uint8_t *sums_end = end_of_room(WALL);
    if (!sums_end || !made_room())
        return 2;
    uint8_t *sums = sums_end - MOST_SUMS * sizeof(uint64_t);
    while (next_given()) {
        const struct head head = given.head;
        memset(sums, MARK, MOST_SUMS * sizeof(uint64_t));
        uint8_t *lent = sums_end - head.sums * sizeof(uint64_t);
        const uint32_t number = qrbill_season(lent_buffer(), head.length, lent_places(), head.numbers,
                                              head.count, lent_list(), head.room,
                                              (uint64_t *)(void *)lent, head.sums);
        fwrite(&number, sizeof number, 1, stdout);
        write_list();
        fwrite(sums, sizeof(uint64_t), MOST_SUMS, stdout);
        if (!kept())
            return 1;
    }
    return 0;
}
