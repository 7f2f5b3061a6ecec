/* Judges the pile of each record of standard input, and writes what comes of it: the answer, and
   all numbers that were lent for the entries, with those in front of them. The host ends with status
   1 where the call changed what it may only read. */

#include "pile_record.h"
#include "qrbill.h"

int main(void)
{
    if (!made_room())
        return 2;
    while (next_given()) {
        const struct head head = given.head;
        const uint32_t number = qrbill_pile(lent_buffer(), head.length, lent_places(), head.numbers,
                                            head.count, lent_list(), head.room);
        fwrite(&number, sizeof number, 1, stdout);
        write_list();
        if (!kept())
            return 1;
    }
    return 0;
}
