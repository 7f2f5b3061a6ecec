/* Makes every call with null pointers where the length is 0, and with pointers to nothing: the answers are the same.
   Writes a line for each call, its name and the two answers. */

#include <stdio.h>

#include "qrbill.h"

static const uint8_t nothing[1];
static uint8_t none[1];
static uint16_t no_numbers[1];
static uint32_t no_places[1];
static uint64_t no_sums[1];

static void say(const char *name, size_t null, size_t empty)
{
    printf("%s %u %u\n", name, (unsigned)null, (unsigned)empty);
}

int main(void)
{
    say("qrbill_read", qrbill_read(NULL, 0), qrbill_read(nothing, 0));
    say("qrbill_line", qrbill_line(NULL, 0, 4), qrbill_line(nothing, 0, 4));
    say("qrbill_places", qrbill_places(NULL, 0, NULL, 0), qrbill_places(nothing, 0, no_numbers, 0));
    say("qrbill_glance", qrbill_glance(NULL, 0), qrbill_glance(nothing, 0));
    say("qrbill_write", qrbill_write(NULL, 0, NULL, 0, 31, false, NULL, 0),
        qrbill_write(nothing, 0, no_numbers, 0, 31, false, none, 0));
    say("qrbill_make_qrr", qrbill_make_qrr(NULL, 0, NULL, 0), qrbill_make_qrr(nothing, 0, none, 0));
    say("qrbill_make_scor", qrbill_make_scor(NULL, 0, NULL, 0), qrbill_make_scor(nothing, 0, none, 0));
    say("qrbill_make_iban", qrbill_make_iban(NULL, 0, NULL, 0, NULL, 0, NULL, 0),
        qrbill_make_iban(nothing, 0, nothing, 0, nothing, 0, none, 0));
    say("qrbill_pile", qrbill_pile(NULL, 0, NULL, 0, 0, NULL, 0),
        qrbill_pile(nothing, 0, no_places, 0, 0, no_numbers, 0));
    say("qrbill_season", qrbill_season(NULL, 0, NULL, 0, 0, NULL, 0, NULL, 0),
        qrbill_season(nothing, 0, no_places, 0, 0, no_numbers, 0, no_sums, 0));
    say("qrbill_swift", qrbill_swift(NULL, 0, NULL, 0, NULL, 0), qrbill_swift(nothing, 0, none, 0, no_numbers, 0));
    say("qrbill_mend", qrbill_mend(NULL, 0, NULL, 0, NULL, 0), qrbill_mend(nothing, 0, none, 0, no_numbers, 0));
    say("qrbill_hand", qrbill_hand(NULL, 0, 0, NULL, 0), qrbill_hand(none, 0, 0, nothing, 0));
    say("girocode_read", girocode_read(NULL, 0), girocode_read(nothing, 0));
    say("girocode_line", girocode_line(NULL, 0, 7), girocode_line(nothing, 0, 7));
    say("girocode_places", girocode_places(NULL, 0, NULL, 0), girocode_places(nothing, 0, no_numbers, 0));
    say("girocode_write", girocode_write(NULL, 0, NULL, 0, 7, false, NULL, 0),
        girocode_write(nothing, 0, no_numbers, 0, 7, false, none, 0));
    return 0;
}
