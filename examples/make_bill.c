/* A host in C: writes the payload of a bill that is made from fields, as

       make_bill account=CH5800791123000889012 name='Schule Muster' postcode=8000 town=Seldwyla \
                 country=CH amount=199.95 currency=CHF type=SCOR reference=RF18539007547034

   or says on standard error why there is no such bill. The fields lie one after another in a text, and a list says
   where: the writer joins them, once every rule is kept. */

#include <stdint.h>
#include <stdio.h>
#include <string.h>

#include "qrbill.h"

enum { LINES = 34, FEWEST_LINES = 31, MOST_BYTES = 997, DEBTOR = 21, LAST_OF_DEBTOR = 27 };

/* The line of each field that a user gives. */
static const struct {
    const char *name;
    uint8_t line;
} fields[] = {
    {"account", 4}, {"name", 6}, {"street", 7}, {"house", 8}, {"postcode", 9}, {"town", 10},
    {"country", 11}, {"amount", 19}, {"currency", 20}, {"debtor-name", 22}, {"debtor-street", 23},
    {"debtor-house", 24}, {"debtor-postcode", 25}, {"debtor-town", 26}, {"debtor-country", 27},
    {"type", 28}, {"reference", 29}, {"message", 30}, {"billing", 32}, {"procedure", 33},
    {"procedure-2", 34},
};

static const char *lines[LINES + 1]; /* from 1 */

/* Takes `name=text`; answers 0 if there is no such field. */
static int take(const char *word)
{
    for (size_t i = 0; i < sizeof fields / sizeof *fields; i++) {
        size_t size = strlen(fields[i].name);
        if (strncmp(word, fields[i].name, size) == 0 && word[size] == '=') {
            lines[fields[i].line] = word + size + 1;
            return 1;
        }
    }
    return 0;
}

/* The texts that every bill has, and the address type of a debtor who is there. */
static void complete(void)
{
    for (int line = 1; line <= LINES; line++) {
        if (lines[line] == NULL)
            lines[line] = "";
        else if (DEBTOR < line && line <= LAST_OF_DEBTOR)
            lines[DEBTOR] = "S";
    }
    lines[1] = "SPC";
    lines[2] = "0200";
    lines[3] = "1";
    lines[5] = "S";
    lines[31] = "EPD";
}

/* The bytes other than 80 to BF: those that begin a character. */
static uint16_t characters(const char *text)
{
    uint16_t n = 0;
    for (; *text; text++)
        n += ((uint8_t)*text & 0xC0) != 0x80;
    return n;
}

int main(int argc, char **argv)
{
    static uint8_t text[MOST_BYTES + 1], payload[MOST_BYTES];
    uint16_t list[QRBILL_NUMBERS];
    size_t end = 0;
    uint32_t count = FEWEST_LINES;

    for (int i = 1; i < argc; i++)
        if (!take(argv[i])) {
            fprintf(stderr, "no field %s\n", argv[i]);
            return 2;
        }
    complete();
    for (uint8_t line = 1; line <= LINES; line++) {
        size_t size = strlen(lines[line]);
        if (size > sizeof text - end) {
            fprintf(stderr, "refused 2 line 0\n"); /* more than any bill may have */
            return 1;
        }
        memcpy(text + end, lines[line], size);
        list[3 * line - 3] = (uint16_t)end;
        list[3 * line - 2] = (uint16_t)size;
        list[3 * line - 1] = characters(lines[line]);
        end += size;
        if (size > 0 && line > count)
            count = line;
    }
    uint32_t answer = qrbill_write(text, end, list, QRBILL_NUMBERS, count, false, payload,
                                   sizeof payload);
    if (answer >= 1000) {
        fprintf(stderr, "refused %u line %u\n", answer / 1000, answer % 1000);
        return 1;
    }
    fwrite(payload, 1, answer, stdout);
    return 0;
}
