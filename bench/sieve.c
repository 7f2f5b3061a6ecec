/* The reader and the writer of Swiss QR-bill payloads in plain C, written for speed: the calls of
   include/qrbill.h, which says what they answer, to compare with. Tested, not proved. The rules stand
   in bench/rules.h. */

#include "qrbill.h"

#include <string.h>

#include "rules.h"

enum { EACH = 3, LIST_NUMBERS = EACH * MOST_LINES }; /* a line's start, its bytes and its characters */
enum { MOST_TOLD = 999 }; /* of a count of lines that is refused: a packed line has three digits */

/* Cuts and judges a payload, by 2.4. Answers 0 or the refusal. */
static inline uint32_t judge(const uint8_t *payload, size_t length, struct bill *bill)
{
    return judge_lines(cut(payload, length, bill), bill, V24);
}

/* The reader. */

uint32_t qrbill_read(const uint8_t *payload, size_t length)
{
    struct bill bill;
    uint32_t refusal = judge(payload, length, &bill);
    return refusal != 0 ? refusal : bill.count;
}

uint32_t qrbill_line(const uint8_t *payload, size_t length, uint32_t line)
{
    struct bill bill;
    if (line < 1 || line > MOST_LINES || judge(payload, length, &bill) != 0)
        return 0;
    if (line > bill.count)
        return (uint32_t)(1000 * length);
    return 1000 * bill.starts[line] + size_of(&bill, line);
}

uint32_t qrbill_places(const uint8_t *payload, size_t length, uint16_t *places, size_t numbers)
{
    struct bill bill;
    uint32_t refusal = judge(payload, length, &bill);
    if (refusal != 0)
        return refusal;
    if (numbers < LIST_NUMBERS)
        return refused(NO_ROOM, 0);
    for (size_t line = 1; line <= bill.count; line++) {
        uint16_t *entry = places + EACH * (line - 1);
        entry[0] = (uint16_t)bill.starts[line];
        entry[1] = entry[2] = (uint16_t)size_of(&bill, line);
    }
    for (size_t line = 1; bill.wide && line <= bill.count; line++)
        places[EACH * line - 1] = (uint16_t)characters(&bill, line);
    for (size_t line = bill.count + 1; line <= MOST_LINES; line++) {
        uint16_t *entry = places + EACH * (line - 1);
        entry[0] = (uint16_t)length;
        entry[1] = entry[2] = 0;
    }
    return bill.count + (bill.width == 2 ? 100 : 0);
}

/* What qrbill_places answers, with start and length alone of each line, as bench/swift.c needs them. */
uint32_t lines_of(const uint8_t *payload, size_t length, uint16_t *places)
{
    struct bill bill;
    uint32_t refusal = judge(payload, length, &bill);
    if (refusal != 0)
        return refusal;
    for (size_t line = 1; line <= bill.count; line++) {
        places[2 * line - 2] = (uint16_t)bill.starts[line];
        places[2 * line - 1] = (uint16_t)size_of(&bill, line);
    }
    for (size_t line = bill.count + 1; line <= MOST_LINES; line++) {
        places[2 * line - 2] = (uint16_t)length;
        places[2 * line - 1] = 0;
    }
    return bill.count + (bill.width == 2 ? 100 : 0);
}

/* The glance. */

enum { LOOKED = 37, IBAN_SIZE = 21 };

/* How many bytes the break has that begins here; 0 where none begins. */
static inline size_t break_at(const uint8_t *at, const uint8_t *end)
{
    if (at < end && *at == '\n')
        return 1;
    return end - at > 1 && at[0] == '\r' && at[1] == '\n' ? 2 : 0;
}

/* What comes after a fixed text and a break; null where they are not there. */
static inline const uint8_t *after(const uint8_t *at, const uint8_t *end, const char *text,
                                   size_t size)
{
    if ((size_t)(end - at) < size || memcmp(at, text, size) != 0)
        return NULL;
    size_t width = break_at(at + size, end);
    return width == 0 ? NULL : at + size + width;
}

uint32_t qrbill_glance(const uint8_t *payload, size_t length)
{
    const uint8_t *end = payload + (length < LOOKED ? length : LOOKED);
    const uint8_t *at = after(payload, end, "SPC", 3);
    if (at != NULL)
        at = after(at, end, "0200", 4);
    if (at != NULL)
        at = after(at, end, "1", 1);
    if (at == NULL || end - at < IBAN_SIZE)
        return 0;
    const uint8_t *stop = at + IBAN_SIZE;
    if (break_at(stop, end) == 0 && (stop < end || length > LOOKED))
        return 0;
    return broken_on_iban(at) != 0 ? 0 : (uint32_t)(1000 * (at - payload) + IBAN_SIZE);
}

/* The writer. */

/* Lays lines of a text one after another, with breaks between them. */
static void join(const uint8_t *text, const uint16_t *places, size_t count, bool crlf, uint8_t *to)
{
    for (size_t i = 0; i < count; i++) {
        if (i > 0 && crlf)
            *to++ = '\r';
        if (i > 0)
            *to++ = '\n';
        memcpy(to, text + places[EACH * i], places[EACH * i + 1]);
        to += places[EACH * i + 1];
    }
}

/* Refuses the first line that lies outside the text, and then the first that has other characters than
   the list says. Where a short text has a character for each byte, so has each line. */
static inline uint32_t judge_places(const uint8_t *text, size_t length, const uint16_t *places,
                                    size_t count)
{
    for (size_t i = 0; i < count; i++)
        if ((size_t)places[EACH * i] + places[EACH * i + 1] > length)
            return refused(OUTSIDE_TEXT, i + 1);
    bool wide = length > MOST_BYTES || characters_in(text, (uint32_t)length) < length;
    for (size_t i = 0; i < count; i++) {
        const uint16_t *entry = places + EACH * i;
        if (entry[2] != (wide ? characters_in(text + entry[0], entry[1]) : entry[1]))
            return refused(OTHER_CHARACTERS, i + 1);
    }
    return 0;
}

uint32_t qrbill_write(const uint8_t *text, size_t length, const uint16_t *places, size_t numbers,
                      uint32_t count, bool crlf, uint8_t *destination, size_t room)
{
    uint8_t joined[MOST_BYTES];
    struct bill bill;

    if (numbers < LIST_NUMBERS)
        return refused(NO_ROOM, 0);
    if (count < FEWEST_LINES || count > MOST_LINES)
        return refused(LINE_COUNT, count < MOST_TOLD ? count : MOST_TOLD);
    uint32_t refusal = judge_places(text, length, places, count);
    if (refusal != 0)
        return refusal;

    size_t total = (count - 1u) * (crlf ? 2 : 1);
    for (size_t i = 0; i < count; i++) {
        const uint8_t *line = text + places[EACH * i];
        size_t line_length = places[EACH * i + 1];
        if (memchr(line, '\r', line_length) != NULL || memchr(line, '\n', line_length) != NULL)
            return refused(BAD_CHARACTER, i + 1);
        total += line_length;
    }
    if (total > MOST_BYTES)
        return refused(TOO_MANY_BYTES, 0);
    join(text, places, count, crlf, joined);
    refusal = judge(joined, total, &bill);
    if (refusal != 0)
        return refusal;
    if (room < total)
        return refused(NO_ROOM, 0);
    memcpy(destination, joined, total);
    return (uint32_t)total;
}
