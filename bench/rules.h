/* The rules of Swiss QR-bill payloads in plain C, written for speed, for bench/sieve.c and
   bench/pile.c.

   One walk over the bytes notes where each line starts, and whether a character has more bytes than
   one. All breaks being alike, a line's size is the way from its start to the next one, less a break.
   Then come the rules, line after line, each written out where its line is reached. What few bills
   need is found out only for them: the characters of a line that has more bytes than its limit, those
   of each line where not all have one byte, and which break is unlike the first one. */

#ifndef RULES_H
#define RULES_H

#include <string.h>

#include "qrbill.h"

enum { MOST_BYTES = 997, FEWEST_LINES = 31, MOST_LINES = 34 };

/* The refusals, from 1 on. */
enum {
    NO_BYTES = 1, TOO_MANY_BYTES, BAD_CHARACTER, MIXED_BREAKS, LINE_COUNT,
    NOT_FIXED_TEXT, NOT_EMPTY, MISSING, TOO_LONG, BAD_FORM, BAD_CHECK_DIGITS,
    UNPAIRED, TOO_LONG_TOGETHER, OUTSIDE_TEXT, NO_ROOM, OTHER_CHARACTERS = 18
};

static inline uint32_t refused(uint32_t refusal, size_t line)
{
    return 1000 * refusal + (uint32_t)line;
}

/* A payload that is cut into lines. Lines are counted from 1. After the last one's start there is
   one more, as if a break stood at the payload's end. */
struct bill {
    const uint8_t *payload;
    uint32_t count; /* of lines */
    uint32_t width; /* of a break: 1 or 2 */
    bool wide;      /* whether a character has more bytes than one */
    uint32_t starts[MOST_BYTES + 3];
};

static inline const uint8_t *text_of(const struct bill *bill, size_t line)
{
    return bill->payload + bill->starts[line];
}

/* In bytes. */
static inline uint32_t size_of(const struct bill *bill, size_t line)
{
    return bill->starts[line + 1] - bill->starts[line] - bill->width;
}

/* The walk: rules 1 to 5. */

/* Whether a byte is a character of its own: as a signed number, 20 to 7E. DEL (7F) passes as well,
   so that one is looked for before the walk. */
static inline bool is_plain(uint8_t byte)
{
    return (int8_t)byte >= 0x20;
}

/* Whether a byte is 80 to BF, as all but the first of a character are. */
static inline bool is_later(uint8_t byte)
{
    return (int8_t)byte < (int8_t)0xC0;
}

/* Moves `at` on over plain bytes, eight of them to a test of the end. Whether it has come to
   another byte before the end. */
static inline bool pass_plain(const uint8_t *payload, ptrdiff_t *at, ptrdiff_t end)
{
    for (; *at <= end - 8; *at += 8)
        for (int i = 0; i < 8; i++)
            if (!is_plain(payload[*at + i])) {
                *at += i;
                return true;
            }
    for (; *at < end; ++*at)
        if (!is_plain(payload[*at]))
            return true;
    return false;
}

static inline bool within(uint8_t low, uint8_t byte, uint8_t high)
{
    return (uint8_t)(byte - low) <= high - low;
}

/* How many bytes the allowed character here has, whose first is not plain; 0 if none begins. */
static inline unsigned wide_character(const uint8_t *bytes, ptrdiff_t left)
{
    if (left < 2)
        return 0;
    if (within(0xC3, bytes[0], 0xC5))
        return is_later(bytes[1]) ? 2 : 0;
    if (bytes[0] == 0xC2)
        return within(0xA0, bytes[1], 0xBF) ? 2 : 0;
    if (bytes[0] == 0xC8)
        return within(0x98, bytes[1], 0x9B) ? 2 : 0;
    return left >= 3 && bytes[0] == 0xE2 && bytes[1] == 0x82 && bytes[2] == 0xAC ? 3 : 0;
}

/* Moves `at` on over characters that begin with C3 to C5: wide ones come in rows, and most are of
   these. */
static inline void pass_accented(const uint8_t *payload, ptrdiff_t *at, ptrdiff_t end)
{
    while (*at + 1 < end && within(0xC3, payload[*at], 0xC5) && is_later(payload[*at + 1]))
        *at += 2;
}

/* The line that is ended by the earliest break unlike the first one; there is such a break. */
static size_t first_unlike(const struct bill *bill)
{
    bool crlf = bill->starts[2] >= 2 && text_of(bill, 2)[-2] == '\r';
    size_t line = 2;
    while ((text_of(bill, line + 1)[-2] == '\r') == crlf)
        line++;
    return line;
}

/* Cuts a payload into lines. Answers 0 or the refusal. */
static inline uint32_t cut(const uint8_t *payload, size_t length, struct bill *bill)
{
    if (length == 0)
        return refused(NO_BYTES, 0);
    if (length > MOST_BYTES)
        return refused(TOO_MANY_BYTES, 0);
    const uint8_t *del = memchr(payload, 0x7F, length);
    ptrdiff_t at = 0, end = del == NULL ? (ptrdiff_t)length : del - payload;
    size_t line = 1, returns = 0;
    bill->payload = payload;
    bill->wide = false;
    bill->starts[1] = 0;
    while (pass_plain(payload, &at, end)) {
        if (payload[at] == '\n') {
            bill->starts[++line] = (uint32_t)++at;
        } else if (at + 1 < end && payload[at] == '\r' && payload[at + 1] == '\n') {
            returns++;
            at += 2;
            bill->starts[++line] = (uint32_t)at;
        } else {
            unsigned bytes = wide_character(payload + at, end - at);
            if (bytes == 0)
                return refused(BAD_CHARACTER, line);
            bill->wide = true;
            at += bytes;
            pass_accented(payload, &at, end);
        }
    }
    if (del != NULL)
        return refused(BAD_CHARACTER, line);
    if (returns != 0 && returns != line - 1)
        return refused(MIXED_BREAKS, first_unlike(bill));
    if (line < FEWEST_LINES || line > MOST_LINES)
        return refused(LINE_COUNT, line);
    bill->count = (uint32_t)line;
    bill->width = returns != 0 ? 2 : 1;
    bill->starts[line + 1] = (uint32_t)length + bill->width;
    return 0;
}

/* How many characters so many bytes have, at most 65535 of them: those that are not the later bytes of
   one. A count of 16 bits is faster than a wider one. */
static inline uint32_t characters_in(const uint8_t *text, uint32_t size)
{
    uint16_t later = 0;
    for (uint32_t i = 0; i < size; i++)
        later = (uint16_t)(later + is_later(text[i]));
    return size - later;
}

/* How many characters a line has. They are at most its bytes, so that only a line with more bytes
   than its limit has to be counted. */
static uint32_t characters(const struct bill *bill, size_t line)
{
    return characters_in(text_of(bill, line), size_of(bill, line));
}

/* Forms and check digits. */

/* Kinds of bytes. A form names those that it takes. */
enum { DIGIT = 1, CAPITAL = 2, SMALL = 4 };

#define TWICE(kind) kind, kind
#define TEN(kind) TWICE(kind), TWICE(kind), TWICE(kind), TWICE(kind), TWICE(kind)
#define LETTERS(kind) TEN(kind), TEN(kind), TWICE(kind), TWICE(kind), TWICE(kind)
static const uint8_t kinds[256] = {
    [0x30] = TEN(DIGIT),
    [0x41] = LETTERS(CAPITAL),
    [0x61] = LETTERS(SMALL),
};

static inline bool is_digit(uint8_t byte)
{
    return kinds[byte] == DIGIT;
}

/* Reads digits from `at` on, up to `end`, into a number. Where it stops. */
static inline const uint8_t *pass_digits(const uint8_t *at, const uint8_t *end, uint64_t *number)
{
    while (at < end && is_digit(*at))
        *number = 10 * *number + *at++ - '0';
    return at;
}

/* Whether the bytes from `at` up to `end` are all of these kinds. */
static inline bool all_of(const uint8_t *at, const uint8_t *end, uint8_t some)
{
    while (at < end && (kinds[*at] & some) != 0)
        at++;
    return at == end;
}

/* The remainder by 97 of digits, and letters as 10 to 35, read as one number. */
static unsigned remainder_of(const uint8_t *at, const uint8_t *end)
{
    unsigned remainder = 0;
    for (; at < end; at++) {
        if (is_digit(*at))
            remainder = (10 * remainder + *at - '0') % 97;
        else /* a small letter is its capital with one bit more */
            remainder = (100 * remainder + (*at & ~0x20u) - 'A' + 10) % 97;
    }
    return remainder;
}

/* Rules 10 and 11 of a text with check digits of MOD 97-10. Its first two letters have been seen to
   and are `letters` as a number. Two digits follow, then at least `digits` digits, then bytes of
   the kinds `some`. Up to 18 digits alone are read as one number; others one after another. */
static inline uint32_t broken_with_97(const uint8_t *text, const uint8_t *end, unsigned letters,
                                      size_t digits, uint8_t some)
{
    const uint8_t *rest = text + 4, *at = rest;
    uint64_t number = 0;
    if (!is_digit(text[2]) || !is_digit(text[3]))
        return BAD_FORM;
    if (end - rest <= 18)
        at = pass_digits(rest, end, &number);
    if (at != end) {
        if (at < rest + digits || !all_of(at, end, some))
            return BAD_FORM;
        number = remainder_of(rest, end);
    }
    unsigned pair = 10u * text[2] + text[3] - 11 * '0';
    if (pair - 2 > 96) /* 00, 01 and 99, as ISO 7064 yields 02 to 98 */
        return BAD_CHECK_DIGITS;
    return (number % 97 * 1000000 + letters * 100 + pair) % 97 == 1 ? 0 : BAD_CHECK_DIGITS;
}

static inline uint32_t broken_on_iban(const uint8_t *text)
{
    if (memcmp(text, "CH", 2) == 0)
        return broken_with_97(text, text + 21, 1217, 5, DIGIT | CAPITAL);
    if (memcmp(text, "LI", 2) == 0)
        return broken_with_97(text, text + 21, 2118, 5, DIGIT | CAPITAL);
    return BAD_FORM;
}

static inline uint32_t broken_on_creditor_reference(const uint8_t *text, uint32_t size)
{
    if (size < 5 || size > 25 || memcmp(text, "RF", 2) != 0)
        return BAD_FORM;
    return broken_with_97(text, text + size, 2715, 0, DIGIT | CAPITAL | SMALL);
}

static inline uint32_t broken_on_qr_reference(const uint8_t *text, uint32_t size)
{
    /* For carry plus digit, which is 18 at most. */
    static const uint8_t next_carry[] = {0, 9, 4, 6, 8, 2, 7, 1, 3, 5, 0, 9, 4, 6, 8, 2, 7, 1, 3};
    unsigned carry = 0;
    if (size != 27)
        return BAD_FORM;
    for (size_t i = 0; i < 26; i++) {
        unsigned digit = text[i] - '0';
        if (digit > 9)
            return BAD_FORM;
        carry = next_carry[carry + digit];
    }
    if (!is_digit(text[26]) || memcmp(text, "000000000000000000000000000", 27) == 0)
        return BAD_FORM;
    return (carry + text[26] - '0') % 10 == 0 ? 0 : BAD_CHECK_DIGITS;
}

static inline bool is_country(const uint8_t *text)
{
    return kinds[text[0]] == CAPITAL && kinds[text[1]] == CAPITAL;
}

/* Of at most 12 bytes. */
static inline bool is_amount(const uint8_t *text, uint32_t size)
{
    const uint8_t *point = text + size - 3; /* not used if there are fewer bytes */
    if (size < 4 || *point != '.' || !is_digit(point[1]) || !is_digit(point[2]))
        return false;
    if (text[0] == '0')
        return size == 4 && (text[2] != '0' || text[3] != '0');
    return all_of(text, point, DIGIT);
}

static inline bool is_billing_information(const uint8_t *text, uint32_t size)
{
    return size >= 4 && memcmp(text, "//", 2) == 0 && kinds[text[2]] != 0 && kinds[text[3]] != 0;
}

/* Rules 6 to 11. What begins with `judge` answers 0 or the first refusal of its lines. The edition is a
   constant wherever it is given, so that the code for 2.4 has nothing of 2.2. */

enum edition { V22, V24 };

/* Whether a line is a text, of so many bytes. */
static inline bool is(const struct bill *bill, size_t line, const char *text, uint32_t size)
{
    return size_of(bill, line) == size && memcmp(text_of(bill, line), text, size) == 0;
}

/* Whether a line has more than so many characters. */
static inline bool is_longer(const struct bill *bill, size_t line, uint32_t most)
{
    return size_of(bill, line) > most && characters(bill, line) > most;
}

/* Rules 8 and 9 of a line that must have 1 to so many characters. */
static inline uint32_t broken_on_text(const struct bill *bill, size_t line, uint32_t most)
{
    if (size_of(bill, line) - 1 < most)
        return 0;
    return size_of(bill, line) == 0 ? MISSING : characters(bill, line) > most ? TOO_LONG : 0;
}

/* 0 where no rule is broken. */
static inline uint32_t refused_if(uint32_t broken, size_t line)
{
    return broken == 0 ? 0 : refused(broken, line);
}

/* Lines 1 to 4. */
static inline uint32_t judge_head(const struct bill *bill)
{
    if (!is(bill, 1, "SPC", 3))
        return refused(NOT_FIXED_TEXT, 1);
    if (!is(bill, 2, "0200", 4))
        return refused(NOT_FIXED_TEXT, 2);
    if (!is(bill, 3, "1", 1))
        return refused(NOT_FIXED_TEXT, 3);
    uint32_t size = size_of(bill, 4);
    if (size != 21)
        return refused(size == 0 ? MISSING : BAD_FORM, 4);
    return refused_if(broken_on_iban(text_of(bill, 4)), 4);
}

/* The lines from `first` up to the one before `next`, which must be empty. */
static inline uint32_t judge_empty(const struct bill *bill, size_t first, size_t next)
{
    if (bill->starts[next] - bill->starts[first] == (next - first) * bill->width)
        return 0;
    while (size_of(bill, first) == 0)
        first++;
    return refused(NOT_EMPTY, first);
}

/* The seven lines of an address from `first` on, which is not empty. */
static inline uint32_t judge_address(const struct bill *bill, size_t first, enum edition edition)
{
    uint32_t broken;
    const bool combined = edition == V22 && is(bill, first, "K", 1);
    if (!combined && !is(bill, first, "S", 1))
        return refused(BAD_FORM, first);
    if ((broken = broken_on_text(bill, first + 1, 70)) != 0)
        return refused(broken, first + 1);
    if (is_longer(bill, first + 2, 70))
        return refused(TOO_LONG, first + 2);
    if (combined) {
        if ((broken = broken_on_text(bill, first + 3, 70)) != 0)
            return refused(broken, first + 3);
        if ((broken = judge_empty(bill, first + 4, first + 6)) != 0)
            return broken;
    } else {
        if (is_longer(bill, first + 3, 16))
            return refused(TOO_LONG, first + 3);
        if ((broken = broken_on_text(bill, first + 4, 16)) != 0)
            return refused(broken, first + 4);
        if ((broken = broken_on_text(bill, first + 5, 35)) != 0)
            return refused(broken, first + 5);
    }
    uint32_t size = size_of(bill, first + 6);
    if (size != 2 || !is_country(text_of(bill, first + 6)))
        return refused(size == 0 ? MISSING : BAD_FORM, first + 6);
    return 0;
}

/* Lines 5 to 11. */
static inline uint32_t judge_creditor(const struct bill *bill, enum edition edition)
{
    return size_of(bill, 5) == 0 ? refused(MISSING, 5) : judge_address(bill, 5, edition);
}

/* Lines 21 to 27. */
static inline uint32_t judge_debtor(const struct bill *bill, enum edition edition)
{
    return size_of(bill, 21) == 0 ? judge_empty(bill, 22, 28) : judge_address(bill, 21, edition);
}

/* Lines 19 and 20. */
static inline uint32_t judge_amount(const struct bill *bill)
{
    uint32_t size = size_of(bill, 19);
    if (size != 0) {
        if (is_longer(bill, 19, 12))
            return refused(TOO_LONG, 19);
        if (size > 12 || !is_amount(text_of(bill, 19), size))
            return refused(BAD_FORM, 19);
    }
    if (!is(bill, 20, "CHF", 3) && !is(bill, 20, "EUR", 3))
        return refused(size_of(bill, 20) == 0 ? MISSING : BAD_FORM, 20);
    return 0;
}

/* Lines 28 and 29. */
static inline uint32_t judge_reference(const struct bill *bill)
{
    uint32_t size = size_of(bill, 29), broken;
    if (is(bill, 28, "NON", 3))
        return size == 0 ? 0 : refused(NOT_EMPTY, 29);
    if (is(bill, 28, "SCOR", 4))
        broken = broken_on_creditor_reference(text_of(bill, 29), size);
    else if (is(bill, 28, "QRR", 3))
        broken = broken_on_qr_reference(text_of(bill, 29), size);
    else
        return refused(size_of(bill, 28) == 0 ? MISSING : BAD_FORM, 28);
    return refused_if(size == 0 ? MISSING : broken, 29);
}

/* Lines 33 and 34, as far as they are there; the last of them is not empty. */
static inline uint32_t judge_procedures(const struct bill *bill)
{
    for (size_t line = 33; line <= bill->count; line++) {
        uint32_t size = size_of(bill, line);
        if (size == 0 && line == bill->count)
            return refused(MISSING, line);
        if (is_longer(bill, line, 100))
            return refused(TOO_LONG, line);
    }
    return 0;
}

/* Lines 30 to 34. */
static inline uint32_t judge_rest(const struct bill *bill)
{
    if (is_longer(bill, 30, 140))
        return refused(TOO_LONG, 30);
    if (!is(bill, 31, "EPD", 3))
        return refused(NOT_FIXED_TEXT, 31);
    if (bill->count == 31)
        return 0;
    uint32_t size = size_of(bill, 32);
    if (size != 0) {
        if (is_longer(bill, 32, 140))
            return refused(TOO_LONG, 32);
        if (!is_billing_information(text_of(bill, 32), size))
            return refused(BAD_FORM, 32);
    }
    return judge_procedures(bill);
}

/* Rules 12 and 13, of lines that keep all others. */
static inline uint32_t judge_together(const struct bill *bill, enum edition edition)
{
    const uint8_t *iid = text_of(bill, 4) + 4; /* 30000 to 31999 makes a QR-IBAN */
    bool is_qr_iban = iid[0] == '3' && (iid[1] == '0' || iid[1] == '1');
    bool is_qrr = *text_of(bill, 28) == 'Q', is_franc = *text_of(bill, 20) == 'C';
    if (is_qrr != is_qr_iban || (is_qrr && !is_franc && edition == V24))
        return refused(UNPAIRED, 28);
    if (bill->count >= 32 && size_of(bill, 30) + size_of(bill, 32) > 140 &&
        characters(bill, 30) + characters(bill, 32) > 140)
        return refused(TOO_LONG_TOGETHER, 32);
    return 0;
}

/* Rules 6 to 13 of a payload that is cut. Answers `refusal`, which the cut answered, where that is
   not 0. */
static inline uint32_t judge_lines(uint32_t refusal, const struct bill *bill, enum edition edition)
{
    if (refusal == 0)
        refusal = judge_head(bill);
    if (refusal == 0)
        refusal = judge_creditor(bill, edition);
    if (refusal == 0)
        refusal = judge_empty(bill, 12, 19);
    if (refusal == 0)
        refusal = judge_amount(bill);
    if (refusal == 0)
        refusal = judge_debtor(bill, edition);
    if (refusal == 0)
        refusal = judge_reference(bill);
    if (refusal == 0)
        refusal = judge_rest(bill);
    if (refusal == 0)
        refusal = judge_together(bill, edition);
    return refusal;
}

#endif
