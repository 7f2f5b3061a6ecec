/* The damage that beside.c does to payloads.

   Much of it stays near bills that are accepted: one line gets another text of its kind, at its
   limit or one past it, with check digits that are right. Each damage takes a payload and leaves
   another; or the same, where there is nothing of its kind to damage. */

#include "damages.h"

#include <stdio.h>
#include <string.h>

#include "qrbill.h"

enum { MOST_STARTS = 8000, MOST_LINES = 34, MOST_TEXT = 145, MOST_WIDTH = 3, MOST_BYTES = 997 };

#define COUNT_OF(list) (sizeof(list) / sizeof *(list))
#define PICK(list) ((list)[below(COUNT_OF(list))])

static struct payload starts[MOST_STARTS];
static size_t start_count;
static uint64_t state; /* of the row of numbers */

bool read_starts(void)
{
    uint32_t length;
    while (fread(&length, sizeof length, 1, stdin) == 1) {
        if (start_count == MOST_STARTS || length > MOST_PAYLOAD)
            return false;
        struct payload *start = &starts[start_count++];
        start->length = length;
        if (fread(start->bytes, 1, length, stdin) != length)
            return false;
    }
    return start_count > 0;
}

/* By chance. */

void sow(uint64_t seed)
{
    state = seed;
}

/* SplitMix64, of which the upper half is taken. */
size_t below(size_t bound)
{
    uint64_t mixed = state += 0x9E3779B97F4A7C15;
    mixed = (mixed ^ (mixed >> 30)) * 0xBF58476D1CE4E5B9;
    mixed = (mixed ^ (mixed >> 27)) * 0x94D049BB133111EB;
    return (size_t)(((mixed ^ (mixed >> 31)) >> 32) * bound >> 32);
}

static bool once_in(size_t times)
{
    return below(times) == 0;
}

/* So many bytes of an alphabet. */
static void draw(uint8_t *to, size_t size, const char *alphabet)
{
    const size_t letters = strlen(alphabet);
    for (size_t i = 0; i < size; i++)
        to[i] = (uint8_t)alphabet[below(letters)];
}

/* Lines of a payload. */

size_t cut(const struct payload *payload, struct part lines[], size_t most)
{
    const uint8_t *bytes = payload->bytes;
    size_t count = 0, start = 0, end = 0;
    do {
        const uint8_t *feed = memchr(bytes + start, '\n', payload->length - start);
        end = feed == NULL ? payload->length : (size_t)(feed - bytes);
        const bool returns = feed != NULL && end > start && feed[-1] == '\r';
        if (count++ < most)
            lines[count - 1] = (struct part){start, end - start - returns};
        start = end + 1;
    } while (end < payload->length);
    return count;
}

static size_t lines_in(const struct payload *payload)
{
    size_t count = 1;
    for (size_t at = 0; at < payload->length; at++)
        count += payload->bytes[at] == '\n';
    return count;
}

/* Where a line lies, without its break. Lines are counted from 1; one that is not there lies at the
   end. */
static struct part line_at(const struct payload *payload, size_t line)
{
    const uint8_t *at = payload->bytes, *end = at + payload->length, *feed;
    for (; line > 1 && (feed = memchr(at, '\n', (size_t)(end - at))) != NULL; line--)
        at = feed + 1;
    if (line > 1)
        return (struct part){payload->length, 0};
    if ((feed = memchr(at, '\n', (size_t)(end - at))) != NULL)
        end = feed > at && feed[-1] == '\r' ? feed - 1 : feed;
    return (struct part){(size_t)(at - payload->bytes), (size_t)(end - at)};
}

bool has_returns(const struct payload *payload)
{
    const struct part first = line_at(payload, 1);
    return first.length < payload->length && payload->bytes[first.length] == '\r';
}

static struct part end_of(const struct payload *payload)
{
    return (struct part){payload->length, 0};
}

/* A line by chance, of those that are there. */
static size_t any_line(const struct payload *payload)
{
    return 1 + below(lines_in(payload));
}

/* Where a byte is, by chance: anywhere, or in one of the lines, which gives short ones their turn,
   or in front, where a glance looks. Of an empty line it is no byte. */
static struct part any_byte(const struct payload *payload)
{
    enum { FRONT = 40 };
    struct part among = {0, payload->length};
    const size_t way = below(8);
    if (way < 4)
        among = line_at(payload, any_line(payload));
    else if (way == 4 && among.length > FRONT)
        among.length = FRONT;
    return (struct part){among.start + below(among.length), among.length > 0};
}

/* Puts a text in the place of a part. Where it does not fit, the payload stays as it is. */
static void replace(struct payload *payload, struct part old, const void *text, size_t size)
{
    const size_t behind = old.start + old.length;
    if (payload->length - old.length + size > MOST_PAYLOAD)
        return;
    memmove(payload->bytes + old.start + size, payload->bytes + behind, payload->length - behind);
    memcpy(payload->bytes + old.start, text, size);
    payload->length = payload->length - old.length + size;
}

static void replace_by(struct payload *payload, struct part old, const char *text)
{
    replace(payload, old, text, strlen(text));
}

static const char *break_of(const struct payload *payload)
{
    return has_returns(payload) ? "\r\n" : "\n";
}

/* Gives a line a text; where there are fewer lines, empty ones come in before it. */
static void lay(struct payload *payload, size_t line, const void *text, size_t size)
{
    for (size_t count = lines_in(payload); count < line; count++)
        replace_by(payload, end_of(payload), break_of(payload));
    replace(payload, line_at(payload, line), text, size);
}

size_t characters(const struct payload *payload, struct part part)
{
    size_t count = 0;
    for (size_t i = 0; i < part.length; i++)
        count += (payload->bytes[part.start + i] & 0xC0) != 0x80;
    return count;
}

/* So many characters, of one width or mixed. How many bytes they have. */
static size_t draw_text(uint8_t *to, size_t count)
{
    static const char *const fills[] = {"x", "\xC3\xBC", "\xE2\x82\xAC"};
    const size_t kind = below(COUNT_OF(fills) + 1);
    size_t size = 0;
    for (; count > 0; count--) {
        const char *fill = kind < COUNT_OF(fills) ? fills[kind] : PICK(fills);
        memcpy(to + size, fill, strlen(fill));
        size += strlen(fill);
    }
    return size;
}

/* Damage to single bytes. */

/* The ends of the kinds of characters, and their neighbours outside; breaks; halves. */
static const char *const scraps[] = {
    "\n", "\r", "\r\n", "\t", "\x1F", " ", "!", ".", "/", "0", "9", ":", "@", "A", "Z", "[", "`",
    "a", "z", "{", "~", "\x7F", "\x80", "\xBF", "\xC2", "\xC2\x9F", "\xC2\xA0", "\xC2\xBF",
    "\xC2\xC0", "\xC3\x7F", "\xC3\x80", "\xC3\xBF", "\xC3\xC0", "\xC4\x80", "\xC5\xBF", "\xC6\x80",
    "\xC8\x97", "\xC8\x98", "\xC8\x9B", "\xC8\x9C", "\xE2", "\xE2\x82", "\xE2\x82\xAB",
    "\xE2\x82\xAC", "\xE2\x82\xAD", "\xE2\x81\xAC", "\xE2\x83\xAC", "\xF0\x9F\x98\x80", "\xFF",
};

/* One byte becomes any byte. */
static void change_byte(struct payload *payload)
{
    const uint8_t any = (uint8_t)below(256);
    replace(payload, any_byte(payload), &any, 1);
}

/* One byte becomes a scrap. */
static void write_scrap(struct payload *payload)
{
    replace_by(payload, any_byte(payload), PICK(scraps));
}

/* One to three scraps come in, in a row, as characters of two bytes are passed in rows. */
static void insert_scraps(struct payload *payload)
{
    const struct part before = {any_byte(payload).start, 0};
    const struct part here = once_in(4) ? end_of(payload) : before;
    for (size_t left = 1 + below(3); left > 0; left--)
        replace_by(payload, here, PICK(scraps));
}

/* One byte is lost. */
static void remove_byte(struct payload *payload)
{
    replace_by(payload, any_byte(payload), "");
}

/* One byte and the next change places. */
static void swap_bytes(struct payload *payload)
{
    const size_t at = any_byte(payload).start;
    if (at + 1 >= payload->length)
        return;
    const uint8_t pair[] = {payload->bytes[at + 1], payload->bytes[at]};
    replace(payload, (struct part){at, sizeof pair}, pair, sizeof pair);
}

/* A digit becomes any digit, the next one from some byte on. */
static void change_digit(struct payload *payload)
{
    size_t at = any_byte(payload).start;
    while (at < payload->length && (payload->bytes[at] < '0' || payload->bytes[at] > '9'))
        at++;
    if (at < payload->length)
        payload->bytes[at] = (uint8_t)('0' + below(10));
}

static bool is_letter(uint8_t byte)
{
    return (byte >= 'A' && byte <= 'Z') || (byte >= 'a' && byte <= 'z');
}

/* A letter becomes small, or its capital, the next one from some byte on. */
static void change_case(struct payload *payload)
{
    size_t at = any_byte(payload).start;
    while (at < payload->length && !is_letter(payload->bytes[at]))
        at++;
    if (at < payload->length)
        payload->bytes[at] ^= 0x20;
}

/* Damage to breaks. */

/* The break at the end of a line, empty after the last. */
static struct part break_after(const struct payload *payload, size_t line)
{
    const struct part before = line_at(payload, line), next = line_at(payload, line + 1);
    const size_t end = before.start + before.length;
    return (struct part){end, next.start - end};
}

/* One break becomes one of the other kind. */
static void change_break(struct payload *payload)
{
    const struct part brk = break_after(payload, any_line(payload));
    if (brk.length > 0)
        replace_by(payload, brk, brk.length == 1 ? "\r\n" : "\n");
}

/* All breaks become those of the other kind, which makes another bill of a bill. */
static void change_all_breaks(struct payload *payload)
{
    const char *other = has_returns(payload) ? "\n" : "\r\n";
    for (size_t line = lines_in(payload) - 1; line > 0; line--)
        replace_by(payload, break_after(payload, line), other);
}

/* One break is lost. */
static void remove_break(struct payload *payload)
{
    replace_by(payload, break_after(payload, any_line(payload)), "");
}

/* One more break of the same kind comes in, half the time at the end. */
static void add_break(struct payload *payload)
{
    const struct part before = {any_byte(payload).start, 0};
    replace_by(payload, once_in(2) ? end_of(payload) : before, break_of(payload));
}

/* Damage to lines. */

/* One line is lost with the break before it; the first with the one after it. */
static void remove_line(struct payload *payload)
{
    const size_t line = any_line(payload);
    const struct part own = break_after(payload, line);
    const size_t from = line > 1 ? break_after(payload, line - 1).start : 0;
    const size_t to = line > 1 ? own.start : own.start + own.length;
    replace_by(payload, (struct part){from, to - from}, "");
}

/* One line comes twice. */
static void double_line(struct payload *payload)
{
    const size_t line = any_line(payload);
    const struct part here = line_at(payload, line);
    const struct payload before = *payload;
    replace_by(payload, (struct part){here.start, 0}, break_of(payload));
    replace(payload, (struct part){here.start, 0}, before.bytes + here.start, here.length);
}

/* One line loses its text and keeps its break. */
static void empty_line(struct payload *payload)
{
    replace_by(payload, line_at(payload, any_line(payload)), "");
}

/* Two lines change places. */
static void swap_lines(struct payload *payload)
{
    const size_t one = any_line(payload), two = any_line(payload);
    const struct payload before = *payload;
    const struct part first = line_at(&before, one), second = line_at(&before, two);
    lay(payload, one, before.bytes + second.start, second.length);
    lay(payload, two, before.bytes + first.start, first.length);
}

/* Some lines that belong together, or any one, become those of another start. */
static void copy_lines(struct payload *payload)
{
    static const struct { size_t first, last; } groups[] = {
        {4, 4}, {4, 4}, {5, 11}, {19, 19}, {20, 20}, {21, 27}, {28, 29}, {28, 29}, {30, 30},
        {32, 32}, {33, 34},
    };
    const struct payload *other = &starts[below(start_count)];
    const size_t group = below(COUNT_OF(groups) + 1), any = any_line(payload);
    const bool is_one = group == COUNT_OF(groups);
    const size_t last = is_one ? any : groups[group].last;
    for (size_t line = is_one ? any : groups[group].first; line <= last; line++) {
        const struct part part = line_at(other, line);
        if (line <= lines_in(other))
            lay(payload, line, other->bytes + part.start, part.length);
    }
}

/* Texts at their limits. */

static const struct { size_t line, most; } limits[] = {
    {6, 70}, {7, 70}, {8, 16}, {9, 16}, {10, 35}, {22, 70}, {23, 70}, {24, 16}, {25, 16}, {26, 35},
    {30, 140}, {32, 140}, {33, 100}, {34, 100},
};

/* A text is lengthened to one less than its limit, to that, or one more, after what it begins with;
   billing information begins with what it should. */
static void stretch_text(struct payload *payload)
{
    uint8_t text[MOST_TEXT * MOST_WIDTH];
    const size_t one = below(COUNT_OF(limits)), line = limits[one].line;
    const size_t wanted = limits[one].most - 1 + below(3);
    if (line == 32)
        lay(payload, line, "//S1", 4);
    const struct part kept = line_at(payload, line);
    const size_t there = characters(payload, kept);
    if (there >= wanted || line > lines_in(payload)) {
        lay(payload, line, text, draw_text(text, wanted));
        return;
    }
    const struct part behind = {kept.start + kept.length, 0};
    replace(payload, behind, text, draw_text(text, wanted - there));
}

/* Message and billing information get 139 to 141 characters together. */
static void stretch_together(struct payload *payload)
{
    uint8_t text[MOST_TEXT * MOST_WIDTH] = "//S1";
    const size_t more = below(136), wanted = 139 + below(3);
    lay(payload, 32, text, 4 + draw_text(text + 4, more));
    lay(payload, 30, text, draw_text(text, wanted - 4 - more));
}

/* Texts that are there grow, within their limits, until there are 996 to 999 bytes. */
static void fill_up(struct payload *payload)
{
    const size_t wanted = MOST_BYTES - 1 + below(4);
    for (size_t i = 0; i < COUNT_OF(limits); i++) {
        const struct part text = line_at(payload, limits[i].line);
        const struct part behind = {text.start + text.length, 0};
        size_t there = characters(payload, text);
        for (; there > 0 && there < limits[i].most && payload->length < wanted; there++)
            replace_by(payload, behind, wanted - payload->length < 3 ? "x" : "\xE2\x82\xAC");
    }
}

/* Numbers and words. */

#define DIGITS "0123456789"
#define CAPITALS DIGITS "ABCDEFGHIJKLMNOPQRSTUVWXYZ"
#define LETTERS CAPITALS "abcdefghijklmnopqrstuvwxyz"

/* An account with right check digits, of digits or also of letters; half the time its IID is at an
   end of those that make a QR-IBAN. */
static void new_account(struct payload *payload)
{
    static const char *const countries[] = {"CH", "LI"};
    static const char *const iids[] = {"29999", "30000", "30999", "31000", "31999", "32000"};
    uint8_t iid[5], account[12], made[21];
    draw(iid, sizeof iid, DIGITS);
    if (once_in(2))
        memcpy(iid, PICK(iids), sizeof iid);
    draw(account, sizeof account, once_in(2) ? DIGITS : CAPITALS);
    qrbill_make_iban((const uint8_t *)PICK(countries), 2, iid, sizeof iid, account, sizeof account,
                     made, sizeof made);
    lay(payload, 4, made, sizeof made);
}

/* A QR reference of digits by chance, with its type. */
static void new_qr_reference(struct payload *payload)
{
    uint8_t digits[26], made[27];
    draw(digits, sizeof digits, DIGITS);
    qrbill_make_qrr(digits, sizeof digits, made, sizeof made);
    lay(payload, 28, "QRR", 3);
    lay(payload, 29, made, sizeof made);
}

/* A creditor reference of digits or letters by chance, with its type; often the longest. */
static void new_creditor_reference(struct payload *payload)
{
    uint8_t text[21], made[25];
    const size_t size = once_in(4) ? sizeof text : 1 + below(sizeof text);
    draw(text, size, once_in(2) ? DIGITS : LETTERS);
    lay(payload, 28, "SCOR", 4);
    lay(payload, 29, made, qrbill_make_scor(text, size, made, sizeof made));
}

/* A character of a line that has a form or a fixed text becomes any letter or digit. */
static void change_form(struct payload *payload)
{
    static const size_t lines[] = {1, 2, 3, 4, 4, 4, 5, 11, 19, 20, 21, 27, 28, 29, 29, 31, 32};
    const struct part line = line_at(payload, PICK(lines));
    uint8_t any;
    draw(&any, 1, LETTERS);
    replace(payload, (struct part){line.start + below(line.length), line.length > 0}, &any, 1);
}

/* A pair of check digits becomes one that leaves the same remainder by 97, if there is one: 00 for
   97, 01 for 98, 99 for 02. */
static void shift_pair(struct payload *payload)
{
    const struct part line = line_at(payload, once_in(2) ? 4 : 29);
    uint8_t *pair = payload->bytes + line.start + 2;
    if (line.length < 4)
        return;
    const unsigned number = 10u * pair[0] + pair[1] - 11 * '0';
    if (number == 2 || number == 97 || number == 98) {
        pair[0] = number == 2 ? '9' : '0';
        pair[1] = (uint8_t)('0' + (number == 2 ? 9 : number - 97));
    }
}

/* One to ten digits, a point, two digits; seldom another number of them. */
static void new_amount(struct payload *payload)
{
    uint8_t text[16];
    const size_t before = once_in(4) ? 8 + below(3) : 1 + below(9);
    const size_t behind = once_in(8) ? below(4) : 2;
    draw(text, sizeof text, once_in(8) ? "0" : DIGITS);
    text[before] = '.';
    lay(payload, 19, text, before + 1 + behind);
}

/* A line gets a word that it may have, or nearly. */
static void write_word(struct payload *payload)
{
    static const struct { size_t line; const char *text; } words[] = {
        {1, "SPC"}, {1, "SPD"}, {2, "0200"}, {2, "0100"}, {3, "1"}, {3, "2"}, {5, "S"}, {5, "K"},
        {11, "CH"}, {11, "LI"}, {11, "AZ"}, {11, "ch"}, {11, "CHE"}, {19, ""}, {19, "0.01"},
        {19, "0.00"}, {19, "0.10"}, {19, "00.10"}, {19, "01.00"}, {19, ".50"}, {19, "1.00"},
        {19, "999999999.99"}, {19, "1000000000.00"}, {19, "1,00"}, {20, "CHF"}, {20, "EUR"},
        {20, "USD"}, {21, ""}, {21, "S"}, {21, "K"}, {27, "FR"}, {27, "Fr"}, {28, "QRR"},
        {28, "SCOR"}, {28, "NON"}, {28, "SCO"}, {29, ""}, {29, "000000000000000000000000000"},
        {29, "RF18539007547034"}, {29, "RF18"}, {30, ""}, {31, "EPD"}, {31, "EPD "}, {32, ""},
        {32, "//S1"}, {32, "//S"}, {32, "//ab"}, {32, "//09/x"}, {32, "/S1x"}, {32, "//Z:"},
        {33, ""}, {33, "x"}, {34, ""}, {34, "x"},
    };
    const size_t word = below(COUNT_OF(words));
    const size_t line = once_in(8) ? 1 + below(MOST_LINES) : words[word].line;
    lay(payload, line, words[word].text, strlen(words[word].text));
}

/* One of the lines that are to stay empty gets a text. */
static void fill_reserved(struct payload *payload)
{
    lay(payload, once_in(2) ? 12 + below(7) : 22 + below(6), "x", 1);
}

/* The end is lost; at times all, or all but what a glance looks at. */
static void cut_short(struct payload *payload)
{
    const size_t way = below(8), front = 30 + below(12);
    const size_t left = way == 0 ? 0 : way < 4 ? front : below(payload->length + 1);
    if (left < payload->length)
        payload->length = left;
}

/* What stays near accepted bills stands more than once. */
static void (*const damages[])(struct payload *) = {
    change_byte, write_scrap, write_scrap, insert_scraps, insert_scraps, remove_byte, swap_bytes,
    change_digit, change_digit, change_case, change_break, change_all_breaks, change_all_breaks,
    remove_break, add_break, remove_line, double_line, empty_line, swap_lines,
    copy_lines, copy_lines, copy_lines, stretch_text, stretch_text, stretch_text, stretch_text,
    stretch_together, stretch_together, fill_up, fill_up, new_account, new_account, new_account,
    new_qr_reference, new_qr_reference, new_creditor_reference, new_creditor_reference, shift_pair,
    change_form, change_form, change_form, new_amount, new_amount,
    write_word, write_word, write_word, fill_reserved, cut_short,
};

void damaged_start(struct payload *payload)
{
    *payload = starts[below(start_count)];
    for (size_t left = below(4); left > 0; left--)
        PICK(damages)(payload);
}
