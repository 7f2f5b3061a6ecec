/* SWIFT fields in plain C, as one writes them by hand, over the calls of bench/sieve.c:
   include/qrbill.h says what is answered. */

#include <string.h>

#include "qrbill.h"

/* In bench/sieve.c: the verdict, with start and length of each line. */
uint32_t lines_of(const uint8_t *payload, size_t length, uint16_t *places);

enum { WIDTH = 35, ROWS = 9, LINES = 34 };
enum { NO_ROOM = 15000, NO_AMOUNT = 16019 };

struct text {
    const uint8_t *at, *end;
};

/* A row while it is filled, as the paper has field 70: filled in turn, then laid out. */
struct row {
    uint8_t bytes[WIDTH];
    uint16_t length, replaced;
};

/* Rows one after the other, each with CR LF behind it. */
struct page {
    uint8_t bytes[ROWS * (WIDTH + 2)], *at;
    uint16_t rows, cut, replaced;
};

static inline struct text fixed(const char *text)
{
    const uint8_t *at = (const uint8_t *)text;
    return (struct text){at, at + strlen(text)};
}

static inline bool in_x(uint8_t x)
{
    static const uint64_t sets[] = {0x87FFFB8100000000, 0x07FFFFFE07FFFFFE};
    return x < 128 && (sets[x / 64] >> x % 64 & 1);
}

static inline bool begins(uint8_t x)
{
    return (x & 0xC0) != 0x80;
}

/* Puts characters of a text on the row until it is full, and gives the rest. */
static struct text fill(struct row *row, struct text text)
{
    const uint8_t *full = row->bytes + WIDTH;
    uint8_t *to = row->bytes + row->length;
    for (; text.at < text.end && to < full; text.at++) {
        if (in_x(*text.at)) {
            *to++ = *text.at;
        } else if (begins(*text.at)) {
            *to++ = '.';
            row->replaced++;
        }
    }
    row->length = (uint16_t)(to - row->bytes);
    return text;
}

static void cut(struct page *page, struct text rest)
{
    for (; rest.at < rest.end; rest.at++)
        page->cut += begins(*rest.at);
}

static void add(struct page *page, struct row *row, struct text text)
{
    cut(page, fill(row, text));
}

/* Lays a row that has characters, and empties it. */
static void lay(struct page *page, struct row *row)
{
    if (row->length == 0)
        return;
    memcpy(page->at, row->bytes, row->length);
    page->replaced += row->replaced;
    if (*page->at == ':' || *page->at == '-') {
        *page->at = '.';
        page->replaced++;
    }
    page->at += row->length;
    memcpy(page->at, "\r\n", 2);
    page->at += 2;
    page->rows++;
    row->length = row->replaced = 0;
}

static inline struct text line(const uint8_t *payload, const uint16_t *places, size_t number)
{
    const uint8_t *at = payload + places[2 * number - 2];
    return (struct text){at, at + places[2 * number - 1]};
}

static inline bool is_empty(struct text text)
{
    return text.at == text.end;
}

static void lay_beneficiary(struct page *page, const uint8_t *payload, const uint16_t *places)
{
    const struct text street = line(payload, places, 7), number = line(payload, places, 8);
    struct row row;
    row.length = row.replaced = 0;
    add(page, &row, fixed("/"));
    add(page, &row, line(payload, places, 4));
    lay(page, &row);
    add(page, &row, fixed("1/"));
    add(page, &row, line(payload, places, 6));
    lay(page, &row);
    if (!is_empty(street) || !is_empty(number)) {
        add(page, &row, fixed("2/"));
        add(page, &row, street);
        if (!is_empty(street) && !is_empty(number))
            add(page, &row, fixed(" "));
        add(page, &row, number);
        lay(page, &row);
    }
    add(page, &row, fixed("3/"));
    add(page, &row, line(payload, places, 11));
    add(page, &row, fixed("/"));
    add(page, &row, line(payload, places, 9));
    add(page, &row, fixed(" "));
    add(page, &row, line(payload, places, 10));
    lay(page, &row);
}

static void lay_transaction(struct page *page, const uint8_t *payload, const uint16_t *places)
{
    const struct text amount = line(payload, places, 19);
    struct row row;
    row.length = row.replaced = 0;
    add(page, &row, line(payload, places, 20));
    add(page, &row, (struct text){amount.at, amount.end - 3});
    add(page, &row, fixed(","));
    add(page, &row, (struct text){amount.end - 2, amount.end});
    lay(page, &row);
}

static void lay_remittance(struct page *page, const uint8_t *payload, const uint16_t *places)
{
    const struct text kind = line(payload, places, 28);
    struct text message = line(payload, places, 30);
    struct row rows[4];
    int first = 0;
    for (int i = 0; i < 4; i++)
        rows[i].length = rows[i].replaced = 0;
    if (memcmp(kind.at, "NON", 3) != 0) {
        add(page, rows, kind);
        add(page, rows, fixed("/"));
        add(page, rows, line(payload, places, 29));
        first++;
    }
    for (int i = first; i < 4; i++)
        message = fill(&rows[i], message);
    cut(page, message);
    for (int i = 0; i < 4; i++)
        lay(page, &rows[i]);
}

uint32_t qrbill_swift(const uint8_t *payload, size_t length, uint8_t *destination, size_t room,
                      uint16_t *counts, size_t numbers)
{
    uint16_t places[2 * LINES];
    struct page page;
    const uint32_t answer = lines_of(payload, length, places);
    if (answer >= 1000)
        return answer;
    if (is_empty(line(payload, places, 19)))
        return NO_AMOUNT;
    page.at = page.bytes;
    page.rows = page.cut = page.replaced = 0;
    lay_beneficiary(&page, payload, places);
    const uint16_t first = page.rows;
    lay_transaction(&page, payload, places);
    const uint16_t second = page.rows;
    lay_remittance(&page, payload, places);
    const uint32_t size = (uint32_t)(page.at - page.bytes) - 2;
    if (room < size || numbers < QRBILL_SWIFT_COUNTS)
        return NO_ROOM;
    memcpy(destination, page.bytes, size);
    const uint16_t told[QRBILL_SWIFT_COUNTS] = {first, (uint16_t)(second - first),
                                                (uint16_t)(page.rows - second), page.cut,
                                                page.replaced};
    memcpy(counts, told, sizeof told);
    return size;
}
