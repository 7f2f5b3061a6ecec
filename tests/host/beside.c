/* Damages payloads, and calls the library and the plain C of bench/sieve.c for each, side by side:

       beside SEED ROUNDS < records

   The records are the starting payloads, as host.c reads them. In each round one of them is damaged
   (damages.c) and both sides are asked: qrbill_read, qrbill_line, qrbill_places, qrbill_glance, and
   qrbill_write with the lines where they lie, half the time with something changed. What is lent is
   laid against a wall each, and full of marks before the call, as is the room in front of it.

   At the first difference, in an answer or in anything that was lent, the host writes what was
   asked and what both sides made of it, and ends with status 1; so it does where a side runs into a
   wall. Else it writes how often each refusal came (0: none) of each call that may refuse, a line
   `CALL REFUSAL TIMES` each. */

#include <signal.h>
#include <stdio.h>
#include <stdlib.h>
#include <string.h>

#include "damages.h"
#include "qrbill.h"
#include "wall.h"

/* The plain C, whose calls are compiled under names of their own. */
__typeof__(qrbill_read) plain_read;
__typeof__(qrbill_line) plain_line;
__typeof__(qrbill_places) plain_places;
__typeof__(qrbill_glance) plain_glance;
__typeof__(qrbill_write) plain_write;

enum { EACH = 3, MOST_COUNT = 35, MOST_NUMBERS = EACH * MOST_COUNT }; /* in a list, EACH for a line */
enum { MARK = 0xAA, MOST_ROOM = 1200, LARGEST = 65535, REFUSALS = 19 };

/* What both sides are asked. */
struct question {
    struct payload payload;
    uint32_t line;        /* that is asked for */
    size_t list_numbers;  /* in the list to fill */
    size_t front;         /* bytes of the writer's text in front of the payload */
    size_t numbers, room; /* in the writer's list, and in its destination */
    uint32_t count;       /* of lines to write */
    bool crlf;            /* the break to write */
    uint16_t places[MOST_NUMBERS];
};

/* What one side makes of it. */
struct result {
    uint32_t kept; /* 1 where all that is only read stayed as it was, else 0 */
    uint32_t read, line, glance, places, written;
    uint16_t list[MOST_NUMBERS];
    uint8_t destination[MOST_ROOM];
};

/* One side: its calls, and where the room ends that is lent for each thing. */
struct side {
    const char *name;
    __typeof__(qrbill_read) *read;
    __typeof__(qrbill_line) *line;
    __typeof__(qrbill_places) *places;
    __typeof__(qrbill_glance) *glance;
    __typeof__(qrbill_write) *write;
    uint8_t *text_end, *given_end, *list_end, *destination_end;
};

static struct side library = {
    .name = "the library",
    .read = qrbill_read, .line = qrbill_line, .places = qrbill_places, .glance = qrbill_glance,
    .write = qrbill_write,
};
static struct side plain = {
    .name = "the plain C",
    .read = plain_read, .line = plain_line, .places = plain_places, .glance = plain_glance,
    .write = plain_write,
};

/* What is asked in this round, and which side. */
static int rounds_begun;
static struct question asked;
static const struct side *asking;

/* A room of its own for each thing that a side is lent. */
static bool made_rooms(struct side *side)
{
    side->text_end = end_of_room(2 * WALL);
    side->given_end = end_of_room(WALL);
    side->list_end = end_of_room(WALL);
    side->destination_end = end_of_room(WALL);
    return side->text_end && side->given_end && side->list_end && side->destination_end;
}

/* Makes the calls of one side. */
static void ask(const struct side *side, struct result *result)
{
    const size_t length = asked.payload.length, given_bytes = asked.numbers * sizeof(uint16_t);
    uint8_t *payload = memcpy(side->text_end - length, asked.payload.bytes, length);
    uint16_t *given = memcpy(side->given_end - given_bytes, asked.places, given_bytes);
    uint8_t *lists = memset(side->list_end - sizeof result->list, MARK, sizeof result->list);
    uint8_t *destinations = memset(side->destination_end - MOST_ROOM, MARK, MOST_ROOM);
    uint8_t *list = side->list_end - asked.list_numbers * sizeof(uint16_t);

    asking = side;
    result->read = side->read(payload, length);
    result->line = side->line(payload, length, asked.line);
    result->glance = side->glance(payload, length);
    result->places = side->places(payload, length, (uint16_t *)(void *)list, asked.list_numbers);
    result->written = side->write(payload - asked.front, asked.front + length, given,
                                  asked.numbers, asked.count, asked.crlf,
                                  side->destination_end - asked.room, asked.room);
    memcpy(result->list, lists, sizeof result->list);
    memcpy(result->destination, destinations, MOST_ROOM);
    result->kept = memcmp(payload, asked.payload.bytes, length) == 0 &&
                   memcmp(given, asked.places, given_bytes) == 0;
}

/* What is asked. */

/* The lines of the payload where they lie in the writer's text, and lists with enough numbers. Of
   lines that are not there the list may say anything. */
static void lay_out(void)
{
    const struct payload *payload = &asked.payload;
    struct part lines[MOST_COUNT];
    const size_t count = cut(payload, lines, MOST_COUNT), stray = below(2) ? LARGEST : 0;
    asked.count = (uint32_t)(count < MOST_COUNT ? count : MOST_COUNT);
    asked.crlf = has_returns(payload);
    asked.front = below(4) ? 0 : below(2) ? below(100) : LARGEST - payload->length;
    asked.numbers = QRBILL_NUMBERS + below(3);
    for (size_t i = 0; i < MOST_COUNT; i++) {
        uint16_t *entry = &asked.places[EACH * i];
        entry[0] = (uint16_t)(i < count ? asked.front + lines[i].start : stray);
        entry[1] = (uint16_t)(i < count ? lines[i].length : stray);
        entry[2] = (uint16_t)(i < count ? characters(payload, lines[i]) : stray);
    }
}

/* What the list says of a line's characters is so, if the line lies in the payload. */
static void recount(uint16_t *entry)
{
    const struct part line = {(size_t)entry[0] - asked.front, entry[1]};
    if (entry[0] >= asked.front && line.start + line.length <= asked.payload.length)
        entry[2] = (uint16_t)characters(&asked.payload, line);
}

/* A line starts elsewhere, or has another length: one more or less, or just up to the end of the
   text or past it. Its characters are mostly counted again. */
static void change_place(void)
{
    const size_t end = asked.front + asked.payload.length, half = below(2);
    uint16_t *place = &asked.places[EACH * below(asked.count)], *number = place + half;
    const size_t left = end - place[1 - half];
    const size_t others[] = {0, 1, *number - 1u, *number + 1u, left, left + 1, LARGEST};
    *number = (uint16_t)others[below(sizeof others / sizeof *others)];
    if (below(4))
        recount(place);
}

/* A line, which may be past the count, is said to have other characters: one more or less, its bytes,
   or those of the whole payload. */
static void change_characters(void)
{
    const struct part whole = {0, asked.payload.length};
    uint16_t *entry = &asked.places[EACH * below(MOST_COUNT)];
    const size_t others[] = {0, entry[2] - 1u, entry[2] + 1u, entry[1],
                             characters(&asked.payload, whole), LARGEST};
    entry[2] = (uint16_t)others[below(sizeof others / sizeof *others)];
}

/* A line is taken from where another lies. */
static void copy_place(void)
{
    const size_t one = below(asked.count), other = below(asked.count);
    memcpy(&asked.places[EACH * one], &asked.places[EACH * other], EACH * sizeof *asked.places);
}

/* Half the time one thing changes that the writer is lent or told. */
static void change(void)
{
    static const uint32_t counts[] = {
        0, 30, 31, 32, 33, 34, 35, 255, 256, 287, 999, 1000, 65567, 4294967295,
    };
    switch (below(12)) {
    case 0:
        asked.numbers = QRBILL_NUMBERS - 1 - below(2);
        break;
    case 1:
        asked.count = counts[below(sizeof counts / sizeof *counts)];
        break;
    case 2:
        change_place();
        break;
    case 3:
        copy_place();
        break;
    case 4:
        asked.crlf = !asked.crlf;
        break;
    case 5:
        change_characters();
        break;
    default:
        break;
    }
}

/* How much room the lines take with their breaks, or as much as can be lent. */
static size_t needed_room(void)
{
    size_t room = 0;
    for (size_t i = 0; i < asked.count && i < MOST_COUNT; i++)
        room += asked.places[EACH * i + 1] + (i == 0 ? 0u : asked.crlf ? 2u : 1u);
    return room < MOST_ROOM ? room : MOST_ROOM;
}

/* Just as much room as is needed; seldom one byte less, none, or all. */
static size_t some_room(void)
{
    const size_t needed = needed_room();
    switch (below(16)) {
    case 0:
        return needed == 0 ? 0 : needed - 1;
    case 1:
        return 0;
    case 2:
        return MOST_ROOM;
    default:
        return needed;
    }
}

/* What a round asks: a payload, and how it is to be read and written. */
static void next_question(void)
{
    damaged_start(&asked.payload);
    asked.line = (uint32_t)below(QRBILL_NUMBERS / EACH + 2);
    asked.list_numbers = QRBILL_NUMBERS + below(3) - (below(8) ? 0 : 2);
    lay_out();
    change();
    asked.room = some_room();
}

/* What is told. */

static void tell_bytes(const char *name, const void *bytes, size_t size)
{
    const uint8_t *byte = bytes;
    printf("%s ", name);
    for (size_t i = 0; i < size; i++)
        printf("%02x", byte[i]);
    printf("\n");
}

static void tell_question(void)
{
    printf("round %d\n", rounds_begun);
    tell_bytes("payload", asked.payload.bytes, asked.payload.length);
    printf("line %u, a list of %zu; to write: %zu bytes in front, %u lines, crlf %d, room %zu\n",
           asked.line, asked.list_numbers, asked.front, asked.count, asked.crlf, asked.room);
    tell_bytes("places to write", asked.places, asked.numbers * sizeof *asked.places);
}

static void tell_answers(const char *call, uint32_t ours, uint32_t theirs)
{
    if (ours != theirs)
        printf("%s: the library answers %u, the plain C %u\n", call, ours, theirs);
}

static void tell_lent(const char *what, const void *ours, const void *theirs, size_t size)
{
    if (memcmp(ours, theirs, size) != 0) {
        printf("%s:\n", what);
        tell_bytes("the library", ours, size);
        tell_bytes("the plain C", theirs, size);
    }
}

static void tell_difference(const struct result *ours, const struct result *theirs)
{
    tell_answers("qrbill_read", ours->read, theirs->read);
    tell_answers("qrbill_line", ours->line, theirs->line);
    tell_answers("qrbill_glance", ours->glance, theirs->glance);
    tell_answers("qrbill_places", ours->places, theirs->places);
    tell_answers("qrbill_write", ours->written, theirs->written);
    tell_answers("what is only read is kept", ours->kept, theirs->kept);
    tell_lent("the list of qrbill_places", ours->list, theirs->list, sizeof ours->list);
    tell_lent("the destination of qrbill_write", ours->destination, theirs->destination,
              sizeof ours->destination);
}

static void tell_times(const char *call, const uint32_t times[REFUSALS])
{
    for (size_t refusal = 0; refusal < REFUSALS; refusal++)
        printf("%s %zu %u\n", call, refusal, times[refusal]);
}

/* Tells what was asked where a wall would end the host without a word. */
static void tell_wall(int number)
{
    tell_question();
    printf("%s ran into a wall (signal %d)\n", asking->name, number);
    fflush(stdout);
    _Exit(1);
}

int main(int argc, char **argv)
{
    static struct result ours, theirs;
    static uint32_t read[REFUSALS], places[REFUSALS], written[REFUSALS];
    if (argc != 3 || !read_starts() || !made_rooms(&library) || !made_rooms(&plain))
        return 2;
    signal(SIGSEGV, tell_wall);
    sow((uint64_t)atoi(argv[1]));
    for (const int rounds = atoi(argv[2]); rounds_begun < rounds;) {
        rounds_begun++;
        next_question();
        ask(&library, &ours);
        ask(&plain, &theirs);
        if (memcmp(&ours, &theirs, sizeof ours) != 0) {
            tell_question();
            tell_difference(&ours, &theirs);
            return 1;
        }
        read[ours.read / 1000]++;
        places[ours.places / 1000]++;
        written[ours.written / 1000]++;
    }
    tell_times("read", read);
    tell_times("places", places);
    tell_times("write", written);
    return 0;
}
