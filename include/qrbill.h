/* The reader and the writer of Swiss QR-bill payloads, and of girocodes, for programs in C (C99 or later)
   and C++, on x86-64 Linux.

   Link libcapi.a for the Swiss bill, which `rt lib` in crates/capi writes to crates/capi/out, and
   libgiro_capi.a for the girocode, by `rt lib` in crates/giro_capi; or both.

   What is lent. A payload is `length` bytes at `payload`, of any content and any length; a text, a
   list and a destination are lent in the same way, a list as so many numbers of its type, aligned
   as such: 16 bits, 32 for the places of a pile, and 64 for sums. A pointer may be null where its length
   is 0: then nothing is read or written through it.
   What stays. The calls only read what is lent as const. The list of qrbill_places and of
   girocode_places, the answers of qrbill_pile, the list and the sums of qrbill_season, the counts of
   qrbill_swift and qrbill_mend and a destination are written to only where the call succeeds, and then
   only in front: what lies behind stays, to the last byte. So it is with the room of qrbill_hand, but
   that what is written there lies behind what is held.
   Overlap. What is written to lies apart from all else that is lent to the same call. What is only
   read may overlap.
   Stack. There is no memory but what is lent and the stack, of which a call takes at most so many
   bytes: qrbill_mend 6000, qrbill_write 2900, qrbill_swift 2600, any other 1800 (from the machine
   code, by bench/stack).
   Threads. Nothing is kept between calls, nor shared: any number of threads may call at once, also
   with the same payload, as long as nothing changes what is lent before the calls return. */

#ifndef QRBILL_H
#define QRBILL_H

#include <stdbool.h>
#include <stddef.h>
#include <stdint.h>

#ifdef __cplusplus
extern "C" {
#endif

/* The version of this interface: it changes where a call, an answer or a size does. 1 had lists of 68
   numbers. */
#define QRBILL_VERSION 2

/* The most bytes and lines that a bill has, and the fewest lines. A longer payload may be handed over: it is
   refused under 2 without being read to its end. */
#define QRBILL_MOST_BYTES 997
#define QRBILL_FEWEST_LINES 31
#define QRBILL_MOST_LINES 34

/* The most bills in a call of qrbill_pile and qrbill_season. */
#define QRBILL_MOST_BILLS 500

/* The numbers of a list of places: start, bytes and characters of each of 34 lines, those of line i
   from number 3 (i - 1) on. A host that kept a list of 68 numbers, start and bytes alone, which is now
   refused under 15, has to lend 102, to look for line i there and not from 2 (i - 1) on, and to give
   the characters of each line that it has written. */
#define QRBILL_NUMBERS 102

/* The number of lines, 31 to 34, if the payload is accepted. If it is refused, 1000 times the
   refusal plus the line that the refusal names, below 1000. The refusals:

    1  no bytes                                      8  a line is empty and must not be
    2  over 997 bytes                                9  a line is over its length
    3  a byte that begins no allowed character      10  a line is not of its form
    4  a break unlike the first one                 11  check digits are wrong
    5  not 31 to 34 lines; the line is their count  12  account, reference and currency do not go
    6  a line is not the fixed text                     together; the line is 28
    7  a line is not empty and must be              13  lines 30 and 32 together are over 140
                                                        characters; the line is 32

   Refusals 1 and 2 name line 0. Every call that tells refusals packs them in this way: an answer of
   1000 or more is a refusal, `answer / 1000` its number and `answer % 1000` its line. Four calls tell
   none: qrbill_line, qrbill_glance and girocode_line answer with a place, or 0, and qrbill_hand with
   a length. Which byte refusal 3 is about, no call here tells: the program qrbill does, as does the
   library in Rattle. */
uint32_t qrbill_read(const uint8_t *payload, size_t length);

/* Where a line of an accepted payload stands: 1000 times its start plus its length, both in bytes
   and without its break. Lines are counted from 1. A line that the payload does not have, up to
   line 34, starts at the payload's end and has length 0.

   0 if the payload is refused or `line` is not 1 to 34. No line of an accepted payload gives 0:
   line 1 is never empty, and no other starts at 0. */
uint32_t qrbill_line(const uint8_t *payload, size_t length, uint32_t line);

/* Where all lines of an accepted payload stand: start, bytes and characters of each of 34 lines are
   the first 102 numbers of the list; start and bytes as qrbill_line has them, and as characters
   count the bytes other than 80 to BF. Of an absent line they are the payload's length, 0 and 0. The
   answer is the number of lines, plus 100 if the breaks are CR LF.

   If the payload is refused, the answer is that of qrbill_read; if it is accepted and the list has
   fewer than 102 numbers, 15000. The list is then as it was. */
uint32_t qrbill_places(const uint8_t *payload, size_t length, uint16_t *list, size_t numbers);

/* Where the IBAN stands, at a glance: 1000 times its start plus its length, or 0 for not known. It
   looks at the first 37 bytes and at whether there are more, however long the payload is: lines 1 to
   4 are there, each ended by a break of either kind or by the end of the payload, and break none of
   the rules 6, 8, 10 and 11. What comes after them may be anything, so the payload may still be
   refused; but the IBAN of a payload that is accepted is always given. */
uint32_t qrbill_glance(const uint8_t *payload, size_t length);

/* Writes a bill of `count` lines, with LF between them or, if `crlf` is true, CR LF. Line i is the
   part of the text that starts at number 3 (i - 1) of the list, from 0, and has as many bytes as
   the next number says, and as many characters as the one after it; parts may overlap, and lie in
   any order. What the list says of lines past the count does not matter. The answer is the number
   of bytes, at most 997, which are the first of the destination.

   Else the answer is a refusal, and the destination is as it was. In this order:

   15, line 0      the list has fewer than 102 numbers
    5, the count   not 31 to 34 lines; for a count above 999 the line is 999
   14, the line    a line's part lies outside the text
   18, the line    a line has another number of characters than the list says
    3, the line    a line holds CR or LF
                   what qrbill_read says of the bytes that would be written
   15, line 0      there is less room than bytes to write */
uint32_t qrbill_write(const uint8_t *text, size_t length, const uint16_t *list, size_t numbers,
                      uint32_t count, bool crlf, uint8_t *destination, size_t room);

/* Numbers of our own, made from their parts, with the check digits that are due:

   qrbill_make_qrr    from 26 digits, not all zero, the QR reference of 27
   qrbill_make_scor   from 1 to 21 of A-Z a-z 0-9, which stay as they are, the creditor reference: RF,
                      two check digits and these
   qrbill_make_iban   from CH or LI, an IID of five digits and an account of twelve of 0-9 A-Z the
                      IBAN of 21 characters

   The answer is the length of the number, whose characters are the first of the destination. Else it
   is 10000 where a part is not of that form, or 15000 where there is less room than that, and the
   destination is as it was. */
uint32_t qrbill_make_qrr(const uint8_t *digits, size_t length, uint8_t *destination, size_t room);

uint32_t qrbill_make_scor(const uint8_t *reference, size_t length, uint8_t *destination,
                          size_t room);

uint32_t qrbill_make_iban(const uint8_t *country, size_t country_length, const uint8_t *iid,
                          size_t iid_length, const uint8_t *account, size_t account_length,
                          uint8_t *destination, size_t room);

/* A pile of bills in one call: `count` bills lie in the buffer, bill i where numbers 2 (i - 1) and
   2 (i - 1) + 1 of `places`, from 0, say: its start and its length in bytes. They may overlap, lie in
   any order, and be empty. The answer is 0, and the first two numbers of `answers` for each bill, in
   turn, are 0 and its line count if it is accepted, or the refusal and the line that qrbill_read
   names. `numbers` and `room` count numbers; what lies behind the entries stays.

   Else no number of `answers` is changed, and the answer is 1000 times a refusal plus a position:

    5, 0             more than 500 bills, or more than `places` has two numbers for
   14, the position  the place of a bill lies outside the buffer; the first such, from 1
   15, 0             `answers` has room for fewer than two numbers a bill */
uint32_t qrbill_pile(const uint8_t *buffer, size_t length, const uint32_t *places, size_t numbers,
                     uint32_t count, uint16_t *answers, size_t room);

/* Last season again, before an office switches editions: `count` bills that lie in the buffer as in
   qrbill_pile, each tried under Guidelines 2.2 and 2.4. The answer is how many bills the two differ on,
   in the number or the line that a pile would have for them, and the first of `list` are their
   positions, from 1 and ascending. The first two of `sums` are then the sums in cents of the amounts
   that 2.2 accepts, of CHF and of EUR; a bill without amount counts 0. What lies behind the positions
   and the sums stays.

   Else neither `list` nor `sums` has changed, and the answer is 1000 times a refusal plus a position:

    5, 0             more than 500 bills, or more than `places` has two numbers for
   14, the position  the place of a bill lies outside the buffer; the first such, from 1
   15, 0             `list` has room for fewer numbers than there are bills, however many are to be
                     listed, or `sums` for fewer than two */
#define QRBILL_SUMS 2

uint32_t qrbill_season(const uint8_t *buffer, size_t length, const uint32_t *places, size_t numbers,
                       uint32_t count, uint16_t *list, size_t room, uint64_t *sums,
                       size_t sums_room);

/* The contents of SWIFT's fields 59a, 32B and 70 for a bill that is paid from abroad, without tags,
   all lines parted by CR LF:

   59a   slash and IBAN; 1/ and name; 2/, street and number, if there is either; 3/, country, slash,
         postcode and town
   32B   currency and amount, with a comma
   70    the kind of reference, slash and reference, and the message on three lines; or the message
         alone on four. A line with no character is not there

   A line ends at 35 characters. A character outside SWIFT's x set becomes a full stop, as does a
   colon or hyphen that would begin a line. The answer is the number of bytes, at most 298, which are
   the first of the destination; the first five of `counts` are then the lines of 59a, of 32B and of
   70, how many characters were cut, and how many of those kept were replaced.

   Else the answer is a refusal, and neither the destination nor `counts` has changed. In this order:

                   what qrbill_read says of the payload
   16, line 19     the bill has no amount
   15, line 0      there is less room than bytes, or `counts` has fewer than five numbers */
#define QRBILL_SWIFT_BYTES 298
#define QRBILL_SWIFT_COUNTS 5

uint32_t qrbill_swift(const uint8_t *payload, size_t length, uint8_t *destination, size_t room,
                      uint16_t *counts, size_t numbers);

/* A payload that a mail program mangled, mended: up to 4,096 bytes. What qrbill_read accepts comes back
   unchanged, with all counts 0. Else, in this order:

   1   each CR LF, lone CR or lone LF becomes LF
   2   spaces that end a line, just before a break or the payload's end, go; leading ones stay
   3   spaces within lines 4 and 29, the account and the reference, go
   4   empty last lines past line 31 go

   No other byte differs, and nothing else is mended: tabs and no-break spaces stay, as do quotation
   marks of mail and the soft breaks and =XX of quoted-printable text, which is to be decoded before.
   If qrbill_read accepts what comes of it, the answer is the number of bytes, at most 997, which are
   the first of the destination; the first three of `counts` are then the breaks that were not LF, the
   spaces taken, and the lines dropped. Mending a mended payload changes nothing.

   Else the answer is a refusal, and neither the destination nor `counts` has changed. In this order:

    2, line 0      over 4,096 bytes
                   what qrbill_read says of the mended bytes: a line of those, and 2 for over 997
   15, line 0      there is less room than bytes, or `counts` has fewer than three numbers */
#define QRBILL_MENDED_BYTES 997
#define QRBILL_MEND_COUNTS 3

uint32_t qrbill_mend(const uint8_t *payload, size_t length, uint8_t *destination, size_t room,
                     uint16_t *counts, size_t numbers);

/* A payload that comes in bits, as from a serial scanner: each is handed over as it arrives, and is
   put behind what is held. `held` is a room of the caller's, of `room` bytes, and its first `length`
   are held: 0 to begin with, or to begin anew, whatever the room has in it, and then as many as the
   call before has answered. A bit has any number of bytes, also none.

   The answer is the new length; only the bytes of the bit are written, behind those that were held.
   Once there are over 997 in all it is 998, whatever follows, and so it is for a `length` over 997.
   The room is then as it was.

   At the close, call qrbill_read or qrbill_places on `held` and the length, whatever that is: they
   answer what they answer on the whole payload, however it was cut. For this the room has to have
   998 bytes, one more than are ever held: a length of 998 is refused under 2, whatever lies there. A
   smaller room is never written past its end: a bit that does not fit in it is answered with 998
   too, and with that length such a room must not be read. */
#define QRBILL_HELD 998

size_t qrbill_hand(uint8_t *held, size_t room, size_t length, const uint8_t *bit, size_t bytes);

/* The Austrian girocode (EPC QR code): the same four calls for a payload that begins with BCD. It has
   7 to 12 lines and at most 331 bytes; a list has 24 numbers, start and length of each of 12 lines.
   girocode_line takes a line of 1 to 12, and girocode_write a count of 7 to 12, at most 331 bytes and
   a list of 24 numbers or more, where the calls for the Swiss bill take 34, 31 to 34, 997 and 102.
   Line i has the numbers 2 (i - 1) and 2 (i - 1) + 1 of the list. The characters are those of ISO
   8859-1 if the third line is 2, and otherwise those of the Swiss bill. Answers are packed in the
   same way. The refusals that differ:

    2  over 331 bytes                               10  BIC, IBAN, amount, purpose or reference is
    5  not 7 to 12 lines; the line is their count       not of its form
    6  line 1 to 4 is not a text that it may be     12  reference and text are both filled; the
    8  name, IBAN, last line, or BIC under version      line is 11
       001 is empty                                 17  the coding is 3 to 8; the line is 3

   7, 13 and 18 never come. */
#define GIROCODE_MOST_BYTES 331
#define GIROCODE_FEWEST_LINES 7
#define GIROCODE_MOST_LINES 12
#define GIROCODE_NUMBERS 24

uint32_t girocode_read(const uint8_t *payload, size_t length);

uint32_t girocode_line(const uint8_t *payload, size_t length, uint32_t line);

uint32_t girocode_places(const uint8_t *payload, size_t length, uint16_t *list, size_t numbers);

uint32_t girocode_write(const uint8_t *text, size_t length, const uint16_t *list, size_t numbers,
                        uint32_t count, bool crlf, uint8_t *destination, size_t room);

#ifdef __cplusplus
}
#endif

#endif
