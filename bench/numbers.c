/* The three makers of numbers in plain C, as one writes them by hand: include/qrbill.h says what they
   answer. */

#include <string.h>

#include "qrbill.h"

enum { BAD_FORM = 10000, NO_ROOM = 15000 };

static bool is_digit(uint8_t x)
{
    return x >= '0' && x <= '9';
}

static bool is_capital(uint8_t x)
{
    return x >= 'A' && x <= 'Z';
}

static bool is_small(uint8_t x)
{
    return x >= 'a' && x <= 'z';
}

/* The remainder by 97 of a number with a text more. */
static unsigned remainder_after(unsigned remainder, const uint8_t *at, size_t length)
{
    for (const uint8_t *end = at + length; at < end; at++) {
        if (is_digit(*at))
            remainder = (10 * remainder + *at - '0') % 97;
        else /* a small letter is its capital with one bit more */
            remainder = (100 * remainder + (*at & ~0x20u) - 'A' + 10) % 97;
    }
    return remainder;
}

/* Lays a head, the pair that is due, and the two parts of the rest. */
static uint32_t make(const uint8_t *head, const uint8_t *first, size_t first_length,
                     const uint8_t *second, size_t second_length, uint8_t *destination,
                     size_t room)
{
    const uint32_t length = (uint32_t)(4 + first_length + second_length);
    if (room < length)
        return NO_ROOM;
    unsigned remainder = remainder_after(0, first, first_length);
    remainder = remainder_after(remainder, second, second_length);
    const unsigned pair = 98 - remainder_after(remainder, head, 2) * 100 % 97;
    memcpy(destination, head, 2);
    destination[2] = (uint8_t)('0' + pair / 10);
    destination[3] = (uint8_t)('0' + pair % 10);
    memcpy(destination + 4, first, first_length);
    memcpy(destination + 4 + first_length, second, second_length);
    return length;
}

uint32_t qrbill_make_qrr(const uint8_t *digits, size_t length, uint8_t *destination, size_t room)
{
    static const uint8_t next_carry[] = {0, 9, 4, 6, 8, 2, 7, 1, 3, 5, 0, 9, 4, 6, 8, 2, 7, 1, 3};
    unsigned carry = 0, all = 0;
    if (length != 26)
        return BAD_FORM;
    for (size_t i = 0; i < length; i++) {
        if (!is_digit(digits[i]))
            return BAD_FORM;
        all |= digits[i] - '0';
        carry = next_carry[carry + digits[i] - '0'];
    }
    if (all == 0)
        return BAD_FORM;
    if (room < 27)
        return NO_ROOM;
    memcpy(destination, digits, 26);
    destination[26] = (uint8_t)('0' + (10 - carry) % 10);
    return 27;
}

uint32_t qrbill_make_scor(const uint8_t *reference, size_t length, uint8_t *destination,
                          size_t room)
{
    if (length < 1 || length > 21)
        return BAD_FORM;
    for (size_t i = 0; i < length; i++)
        if (!is_digit(reference[i]) && !is_capital(reference[i]) && !is_small(reference[i]))
            return BAD_FORM;
    return make((const uint8_t *)"RF", reference, length, reference, 0, destination, room);
}

uint32_t qrbill_make_iban(const uint8_t *country, size_t country_length, const uint8_t *iid,
                          size_t iid_length, const uint8_t *account, size_t account_length,
                          uint8_t *destination, size_t room)
{
    if (country_length != 2 || iid_length != 5 || account_length != 12 ||
        (memcmp(country, "CH", 2) != 0 && memcmp(country, "LI", 2) != 0))
        return BAD_FORM;
    for (size_t i = 0; i < iid_length; i++)
        if (!is_digit(iid[i]))
            return BAD_FORM;
    for (size_t i = 0; i < account_length; i++)
        if (!is_digit(account[i]) && !is_capital(account[i]))
            return BAD_FORM;
    return make(country, iid, iid_length, account, account_length, destination, room);
}
