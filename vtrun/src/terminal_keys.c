/* The keys of somebody's terminal, which sends the sequences of xterm or of a console. */
#include "typing.h"
#include "vtrun.h"
#include <string.h>

enum { MOST_NUMBERS = 2, ESC = 0x1b };

/* Keys by the last byte of their sequence, and by its number before `~`. */
static const struct {
    char last;
    uint8_t number, code;
} rows[] = {
    { 'A', 0, 103 }, { 'B', 0, 108 }, { 'C', 0, 106 }, { 'D', 0, 105 }, { 'H', 0, 102 }, { 'F', 0, 107 },
    { 'P', 0, 59 },  { 'Q', 0, 60 },  { 'R', 0, 61 },  { 'S', 0, 62 },  { '~', 1, 102 }, { '~', 2, 110 },
    { '~', 3, 111 }, { '~', 4, 107 }, { '~', 5, 104 }, { '~', 6, 109 }, { '~', 11, 59 }, { '~', 12, 60 },
    { '~', 13, 61 }, { '~', 14, 62 }, { '~', 15, 63 }, { '~', 17, 64 }, { '~', 18, 65 }, { '~', 19, 66 },
    { '~', 20, 67 }, { '~', 21, 68 }, { '~', 23, 87 }, { '~', 24, 88 },
};

/* The weights of a sequence's second number: 1 more than the sum of Shift 1, Alt 2, Control 4. */
static unsigned weight_of(unsigned number)
{
    unsigned sum = number ? number - 1 : 0;
    return (sum & 1 ? SHIFT : 0) | (sum & 2 ? ALT : 0) | (sum & 4 ? CONTROL : 0);
}

/* Types the key of a sequence that begins after ESC. How many bytes it has, or 0 if it is none. */
static size_t type_sequence(const uint8_t *bytes, size_t n, unsigned weight)
{
    unsigned numbers[MOST_NUMBERS] = { 0, 0 }, count = 0;
    size_t at = 1;
    if (n < 2 || (bytes[0] != '[' && bytes[0] != 'O'))
        return 0;
    if (bytes[0] == '[' && bytes[1] == '[' && n > 2 && bytes[2] >= 'A' && bytes[2] <= 'E')
        return press(weight, 59U + bytes[2] - 'A'), 3;
    for (; at < n && (bytes[at] == ';' || (bytes[at] >= '0' && bytes[at] <= '9')); at++) {
        if (bytes[at] == ';')
            count++;
        else if (count < MOST_NUMBERS && numbers[count] < 1000)
            numbers[count] = 10 * numbers[count] + bytes[at] - '0';
    }
    if (at == n)
        return 0;
    for (size_t i = 0; i < sizeof rows / sizeof *rows; i++)
        if (bytes[at] == rows[i].last && (rows[i].last != '~' || numbers[0] == rows[i].number)) {
            press(weight | weight_of(numbers[1]), rows[i].code);
            return at + 1;
        }
    return 0;
}

/* Types one key: how many bytes it took. */
static size_t type_one(const uint8_t *bytes, size_t n, unsigned more)
{
    unsigned character, weight, code;
    if (bytes[0] == ESC && n > 1 && !more) {
        size_t length = type_sequence(bytes + 1, n - 1, 0);
        if (length)
            return length + 1;
        if (bytes[1] == ESC && n > 2 && (length = type_sequence(bytes + 2, n - 2, ALT)))
            return length + 2;
        return 1 + type_one(bytes + 1, n - 1, ALT);
    }
    size_t length = read_character(bytes, n, &character);
    if (length && find_key(character, &weight, &code))
        press(weight | more, code);
    return length ? length : 1;
}

/* Whether all that is left is the beginning of a character of UTF-8. */
static bool is_begun(const uint8_t *bytes, size_t n)
{
    size_t length = bytes[0] < 0xc2 || bytes[0] >= 0xf5 ? 1 : bytes[0] < 0xe0 ? 2 : bytes[0] < 0xf0 ? 3 : 4;
    for (size_t i = 1; i < n; i++)
        if ((bytes[i] & 0xc0) != 0x80)
            return false;
    return n < length;
}

size_t type_terminal(const uint8_t *bytes, size_t n)
{
    size_t at = 0;
    while (at < n && !is_begun(bytes + at, n - at))
        at += type_one(bytes + at, n - at, 0);
    return at;
}
