/* Texts to type: characters, and names of keys between < and >. */
#include "typing.h"
#include "vtrun.h"
#include <string.h>
#include <strings.h>

enum { MOST_NAME = 16, F1 = 59, F11 = 87, SPARE = 12 };

/* The keycodes of keys with names (input-event-codes.h of Linux). */
static const struct {
    const char *name;
    uint8_t code;
} named[] = {
    { "esc", 1 },    { "backspace", 14 }, { "tab", 15 },       { "enter", 28 },   { "space", 57 },
    { "home", 102 }, { "up", 103 },       { "pageup", 104 },   { "left", 105 },   { "right", 106 },
    { "end", 107 },  { "down", 108 },     { "pagedown", 109 }, { "insert", 110 }, { "delete", 111 },
};

/* A key to press. */
struct stroke {
    unsigned weight, code;
};

size_t read_character(const uint8_t *bytes, size_t n, unsigned *character)
{
    static const unsigned least[] = { 0, 0, 0x80, 0x800, 0x10000 };
    unsigned first = n ? bytes[0] : 0x80;
    size_t length = first < 0x80                    ? 1
                    : first >= 0xf0 && first < 0xf5 ? 4
                    : first >= 0xe0 && first < 0xf0 ? 3
                    : first >= 0xc2 && first < 0xe0 ? 2
                                                    : 0;
    if (length == 0 || length > n)
        return 0;
    unsigned found = length == 1 ? first : first & (0x7fU >> length);
    for (size_t i = 1; i < length; i++) {
        if ((bytes[i] & 0xc0) != 0x80)
            return 0;
        found = found << 6 | (bytes[i] & 0x3f);
    }
    if (found < least[length] || found > 0x10ffff || (found >= 0xd800 && found < 0xe000))
        return 0;
    *character = found;
    return length;
}

/* The keycode of a named key, or 0. Shift and F1 to F8 are F13 to F20. */
static unsigned code_of_name(const char *name, unsigned *weight)
{
    unsigned n = 0;
    for (size_t i = 0; i < sizeof named / sizeof *named; i++)
        if (strcasecmp(name, named[i].name) == 0)
            return named[i].code;
    if ((name[0] != 'f' && name[0] != 'F') || !name[1] || strspn(name + 1, "0123456789") != strlen(name + 1) ||
        strlen(name) > 3)
        return 0;
    for (const char *at = name + 1; *at; at++)
        n = 10 * n + (unsigned)(*at - '0');
    if (n < 1 || n > 20)
        return 0;
    if (n > SPARE) {
        *weight |= SHIFT;
        n -= SPARE;
    }
    return n <= 10 ? F1 + n - 1 : F11 + n - 11;
}

/* Reads what stands between < and >. How many bytes that is with both, or 0 if it is no key. */
static size_t read_name(const char *text, size_t n, struct stroke *stroke)
{
    char name[MOST_NAME];
    size_t at = 1;
    const char *end = memchr(text, '>', n < 32 ? n : 32);
    unsigned character, plain;
    stroke->weight = 0;
    while (at + 1 < n && text[at + 1] == '-' && memchr("CMASc mas", text[at], 9) && text[at] != ' ') {
        unsigned letter = (unsigned)text[at] & ~0x20U;
        stroke->weight |= letter == 'C' ? CONTROL : letter == 'S' ? SHIFT : ALT;
        at += 2;
    }
    if (!end || text + at >= end || (size_t)(end - text) - at >= sizeof name)
        return 0;
    size_t length = (size_t)(end - text) - at;
    memcpy(name, text + at, length);
    name[length] = '\0';
    stroke->code = code_of_name(name, &stroke->weight);
    if (stroke->code)
        return at + length + 1;
    if (strcasecmp(name, "lt") == 0)
        character = '<';
    else if (read_character((const uint8_t *)name, length, &character) != length)
        return 0;
    if (!find_key(character, &plain, &stroke->code))
        return 0;
    stroke->weight |= plain;
    return at + length + 1;
}

/* Reads one key of a text. How many bytes that is, or 0. */
static size_t read_stroke(const char *text, size_t n, struct stroke *stroke)
{
    unsigned character;
    if (text[0] == '<')
        return read_name(text, n, stroke);
    size_t length = read_character((const uint8_t *)text, n, &character);
    return length && find_key(character, &stroke->weight, &stroke->code) ? length : 0;
}

bool type_text(const char *text, size_t n, size_t *fault)
{
    struct stroke stroke;
    size_t length;
    for (size_t at = 0; at < n; at += length) {
        length = read_stroke(text + at, n - at, &stroke);
        if (length == 0) {
            *fault = at;
            return false;
        }
    }
    for (size_t at = 0; at < n; at += length) {
        length = read_stroke(text + at, n - at, &stroke);
        if (length == 0 || !press(stroke.weight, stroke.code)) {
            *fault = at;
            return false;
        }
    }
    return true;
}
