/* Cells for a terminal: characters in UTF-8, and colours by their numbers. */
#ifndef CELLS_H
#define CELLS_H

#include <stdbool.h>
#include <stdint.h>
#include <vt.h>

enum { MOST_ROWS = 255, MOST_COLS = 255 };

/* Whether a code is a character that a terminal or XML prints. */
static inline bool is_text(uint32_t code)
{
    return (code >= ' ' && code < 0x7F) || (code >= 0xA0 && code < 0xD800) || (code >= 0xE000 && code < 0xFFFE) ||
           (code >= 0x10000 && code < 0x110000);
}

/* The character in UTF-8, with a null byte behind it; U+FFFD for a code that is no printable character. */
static inline const char *utf8(uint32_t code, char text[5])
{
    int length = 0;
    if (!is_text(code))
        code = 0xFFFD;
    if (code < 0x80) {
        text[length++] = (char)code;
    } else {
        int more = code < 0x800 ? 1 : code < 0x10000 ? 2 : 3;
        text[length++] = (char)(0xFF00 >> (more + 1) | code >> 6 * more);
        while (more-- > 0)
            text[length++] = (char)(0x80 | (code >> 6 * more & 0x3F));
    }
    text[length] = 0;
    return text;
}

/* The attribute byte on a reversed screen: the colours are exchanged, blink and bold stay. */
static inline uint8_t reversed(uint8_t attr)
{
    return (uint8_t)((attr & 0x88) | (attr & 0x07) << 4 | (attr >> 4 & 0x07));
}

/* The number of a colour in SGR and in the palette, whose bits are red, green, blue; in a cell they are turned. */
static inline unsigned palette_number(unsigned colour)
{
    return (colour & 0x0A) | (colour & 1) << 2 | (colour & 4) >> 2;
}

#endif
