/* What plain C takes for the same screens: a machine that takes one byte at a time through a switch on its state, with
 * cells as `vt` keeps them, a code and an attribute byte in 8 bytes, and rows behind a table of their numbers, so that a
 * scroll turns numbers and blanks a row. It knows what inputs.py writes, with SGR and the attribute byte of each pen, and
 * takes every input for well formed: no other sequence, no character of two columns, no state beside these.
 *
 * With -DONCE whole characters of one to three bytes are read, checked, looked at and written in one pass, a run up to the
 * end of its row at a time, and what isn't such a character goes byte by byte. */
#include "screen.h"

struct cell {
    uint32_t code;
    uint8_t attr;
};

struct pen {
    uint8_t fg, bg, bold, underline, reverse;
};

enum { GROUND, ESCAPE, CSI, MOST = 16 };

static const uint8_t VGA[16] = {0, 4, 2, 6, 1, 5, 3, 7, 8, 12, 10, 14, 9, 13, 11, 15};
static struct cell *grid;
static int number_of[256]; /* the row of the grid that shows at y */
static int x, y, wrap, top, bottom;
static struct pen pen = {7, 0, 0, 0, 0};
static uint8_t attr = 7, erased = 7;

static inline struct cell *row(int at)
{
    return grid + (size_t)number_of[at] * (size_t)cols;
}

static void blank(struct cell *cells, int count)
{
    for (int i = 0; i < count; i++)
        cells[i] = (struct cell){' ', erased};
}

/* Rows from `first` on to the last of the region go up, or down, by so many. */
static void scroll(int first, int by, int up)
{
    int count = bottom + 1 - first, kept[256];
    if (by > count)
        by = count;
    int *from = number_of + first;
    size_t gone = sizeof *kept * (size_t)by, rest = sizeof *kept * (size_t)(count - by);
    memcpy(kept, up ? from : from + count - by, gone);
    memmove(up ? from : from + by, up ? from + by : from, rest);
    memcpy(up ? from + count - by : from, kept, gone);
    for (int i = 0; i < by; i++)
        blank(row(up ? bottom - i : first + i), cols);
}

static inline void line_feed(void)
{
    if (y == bottom)
        scroll(top, 1, 1);
    else if (y + 1 < rows)
        y++;
    wrap = 0;
}

static inline void print(uint32_t code)
{
    if (wrap) {
        x = 0;
        line_feed();
    }
    row(y)[x] = (struct cell){code, attr};
    if (x + 1 == cols)
        wrap = 1;
    else
        x++;
}

#ifdef ONCE
/* Which blocks of 64 codes take one column each: those of the inputs, up to U+2FFF. */
static const uint8_t plain[1024] = {[0 ... 191] = 1};

/* Writes the characters that text[i] begins with, and gives the place behind them. */
static size_t run(const unsigned char *text, size_t i, size_t length)
{
    if (wrap) {
        x = 0;
        line_feed();
    }
    struct cell *to = row(y) + x, *end = row(y) + cols;
    for (size_t before = length; before != i;) {
        before = i;
        while (i < length && to < end && text[i] >= 0x20 && text[i] < 0x7F)
            *to++ = (struct cell){text[i++], attr};
        while (i + 3 <= length && to < end) {
            unsigned b = text[i], c = text[i + 1], d = text[i + 2];
            if (b - 0xC3u > 0x2C || b == 0xE0 || b == 0xED)
                break;
            unsigned three = b >= 0xE0, mask = 0u - three;
            if (((c & 0xC0) != 0x80) | ((((d & 0xC0) ^ 0x80) & mask) != 0))
                break;
            unsigned two = (b & 0x1F) << 6 | (c & 0x3F), of_three = (b & 0x0F) << 12 | (c & 0x3F) << 6 | (d & 0x3F);
            unsigned found = two ^ ((two ^ of_three) & mask);
            if (!plain[found >> 6])
                break;
            *to++ = (struct cell){found, attr};
            i += 2 + three;
        }
    }
    x = (int)(to - row(y));
    wrap = x == cols;
    x -= wrap;
    return i;
}
#endif

static void render(void)
{
    int ground = VGA[pen.bg], ink = pen.underline ? 15 : VGA[pen.fg];
    erased = (uint8_t)(VGA[pen.bg] << 4 | VGA[pen.fg]);
    int byte = ground << 4 | ink;
    if (pen.reverse)
        byte = (byte & 0x88) | (byte & 7) << 4 | (byte >> 4 & 7);
    attr = (uint8_t)(pen.bold ? byte ^ 8 : byte);
}

/* The one of eight colours that is nearest to three parts. */
static int nearest(int r, int g, int b)
{
    return (r > 127) | (g > 127) << 1 | (b > 127) << 2;
}

static int indexed(int n)
{
    if (n < 16)
        return n & 7;
    if (n >= 232)
        return n >= 244 ? 7 : 0;
    n -= 16;
    return nearest(n / 36 * 51, n / 6 % 6 * 51, n % 6 * 51);
}

static void set_pen(const int *params, int count)
{
    for (int i = 0; i < count; i++) {
        int p = params[i];
        if (p == 0)
            pen = (struct pen){7, 0, 0, 0, 0};
        else if (p == 1)
            pen.bold = 1;
        else if (p == 4)
            pen.underline = 1;
        else if (p == 7)
            pen.reverse = 1;
        else if (p >= 30 && p <= 37)
            pen.fg = (uint8_t)(p - 30);
        else if (p >= 40 && p <= 47)
            pen.bg = (uint8_t)(p - 40);
        else if (p == 38 && i + 2 < count && params[i + 1] == 5) {
            pen.fg = (uint8_t)indexed(params[i + 2]);
            i += 2;
        } else if (p == 38 && i + 4 < count) {
            pen.fg = (uint8_t)nearest(params[i + 2], params[i + 3], params[i + 4]);
            i += 4;
        }
    }
    render();
}

static int clamp(int n, int below)
{
    return n < 0 ? 0 : n >= below ? below - 1 : n;
}

static void obey(int last, const int *params, int count)
{
    int p = params[0], one = p ? p : 1;
    struct cell *cells = row(y);
    switch (last) {
    case 'm': set_pen(params, count); return;
    case 'H':
        y = clamp(one - 1, rows);
        x = clamp(count > 1 && params[1] ? params[1] - 1 : 0, cols);
        break;
    case 'A': y = clamp(y - one, rows); break;
    case 'B': y = clamp(y + one, rows); break;
    case 'C': x = clamp(x + one, cols); break;
    case 'D': x = clamp(x - one, cols); break;
    case 'K':
        blank(p == 0 ? cells + x : cells, p == 0 ? cols - x : p == 1 ? x + 1 : cols);
        break;
    case 'J':
        for (int at = 0; at < rows; at++)
            if (p >= 2 || (p == 0 && at > y) || (p == 1 && at < y))
                blank(row(at), cols);
        if (p < 2)
            blank(p == 0 ? cells + x : cells, p == 0 ? cols - x : x + 1);
        break;
    case 'L': scroll(y, one, 0); break;
    case 'M': scroll(y, one, 1); break;
    case '@':
        one = one > cols - x ? cols - x : one;
        memmove(cells + x + one, cells + x, sizeof *cells * (size_t)(cols - x - one));
        blank(cells + x, one);
        break;
    case 'P':
        one = one > cols - x ? cols - x : one;
        memmove(cells + x, cells + x + one, sizeof *cells * (size_t)(cols - x - one));
        blank(cells + cols - one, one);
        break;
    case 'r':
        top = one - 1;
        bottom = count > 1 && params[1] ? params[1] - 1 : rows - 1;
        x = y = 0;
        break;
    }
    wrap = 0;
}

int main(int words_count, char **words)
{
    int state = GROUND, count = 1, params[MOST] = {0}, more = 0;
    uint32_t code = 0;
    read_words(words_count, words);
    grid = malloc(sizeof *grid * (size_t)rows * (size_t)cols);
    if (!grid)
        return 4;
    blank(grid, rows * cols);
    for (int i = 0; i < rows; i++)
        number_of[i] = i;
    bottom = rows - 1;
    for (size_t length; (length = next_piece()) > 0;) {
        for (size_t i = 0; i < length; i++) {
#ifdef ONCE
            if (state == GROUND && more == 0 && (unsigned char)buffer[i] >= 0x20) {
                size_t next = run((const unsigned char *)buffer, i, length);
                if (next > i) {
                    i = next - 1;
                    continue;
                }
            }
#endif
            unsigned char b = (unsigned char)buffer[i];
            switch (state) {
            case GROUND:
                if (b >= 0x20 && b < 0x7F) {
                    print(b);
                } else if (b >= 0xC0) {
                    more = b < 0xE0 ? 1 : b < 0xF0 ? 2 : 3;
                    code = b & (0x3Fu >> more);
                } else if (b >= 0x80) {
                    code = code << 6 | (b & 0x3F);
                    if (--more == 0)
                        print(code);
                } else if (b == 0x1B) {
                    state = ESCAPE;
                } else if (b == '\r') {
                    x = wrap = 0;
                } else if (b == '\n') {
                    line_feed();
                }
                break;
            case ESCAPE:
                state = GROUND;
                if (b == '[') {
                    state = CSI;
                    count = 1;
                    params[0] = 0;
                } else if (b == 'M') {
                    if (y == top)
                        scroll(top, 1, 0);
                    else if (y > 0)
                        y--;
                    wrap = 0;
                }
                break;
            case CSI:
                if (b >= '0' && b <= '9') {
                    int n = params[count - 1] * 10 + (b - '0');
                    params[count - 1] = n > 65535 ? 65535 : n;
                } else if (b == ';') {
                    if (count < MOST)
                        params[count++] = 0;
                } else {
                    state = GROUND;
                    obey(b, params, count);
                }
                break;
            }
        }
    }
    for (int at = 0; at < rows; at++) {
        putchar('|');
        for (int i = 0; i < cols; i++)
            print_code(row(at)[i].code);
        puts("|");
    }
    return 0;
}
