/* Screens as texts and pictures. */
#include "vtrun.h"
#include <stdlib.h>
#include <string.h>

enum { MOST_COLS = 255, PLACES = 256, NO_CHARACTER = 0xfffd };

/* Whether a code is no character: a place of the font, half a pair of UTF-16, or one that would steer a terminal. */
static bool is_odd(unsigned code)
{
    return (code >= VT_FONT && code < VT_FONT + PLACES) || (code >= 0xd800 && code < 0xe000) || code > 0x10ffff ||
           (code >= 0x7f && code < 0xa0);
}

static size_t put_character(char *to, unsigned code)
{
    if (is_odd(code))
        code = NO_CHARACTER;
    if (code < 0x80) {
        to[0] = (char)(code < ' ' ? ' ' : code);
        return 1;
    }
    if (code < 0x800) {
        to[0] = (char)(0xc0 | code >> 6);
        to[1] = (char)(0x80 | (code & 0x3f));
        return 2;
    }
    if (code < 0x10000) {
        to[0] = (char)(0xe0 | code >> 12);
        to[1] = (char)(0x80 | (code >> 6 & 0x3f));
        to[2] = (char)(0x80 | (code & 0x3f));
        return 3;
    }
    to[0] = (char)(0xf0 | code >> 18);
    to[1] = (char)(0x80 | (code >> 12 & 0x3f));
    to[2] = (char)(0x80 | (code >> 6 & 0x3f));
    to[3] = (char)(0x80 | (code & 0x3f));
    return 4;
}

/* The text of a row without the blanks at its end, and a line feed. 0 if there is no such row. */
size_t row_text(unsigned n, unsigned row, char *to, size_t room)
{
    struct vt_cell cells[MOST_COLS];
    struct vt_console seen;
    size_t length = 0, end = 0;
    if (room < 4 * MOST_COLS + 1 || vt_machine_console(&machine, n, &seen) != VT_OK ||
        vt_machine_row(&machine, n, row, cells, MOST_COLS) != VT_OK)
        return 0;
    for (unsigned i = 0; i < seen.cols; i++) {
        if (cells[i].code == VT_HALF)
            continue;
        length += put_character(to + length, cells[i].code);
        if (cells[i].code != ' ')
            end = length;
    }
    to[end++] = '\n';
    return end;
}

size_t screen_text(unsigned n, char *to, size_t room)
{
    struct vt_console seen;
    size_t length = 0;
    if (vt_machine_console(&machine, n, &seen) != VT_OK)
        return 0;
    for (unsigned row = 0; row < seen.rows; row++)
        length += row_text(n, row, to + length, room - length);
    return length;
}

typedef uint8_t screen_call(const struct vt_machine *, uint32_t, uint8_t *, size_t, size_t *);

/* What a call of the library writes of a console's screen, or NULL. */
static char *written_by(screen_call *call, unsigned n, size_t *length)
{
    *length = 0;
    if (call(&machine, n, NULL, 0, length) != VT_NO_ROOM)
        return NULL;
    char *text = malloc(*length);
    if (text && call(&machine, n, (uint8_t *)text, *length, length) == VT_OK)
        return text;
    free(text);
    return NULL;
}

/* The text that draws a console's screen, or the nearest one that a text can draw; or NULL. */
char *screen_redraw(unsigned n, size_t *length)
{
    return written_by(vt_machine_redraw_near, n, length);
}

/* The screen as a picture in SVG, or NULL. */
char *screen_picture(unsigned n, size_t *length)
{
    return written_by(vt_machine_picture, n, length);
}

static size_t put_colours(char *to, unsigned attr)
{
    static const unsigned char order[] = { 0, 4, 2, 6, 1, 5, 3, 7 };
    return (size_t)sprintf(to, "\033[0;%d;%dm", (attr & 8 ? 90 : 30) + order[attr & 7],
                           (attr & 0x80 ? 100 : 40) + order[attr >> 4 & 7]);
}

/* What draws a row of the console in front. */
static size_t draw_row(char *to, const struct vt_cell *cells, unsigned row, unsigned cols)
{
    size_t n = (size_t)sprintf(to, "\033[%u;1H", row + 1);
    int attr = -1;
    for (unsigned i = 0; i < cols; i++) {
        if (cells[i].code == VT_HALF)
            continue;
        if (cells[i].attr != attr)
            n += put_colours(to + n, (unsigned)(attr = cells[i].attr));
        n += put_character(to + n, cells[i].code);
    }
    return n;
}

/* What a terminal gets to show the console in front, after it showed `shown`; NULL if memory ran out. */
char *screen_frame(struct shown *shown, size_t *length)
{
    struct vt_cell cells[MOST_COLS];
    struct vt_console seen;
    char *text = malloc((size_t)MOST_COLS * (MOST_COLS * 24 + 16) + 256);
    size_t n = 0;
    *length = 0;
    if (!text || vt_machine_console(&machine, front, &seen) != VT_OK)
        return text;
    bool is_whole = shown->front != front || shown->rows != seen.rows || shown->cols != seen.cols;
    n += (size_t)sprintf(text, "\033[?25l%s", is_whole ? "\033[0m\033[2J" : "");
    unsigned rows = seen.rows < shown->most_rows ? seen.rows : shown->most_rows;
    unsigned cols = seen.cols < shown->most_cols ? seen.cols : shown->most_cols;
    for (unsigned row = 0; row < rows; row++) {
        struct vt_cell *before = shown->cells + (size_t)row * MOST_COLS;
        if (vt_machine_row(&machine, front, row, cells, MOST_COLS) != VT_OK)
            break;
        if (!is_whole && memcmp(before, cells, cols * sizeof *cells) == 0)
            continue;
        n += draw_row(text + n, cells, row, cols);
        memcpy(before, cells, cols * sizeof *cells);
    }
    n += (size_t)sprintf(text + n, "\033[0m\033[%u;%uH%s", seen.y + 1U, seen.x + 1U, seen.visible ? "\033[?25h" : "");
    shown->front = front;
    shown->changes = changes[front];
    shown->rows = seen.rows;
    shown->cols = seen.cols;
    *length = n;
    return text;
}
