/* Draws a screen into the terminal on standard output: only rows that changed, in the terminal's 16 colours. A colour
 * that the program set (ESC ] P) is drawn by its red, green and blue. */
#include "draw.h"
#include "cells.h"
#include <stdio.h>
#include <string.h>

enum { COLOURS = 16 };

static struct vt_colour start_colours[COLOURS], colours[COLOURS];
static bool was_reversed;

static bool is_same(struct vt_colour a, struct vt_colour b)
{
    return a.red == b.red && a.green == b.green && a.blue == b.blue;
}

/* Reads the colours; whether one changed. */
static bool read_colours(const struct vt_screen *screen)
{
    struct vt_colour old[COLOURS];
    bool is_changed = false;
    memcpy(old, colours, sizeof old);
    vt_screen_palette(screen, colours, COLOURS);
    for (unsigned i = 0; i < COLOURS; i++)
        is_changed = is_changed || !is_same(old[i], colours[i]);
    return is_changed;
}

/* One colour of SGR: `dark` is 30 or 40, `bright` 90 or 100. */
static void print_colour(unsigned number, unsigned dark, unsigned bright)
{
    struct vt_colour c = colours[number];
    if (is_same(c, start_colours[number]))
        printf(";%u", number < 8 ? dark + number : bright + number - 8);
    else
        printf(";%u;2;%u;%u;%u", dark + 8, c.red, c.green, c.blue);
}

static void print_pen(uint8_t attr)
{
    printf("\033[0%s", attr & 0x80 ? ";5" : "");
    print_colour(palette_number(attr % 16), 30, 90);
    print_colour(palette_number(attr / 16 % 8), 40, 100);
    putchar('m');
}

static void draw_cells(const struct vt_cell *cells, const struct vt_state *state, int y)
{
    char text[5];
    printf("\033[%d;1H", y + 1);
    for (int x = 0; x < state->cols; x++) {
        if (cells[x].code == VT_HALF)
            continue;
        if (x == 0 || cells[x].attr != cells[x - 1].attr)
            print_pen(state->reverse ? reversed(cells[x].attr) : cells[x].attr);
        fputs(utf8(cells[x].code, text), stdout);
        /* (terminals don't agree how many columns such a character takes) */
        if (cells[x].code >= 0x300 && x + 1 < state->cols)
            printf("\033[%dG", x + (cells[x + 1].code == VT_HALF ? 3 : 2));
    }
}

static void draw_row(const struct vt_screen *screen, const struct vt_state *state, int row, int y)
{
    static struct vt_cell cells[MOST_COLS];
    vt_screen_row(screen, (uint32_t)row, cells, MOST_COLS);
    draw_cells(cells, state, y);
}

void begin_drawing(const struct vt_screen *screen)
{
    static bool is_started;
    if (!is_started)
        vt_screen_palette(screen, start_colours, COLOURS);
    is_started = true;
    /* The other screen, blank; no wrap at the end of a row. */
    fputs("\033[?1049h\033[0m\033[2J\033[?7l", stdout);
}

void end_drawing(void)
{
    fputs("\033[?7h\033[0m\033[?25h\033[?1049l", stdout);
    fflush(stdout);
}

void draw_status(int row, int cols, const char *text)
{
    printf("\033[%d;1H\033[0;30;47m%-*.*s", row + 1, cols, cols, text);
}

bool draw_back(const struct vt_screen *screen, const struct vt_cell *const *rows, int count)
{
    struct vt_state state;
    if (vt_screen_state(screen, &state) != VT_OK)
        return false;
    read_colours(screen);
    fputs("\033[?25l", stdout);
    for (int y = 0; y < state.rows; y++) {
        if (y < count)
            draw_cells(rows[y], &state, y);
        else
            draw_row(screen, &state, y - count, y);
    }
    fputs("\033[0m", stdout);
    return fflush(stdout) == 0;
}

bool draw_screen(struct vt_screen *screen, bool is_whole)
{
    struct vt_state state;
    uint8_t changed[MOST_ROWS];
    if (vt_screen_state(screen, &state) != VT_OK || vt_screen_changed(screen, changed, MOST_ROWS) != VT_OK)
        return false;
    bool is_recoloured = read_colours(screen);
    is_whole = is_whole || is_recoloured || state.reverse != was_reversed;
    was_reversed = state.reverse;
    fputs("\033[?25l", stdout);
    for (int y = 0; y < state.rows; y++)
        if (is_whole || changed[y])
            draw_row(screen, &state, y, y);
    printf("\033[0m\033[%d;%dH%s", state.y + 1, state.x + 1, state.visible ? "\033[?25h" : "");
    vt_screen_mark(screen); /* without memory for it every row is drawn again */
    return fflush(stdout) == 0;
}
