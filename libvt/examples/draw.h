#ifndef DRAW_H
#define DRAW_H

#include <stdbool.h>
#include <vt.h>

/* Takes the terminal on standard output for drawing; the colours of the screen at the first time are the terminal's own.
 * The other call gives the terminal back as it was. */
void begin_drawing(const struct vt_screen *screen);
void end_drawing(void);

/* Draws a text in a row of its own, counted from 0, before the next screen. */
void draw_status(int row, int cols, const char *text);

/* Draws these rows, each of MOST_COLS cells, and below them the first rows of the screen, as many as it has room for.
 * False: a write failed. */
bool draw_back(const struct vt_screen *screen, const struct vt_cell *const *rows, int count);

/* Draws the rows that changed since the last time, or all of them, and the cursor. False: a write failed. */
bool draw_screen(struct vt_screen *screen, bool is_whole);

#endif
