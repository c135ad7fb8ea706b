/* The adapter of the C library: docs/guide/write-a-terminal.md describes the protocol of lines. */
#include "adapter.h"
#include <vt.h>

enum { OUTS = 16, PLAIN = 7 };

static struct vt_screen screen;

static void write_piece(const char *bytes, size_t length)
{
    struct vt_out outs[OUTS];
    struct vt_fed fed;
    for (size_t at = 0; at < length; at += fed.taken) {
        if (vt_screen_feed(&screen, (const uint8_t *)bytes + at, length - at, outs, OUTS, &fed) != VT_OK)
            exit(1);
        for (size_t n = 0; n < fed.outs; n++)
            if (outs[n].kind == VT_REPORT)
                keep_report((const char *)outs[n].text, outs[n].length);
            else if (outs[n].kind == VT_BELL)
                bells++;
    }
}

/* The cells of a row as the screen shows them: on a reversed one the colours are exchanged, blink and bold stay. */
static void take_row(int row, const struct vt_state *state, struct vt_cell *cells)
{
    vt_screen_row(&screen, (uint32_t)row, cells, 255);
    for (int column = 0; state->reverse && column < state->cols; column++) {
        unsigned attr = cells[column].attr;
        cells[column].attr = (uint8_t)((attr & 0x88) | (attr & 7) << 4 | (attr >> 4 & 7));
    }
}

static void print_row(const struct vt_cell *cells, int columns)
{
    putchar('"');
    for (int column = 0; column < columns; column++)
        if (cells[column].code != VT_HALF)
            print_code(cells[column].code);
    putchar('"');
}

/* Runs of cells of one attribute byte; those that are plain are left out. */
static void print_runs(const struct vt_cell *cells, int row, int columns, int *count)
{
    for (int column = 0, next; column < columns; column = next) {
        next = column + 1;
        while (next < columns && cells[next].attr == cells[column].attr)
            next++;
        if (cells[column].attr != PLAIN)
            printf("%s[%d, %d, %d, %d]", (*count)++ ? ", " : "", row, column, next - column, cells[column].attr);
    }
}

static void answer(const char *line, int rows, int columns)
{
    struct vt_cell cells[255];
    struct vt_state state;
    int runs = 0;
    if (vt_screen_new(&screen, (uint32_t)rows, (uint32_t)columns) != VT_OK)
        exit(1);
    write_pieces(line, write_piece);
    vt_screen_state(&screen, &state);
    printf("\"text\": [");
    for (int row = 0; row < rows; row++) {
        take_row(row, &state, cells);
        printf(row ? ", " : "");
        print_row(cells, columns);
    }
    printf("], \"cursor\": [%d, %d], \"attributes\": [", state.y, state.x);
    for (int row = 0; row < rows; row++) {
        take_row(row, &state, cells);
        print_runs(cells, row, columns, &runs);
    }
    printf("]");
    print_reports_and_bells();
    vt_screen_free(&screen);
}
