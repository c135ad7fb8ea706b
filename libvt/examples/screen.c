/* Draws standard input on a screen and prints its rows between bars, as `vt screen ROWS COLUMNS` does.
 *
 *     cc -o screen screen.c $(pkg-config --cflags --libs vt)
 *     printf 'abcdefghijk' | ./screen 2 5
 *
 * Status 1: the words aren't two numbers from 1 to 255; 2: a read failed; 3: a write failed; 4: memory ran out. */
#include <stdio.h>
#include <stdlib.h>
#include <string.h>
#include <unistd.h>
#include <vt.h>

enum { PIECE = 4096, OUTS = 64, ROW = 255 * 4 };

static int fail(int status, const char *line)
{
    fprintf(stderr, "screen: %s\n", line);
    return status;
}

/* The number that a word is, or 0. */
static uint32_t number(const char *word)
{
    size_t length = strlen(word);
    return length > 0 && length < 4 && strspn(word, "0123456789") == length ? (uint32_t)atoi(word) : 0;
}

/* Draws the bytes. What they ask for besides is dropped here; term.c answers it. */
static void draw(struct vt_screen *screen, const uint8_t *bytes, size_t length)
{
    struct vt_out outs[OUTS];
    struct vt_fed fed;
    for (size_t at = 0; at < length; at += fed.taken)
        if (vt_screen_feed(screen, bytes + at, length - at, outs, OUTS, &fed) != VT_OK)
            return;
}

static int print_rows(const struct vt_screen *screen, uint32_t rows)
{
    uint8_t text[ROW];
    size_t length;
    for (uint32_t row = 0; row < rows; row++) {
        if (vt_screen_row_text(screen, row, text, sizeof text, &length) != VT_OK)
            return 4;
        printf("|%.*s|\n", (int)length, (const char *)text);
    }
    return fflush(stdout) == 0 ? 0 : 3;
}

int main(int count, char **words)
{
    uint32_t rows = count == 3 ? number(words[1]) : 0, cols = count == 3 ? number(words[2]) : 0;
    struct vt_screen screen = { 0 };
    switch (vt_screen_new(&screen, rows, cols)) {
    case VT_OK: break;
    case VT_RANGE: return fail(1, "usage: screen ROWS COLUMNS, each from 1 to 255");
    default: return fail(4, "no memory");
    }
    static uint8_t piece[PIECE];
    ssize_t length;
    while ((length = read(STDIN_FILENO, piece, sizeof piece)) > 0)
        draw(&screen, piece, (size_t)length);
    int status = length < 0 ? fail(2, "read failed") : print_rows(&screen, rows);
    if (status == 3)
        fail(3, "write failed");
    if (status == 4)
        fail(4, "no memory");
    vt_screen_free(&screen);
    return status;
}
