/* The rows that fall out of a screen, and then its own rows, are the rows of a screen of 255 rows on which the same
 * text was drawn: for random texts that never go up, however they are cut.
 *
 * usage: rows COUNT */
#include "want.h"

enum { TALL = 255, MOST_COLS = 12, LENGTH = 1200, ROOM = 4 };

static const char *const PIECES[] = {
    "a", "b", "cd", "efg", "hij k", "\303\251", "\346\226\207", "\346\226\207\345\255\227", "\360\237\231\202",
    "e\314\201", "\n", "\n", "\r\n", "\r", "\b", "\t", "\v", "\f", "\033D", "\033E", "\033[K", "\033[1K", "\033[2C",
    "\033[2D", "\033[3P", "\033[2@", "\033[4h", "\033[4l", "\033[?7l", "\033[?7h", "\033[20h", "\033[20l",
    "\033[\n5m", "\344", "\346\226", "\377",
    "\033[38;5;9m", "\033[31;1m", "\033[0m", "\033(", "\a", "\033[6n", "\033]0;x\a", "\033[c",
};
enum { PIECE_COUNT = sizeof PIECES / sizeof *PIECES };

static uint32_t random_state = 1;

static uint32_t below(uint32_t most)
{
    random_state = random_state * 1664525u + 1013904223u;
    return (random_state >> 8) % most;
}

static size_t make(uint8_t *text)
{
    size_t length = 0, most = below(LENGTH);
    while (length < most) {
        const char *piece = PIECES[below(PIECE_COUNT)];
        memcpy(text + length, piece, strlen(piece));
        length += strlen(piece);
    }
    return length;
}

/* The codes of cells; a text may leave blanks in other colours. */
static bool is_same(const struct vt_cell *row, const struct vt_cell *other, uint32_t cols)
{
    for (uint32_t x = 0; x < cols; x++)
        if (row[x].code != other[x].code || (row[x].code != ' ' && row[x].attr != other[x].attr))
            return false;
    return true;
}

/* Draws the text in random pieces, and compares each row that falls out; how many did. */
static uint32_t feed(struct vt_screen *s, const uint8_t *text, size_t length, uint32_t cols,
                     struct vt_cell tall[][MOST_COLS])
{
    uint32_t fallen = 0;
    struct vt_fed fed;
    for (size_t at = 0; at < length; at += fed.taken) {
        struct vt_out outs[3];
        struct vt_cell cells[ROOM * MOST_COLS];
        size_t n = 1 + below(40), rows = 2 + below(ROOM - 1);
        n = length - at < n ? length - at : n;
        if (!WANT(vt_screen_feed_rows(s, text + at, n, outs, 3, cells, rows * cols, &fed) == VT_OK))
            return fallen;
        WANT(fed.taken > 0 && fed.taken <= n && fed.rows <= rows);
        WANT(fed.taken == n || fed.outs == 3 || fed.rows + 2 > rows);
        for (size_t i = 0; i < fed.rows; i++, fallen++)
            WANT(fallen < TALL && is_same(cells + i * cols, tall[fallen], cols));
    }
    return fallen;
}

int main(int count, char **words)
{
    static uint8_t text[LENGTH + 16];
    static struct vt_cell tall[TALL][MOST_COLS];
    unsigned long all = 0, done = 0, wanted = count > 1 ? (unsigned long)atol(words[1]) : 300;
    while (done < wanted && failed == 0) {
        struct vt_screen small = { 0 }, high = { 0 };
        struct vt_state state;
        uint32_t rows = 1 + below(5), cols = 1 + below(MOST_COLS);
        size_t length = make(text);
        WANT(vt_screen_new(&small, rows, cols) == VT_OK && vt_screen_new(&high, TALL, cols) == VT_OK);
        WANT(vt_screen_write(&high, text, length) == VT_OK && vt_screen_state(&high, &state) == VT_OK);
        if (state.y + 1 < TALL) { /* or rows fell out of the tall screen, too */
            for (uint32_t y = 0; y < TALL; y++)
                WANT(vt_screen_row(&high, y, tall[y], MOST_COLS) == VT_OK);
            uint32_t fallen = feed(&small, text, length, cols, tall);
            for (uint32_t y = 0; y < rows; y++) {
                struct vt_cell row[MOST_COLS];
                WANT(vt_screen_row(&small, y, row, MOST_COLS) == VT_OK && is_same(row, tall[fallen + y], cols));
            }
            done++;
            all += fallen;
        }
        vt_screen_free(&small);
        vt_screen_free(&high);
    }
    printf("%lu texts, %lu rows\n", done, all);
    return ended();
}
