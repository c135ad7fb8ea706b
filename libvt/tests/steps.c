/* Draws texts and resizes, a step for each line of standard input, and prints the screen after each: its size, the
 * cursor's column and row, the attributes and the codes of its cells, in hexadecimal digits.
 *
 * usage: steps ROWS COLUMNS
 *
 * A line is `w HEX`, a text, or `r ROWS COLUMNS`. After each step the rows that changed are compared with the cells of
 * the mark, and the screen is drawn again on a screen that shows something else. That one goes on with it: it gets the
 * next text too, or the text of the changes. Status 1: other words; 4: no memory. */
#include "want.h"

enum { MOST_CELLS = 255 * 255, LINE = 1 << 20 };

/* What a screen shows, and whether it is there. */
struct picture {
    struct vt_state state;
    struct vt_colour colours[16];
    struct vt_cell cells[MOST_CELLS];
    bool is_there;
};

static struct vt_screen screen, follower;
static struct picture shown, marked, followed;
/* Whether the follower shows the screen of the last step. */
static bool is_following;
static uint8_t text[LINE];

static void take(const struct vt_screen *s, struct picture *p)
{
    memset(p, 0, sizeof *p);
    p->is_there = true;
    WANT(vt_screen_state(s, &p->state) == VT_OK && vt_screen_palette(s, p->colours, 16) == VT_OK);
    WANT(vt_screen_cells(s, p->cells, MOST_CELLS) == VT_OK);
}

/* The follower shows what the screen does; if some parts aren't drawn, its cells and U+FFFD in their colours. */
static void compare(uint32_t parts)
{
    take(&follower, &followed);
    WANT(parts || (memcmp(&shown.state, &followed.state, sizeof shown.state) == 0 &&
                   memcmp(shown.colours, followed.colours, sizeof shown.colours) == 0));
    for (int i = 0; i < shown.state.rows * shown.state.cols; i++) {
        struct vt_cell replaced = { 0xFFFD, shown.cells[i].attr, { 0 } };
        WANT(memcmp(&shown.cells[i], &followed.cells[i], sizeof replaced) == 0 ||
             ((parts & VT_LEFT_CELLS) && memcmp(&replaced, &followed.cells[i], sizeof replaced) == 0));
    }
}

/* A row differs from the mark, or everything does without a mark. */
static void compare_changed(void)
{
    uint8_t changed[255];
    size_t cols = shown.state.cols;
    WANT(vt_screen_changed(&screen, changed, 255) == VT_OK);
    for (size_t y = 0; y < shown.state.rows; y++)
        WANT(changed[y] == (!marked.is_there || memcmp(shown.cells + y * cols, marked.cells + y * cols,
                                                       cols * sizeof *shown.cells) != 0));
}

/* Draws the screen again on one that shows something else. */
static void draw_again(void)
{
    static const uint8_t dirt[] = "\033[7;32mQQQQ\033[2;3r\033[?6h\033[4h\033[20h\033)0\016ZZZ\033H\0337";
    uint32_t parts = 0;
    size_t length = 0;
    vt_screen_free(&follower);
    WANT(vt_screen_new(&follower, shown.state.rows, shown.state.cols) == VT_OK);
    WANT(vt_screen_write(&follower, dirt, sizeof dirt - 1) == VT_OK && vt_screen_left_out(&screen, &parts) == VT_OK);
    WANT(vt_screen_redraw(&screen, text, LINE, &length) == (parts ? VT_NOT_DRAWABLE : VT_OK));
    WANT(!parts || vt_screen_redraw_near(&screen, text, LINE, &length) == VT_OK);
    WANT(length <= VT_REDRAW_MOST(shown.state.rows, shown.state.cols));
    WANT(vt_screen_write(&follower, text, length) == VT_OK);
    compare(parts);
    is_following = parts == 0;
}

/* The follower gets the text too, or the text of the changes since the mark, when it was drawn. */
static void follow(const uint8_t *bytes, size_t n, bool is_by_changes)
{
    uint32_t parts = 0;
    size_t length = 0;
    if (is_by_changes) {
        WANT(vt_screen_left_out(&screen, &parts) == VT_OK);
        WANT(vt_screen_redraw_changes_near(&screen, text, LINE, &length) == VT_OK);
        WANT(length <= VT_REDRAW_MOST(shown.state.rows, shown.state.cols));
        bytes = text, n = length;
    }
    WANT(vt_screen_write(&follower, bytes, n) == VT_OK);
    compare(parts);
}

/* The attribute as it is shown: DECSCNM exchanges the colours of both halves, without the bright bits. */
static int shown_attribute(struct vt_cell cell)
{
    int a = cell.attr;
    return shown.state.reverse ? (a & 0x88) | (a & 0x70) >> 4 | (a & 0x07) << 4 : a;
}

static void print_step(void)
{
    size_t count = (size_t)shown.state.rows * shown.state.cols;
    printf("%d %d %d %d ", shown.state.rows, shown.state.cols, shown.state.x, shown.state.y);
    for (size_t i = 0; i < count; i++)
        printf("%02x", shown_attribute(shown.cells[i]));
    printf(" ");
    for (size_t i = 0; i < count; i++)
        printf("%06x", shown.cells[i].code);
    printf("\n");
}

int main(int count, char **words)
{
    static char line[LINE];
    static uint8_t bytes[LINE / 2];
    unsigned rows, cols;
    if (count != 3 || vt_screen_new(&screen, (uint32_t)atoi(words[1]), (uint32_t)atoi(words[2])) != VT_OK)
        return 1;
    for (int step = 0; fgets(line, LINE, stdin); step++) {
        size_t n = 0;
        if (sscanf(line, "r %u %u", &rows, &cols) == 2) {
            WANT(vt_screen_resize(&screen, rows, cols) == VT_OK);
            marked.is_there = is_following = false;
        } else {
            for (const char *at = line + 2; sscanf(at, "%2hhx", &bytes[n]) == 1; at += 2)
                n++;
            WANT(vt_screen_write(&screen, bytes, n) == VT_OK);
        }
        take(&screen, &shown);
        compare_changed();
        if (is_following)
            follow(bytes, n, step % 2 == 0);
        draw_again();
        if (step % 5 != 3) {
            WANT(vt_screen_mark(&screen) == VT_OK);
            marked = shown;
        }
        is_following = is_following && step % 5 != 3;
        print_step();
    }
    vt_screen_free(&screen);
    vt_screen_free(&follower);
    return failed > 0;
}
