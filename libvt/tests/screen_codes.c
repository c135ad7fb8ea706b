/* Each code of each call on a screen, by the rules of vt.h. What the handle has is compared before and after a
 * refusal. */
#include "want.h"

/* Texts, the screens of console_codes(4) and ECMA-48 that they must leave, and what they must ask for. */
static const uint8_t TEXT[] = "ab\033[31mc\033[2;3H\xC3\xA9\xE4\xB8\xAD";
enum { ROWS = 3, COLS = 6 };

/* What a screen has, all of it that the calls show. */
struct picture {
    struct vt_state state;
    struct vt_cell cells[255][255];
    struct vt_colour colours[16];
};

/* Whether a text of C, without null bytes, is drawn. */
static bool drawn(struct vt_screen *s, const char *text)
{
    return vt_screen_write(s, (const uint8_t *)text, strlen(text)) == VT_OK;
}

static void take(struct vt_screen *s, struct picture *p)
{
    memset(p, 0, sizeof *p);
    WANT(vt_screen_state(s, &p->state) == VT_OK);
    for (uint32_t y = 0; y < p->state.rows; y++)
        WANT(vt_screen_row(s, y, p->cells[y], 255) == VT_OK);
    WANT(vt_screen_palette(s, p->colours, 16) == VT_OK);
}

/* Whether a colour of the screen has these parts. */
static bool is_colour(const struct vt_screen *s, uint32_t number, uint8_t red, uint8_t green, uint8_t blue)
{
    struct vt_colour colours[16];
    WANT(vt_screen_palette(s, colours, 16) == VT_OK);
    struct vt_colour c = colours[number];
    return c.red == red && c.green == green && c.blue == blue && c.spare == 0;
}

static bool is_same_cell(struct vt_cell a, struct vt_cell b)
{
    return a.code == b.code && a.attr == b.attr;
}

static bool is_same(const struct picture *a, const struct picture *b)
{
    bool is_so = memcmp(&a->state, &b->state, sizeof a->state) == 0 &&
                 memcmp(a->colours, b->colours, sizeof a->colours) == 0;
    for (int y = 0; is_so && y < a->state.rows; y++)
        for (int x = 0; is_so && x < a->state.cols; x++)
            is_so = is_same_cell(a->cells[y][x], b->cells[y][x]);
    return is_so;
}

static struct picture before, after;

/* A call that must leave the screen as it is. */
#define LEAVES(s, call, code)                                                                                          \
    do {                                                                                                               \
        take((s), &before);                                                                                            \
        WANT((call) == (code));                                                                                        \
        take((s), &after);                                                                                             \
        WANT(is_same(&before, &after));                                                                                \
    } while (0)

static void try_nothing(struct vt_screen *s)
{
    struct vt_fed fed = { 7, 7, 7, { 7 } };
    struct vt_out out = { .kind = 9 };
    struct vt_state state = { .rows = 9 };
    struct vt_cell cell = { 9, 9, { 9, 9, 9 } };
    struct vt_colour colour = { 9, 9, 9, 9 };
    uint8_t text[4] = { 9, 9, 9, 9 };
    size_t length = 9;
    uint8_t changed = 9;
    uint32_t parts = 9;
    static const uint16_t words[256];
    WANT(vt_screen_feed(s, TEXT, sizeof TEXT, &out, 1, &fed) == VT_NOTHING);
    WANT(fed.taken == 7 && fed.outs == 7 && out.kind == 9);
    WANT(vt_screen_feed_rows(s, TEXT, sizeof TEXT, &out, 1, &cell, 1, &fed) == VT_NOTHING);
    WANT(fed.taken == 7 && fed.outs == 7 && fed.rows == 7 && out.kind == 9 && cell.code == 9);
    WANT(vt_screen_write(s, TEXT, sizeof TEXT) == VT_NOTHING);
    WANT(vt_screen_state(s, &state) == VT_NOTHING && state.rows == 9);
    WANT(vt_screen_cell(s, 0, 0, &cell) == VT_NOTHING && cell.code == 9 && cell.attr == 9);
    WANT(vt_screen_row(s, 0, &cell, 1) == VT_NOTHING && cell.code == 9);
    WANT(vt_screen_row_text(s, 0, text, 4, &length) == VT_NOTHING && length == 9 && text[0] == 9);
    WANT(vt_screen_mark(s) == VT_NOTHING);
    WANT(vt_screen_changed(s, &changed, 1) == VT_NOTHING && changed == 9);
    WANT(vt_screen_resize(s, 4, 4) == VT_NOTHING);
    WANT(vt_screen_palette(s, &colour, 1) == VT_NOTHING && colour.red == 9);
    WANT(vt_screen_set_colour(s, 0, 1, 2, 3) == VT_NOTHING);
    WANT(vt_screen_set_user(s, words) == VT_NOTHING);
    WANT(vt_screen_redraw(s, text, 4, &length) == VT_NOTHING && length == 9);
    WANT(vt_screen_redraw_changes(s, text, 4, &length) == VT_NOTHING && length == 9);
    WANT(vt_screen_cells(s, &cell, 1) == VT_NOTHING && cell.code == 9);
    WANT(vt_screen_redraw_near(s, text, 4, &length) == VT_NOTHING && length == 9 && text[0] == 9);
    WANT(vt_screen_redraw_changes_near(s, text, 4, &length) == VT_NOTHING && length == 9 && text[0] == 9);
    WANT(vt_screen_left_out(s, &parts) == VT_NOTHING && parts == 9);
    WANT(vt_screen_picture(s, text, 4, &length) == VT_NOTHING && length == 9);
    vt_screen_free(s);
    WANT(s->at == NULL);
}

static void try_making(void)
{
    static const uint32_t bad[] = { 0, 256, 257, 65536, 65537, UINT32_MAX, 1u << 31 };
    struct vt_screen s = { 0 };
    try_nothing(&s);
    for (size_t i = 0; i < sizeof bad / sizeof *bad; i++) {
        WANT(vt_screen_new(&s, bad[i], 80) == VT_RANGE && s.at == NULL);
        WANT(vt_screen_new(&s, 25, bad[i]) == VT_RANGE && s.at == NULL);
    }
    for (uint32_t rows = 1; rows < 256; rows += 127)
        for (uint32_t cols = 1; cols < 256; cols += 127) {
            struct vt_state state;
            WANT(vt_screen_new(&s, rows, cols) == VT_OK);
            WANT(vt_screen_state(&s, &state) == VT_OK && state.rows == rows && state.cols == cols);
            WANT(state.y == 0 && state.x == 0 && state.visible);
            WANT(!state.reverse && !state.modes.cursor_keys && !state.modes.keypad && !state.modes.newline_mode);
            WANT(!state.origin && state.autowrap && !state.insert && !state.controls && state.modes.repeat);
            vt_screen_free(&s);
        }
    try_nothing(&s); /* a freed handle is one that was never made */
}

static void try_screen(void)
{
    static const uint8_t row_0[] = "abc   ", row_1[] = "  \xC3\xA9\xE4\xB8\xAD ";
    struct vt_screen s = { 0 };
    struct vt_cell cell, cells[8] = { [6] = { 9, 9, { 9 } }, [7] = { 9, 9, { 9 } } };
    struct vt_state state;
    uint8_t text[24];
    size_t length;
    WANT(vt_screen_new(&s, ROWS, COLS) == VT_OK);
    LEAVES(&s, vt_screen_new(&s, ROWS, COLS), VT_MADE);
    LEAVES(&s, vt_screen_new(&s, 0, 0), VT_MADE);
    WANT(vt_screen_write(&s, TEXT, sizeof TEXT - 1) == VT_OK);
    WANT(vt_screen_state(&s, &state) == VT_OK && state.y == 1 && state.x == 5);
    WANT(vt_screen_cell(&s, 0, 0, &cell) == VT_OK && cell.code == 'a' && cell.attr == 7);
    WANT(vt_screen_cell(&s, 0, 2, &cell) == VT_OK && cell.code == 'c' && cell.attr == 4); /* red is VGA's 4 */
    WANT(vt_screen_cell(&s, 1, 2, &cell) == VT_OK && cell.code == 0xE9);
    WANT(vt_screen_cell(&s, 1, 3, &cell) == VT_OK && cell.code == 0x4E2D);
    WANT(vt_screen_cell(&s, 1, 4, &cell) == VT_OK && cell.code == VT_HALF);
    LEAVES(&s, vt_screen_cell(&s, ROWS, 0, &cell), VT_RANGE);
    LEAVES(&s, vt_screen_cell(&s, 0, COLS, &cell), VT_RANGE);
    LEAVES(&s, vt_screen_cell(&s, UINT32_MAX, UINT32_MAX, &cell), VT_RANGE);
    WANT(vt_screen_cell(&s, 256, 0, &cell) == VT_RANGE && vt_screen_cell(&s, 0, 256, &cell) == VT_RANGE);
    WANT(vt_screen_row(&s, 0, cells, 8) == VT_OK && cells[1].code == 'b' && cells[5].code == ' ');
    WANT(cells[6].code == 9 && cells[7].code == 9);
    cells[2].code = 9;
    WANT(vt_screen_row(&s, 0, cells, 2) == VT_OK && cells[1].code == 'b' && cells[2].code == 9);
    WANT(vt_screen_row(&s, 0, cells, 0) == VT_OK && cells[0].code == 'a');
    LEAVES(&s, vt_screen_row(&s, ROWS, cells, 8), VT_RANGE);
    WANT(vt_screen_row(&s, 256, cells, 8) == VT_RANGE);
    WANT(vt_screen_row_text(&s, 0, text, sizeof text, &length) == VT_OK);
    WANT(length == sizeof row_0 - 1 && memcmp(text, row_0, length) == 0);
    WANT(vt_screen_row_text(&s, 1, text, sizeof row_1 - 1, &length) == VT_OK);
    WANT(length == sizeof row_1 - 1 && memcmp(text, row_1, length) == 0);
    memset(text, 9, sizeof text);
    LEAVES(&s, vt_screen_row_text(&s, 1, text, sizeof row_1 - 2, &length), VT_NO_ROOM);
    WANT(length == sizeof row_1 - 1 && text[0] == 9);
    WANT(vt_screen_row_text(&s, 1, text, 0, &length) == VT_NO_ROOM && length == sizeof row_1 - 1 && text[0] == 9);
    length = 9;
    LEAVES(&s, vt_screen_row_text(&s, ROWS, text, sizeof text, &length), VT_RANGE);
    WANT(length == 9);
    vt_screen_free(&s);
    vt_screen_free(&s);
    WANT(s.at == NULL);
}

static void try_feeding(void)
{
    /* A BEL, a report of the status (DSR 5), of the cursor (DSR 6), of the terminal (DA), lights and two switches. */
    static const uint8_t asking[] = "x\a\033[5n\033[6n\033[c\033[2q\033[12;7]\033[15]y";
    struct vt_screen s = { 0 };
    struct vt_out outs[9];
    struct vt_fed fed;
    memset(outs, 9, sizeof outs);
    WANT(vt_screen_new(&s, 2, 9) == VT_OK);
    WANT(vt_screen_feed(&s, asking, sizeof asking - 1, outs, 9, &fed) == VT_OK);
    WANT(fed.taken == sizeof asking - 1 && fed.outs == 7);
    WANT(outs[0].kind == VT_BELL);
    WANT(outs[1].kind == VT_REPORT && outs[1].length == 4 && memcmp(outs[1].text, "\033[0n", 4) == 0);
    WANT(outs[2].kind == VT_REPORT && outs[2].length == 6 && memcmp(outs[2].text, "\033[1;2R", 6) == 0);
    WANT(outs[3].kind == VT_REPORT && outs[3].length == 5 && memcmp(outs[3].text, "\033[?6c", 5) == 0);
    WANT(outs[4].kind == VT_LIGHTS && outs[4].number == 2);
    WANT(outs[5].kind == VT_SWITCH_TO && outs[5].number == 7);
    WANT(outs[6].kind == VT_SWITCH_LAST);
    WANT(outs[7].kind == 9 && outs[8].kind == 9);
    /* One place at a time: each call ends right behind the byte that asks. */
    static const size_t ends[] = { 2, 4, 4, 3, 4, 7, 5 };
    size_t at = 0;
    for (size_t i = 0; i < 7; i++) {
        WANT(vt_screen_feed(&s, asking + at, sizeof asking - 1 - at, outs, 1, &fed) == VT_OK);
        WANT(fed.taken == ends[i] && fed.outs == 1);
        at += fed.taken;
    }
    WANT(vt_screen_feed(&s, asking + at, 1, outs, 1, &fed) == VT_OK && fed.taken == 1 && fed.outs == 0);
    LEAVES(&s, vt_screen_feed(&s, asking, sizeof asking - 1, outs, 0, &fed), VT_OK);
    WANT(fed.taken == 0 && fed.outs == 0);
    LEAVES(&s, vt_screen_feed(&s, asking, 0, outs, 9, &fed), VT_OK);
    WANT(fed.taken == 0 && fed.outs == 0);
    LEAVES(&s, vt_screen_write(&s, asking, 0), VT_OK);
    vt_screen_free(&s);
}

/* Whether these rows fall out, one after another, by a text that is drawn with room for so many cells. */
static bool fell(struct vt_screen *s, const char *text, size_t n, size_t room, const char *wanted)
{
    struct vt_cell cells[64];
    struct vt_out out;
    struct vt_fed fed;
    size_t length = strlen(wanted);
    memset(cells, 9, sizeof cells);
    if (vt_screen_feed_rows(s, (const uint8_t *)text, n, &out, 1, cells, room, &fed) != VT_OK || fed.taken != n)
        return false;
    bool is_so = fed.spare[0] == 0;
    for (size_t i = 0; is_so && i < length; i++)
        is_so = cells[i].code == (uint8_t)wanted[i] && cells[i].spare[0] == 0;
    struct vt_state state;
    WANT(vt_screen_state(s, &state) == VT_OK && fed.rows * state.cols == length);
    return is_so && (length == 64 || (cells[length].code == 0x09090909 && cells[length].attr == 9));
}

/* The rows that fall out at the top: those that a line feed scrolls out in the last row of a region that begins with
 * the first row (console_codes(4)). */
static void try_rows(void)
{
    static const struct {
        const char *before, *text, *fallen;
    } cases[] = {
        { "", "ab\r\nc\r\nd\r\ne", "ab " },
        { "\033[3;1Hx\033[1;1Habc", "\033[3;3Hyz", "abc" },
        { "a\033[3;1H", "\n", "a  " }, { "a\033[3;1H", "\v", "a  " }, { "a\033[3;1H", "\f", "a  " },
        { "a\033[3;1H", "\033D", "a  " }, { "a\033[3;1H", "\033E", "a  " }, { "a\033[3;1H", "\033[\n5m", "a  " },
        { "a\033[3;2H", "\346\226\207\346\226\207", "a  " },
        { "a\033[3;3H", "\346\226\207", "a  " },
        { "a\033[3;1H", "xyz", "" },
        { "a\033[3;1H\033[?7l", "xyzxyz", "" },
        { "a\033[3;1H", "\033M", "" },
        { "a\033[2;1H", "\n", "" },
        { "a\033[1;1H", "\033[M\033[9S\033[2J\033c", "" },
        { "a\033[2;3r\033[3;1H", "\n\n", "" },
        { "a\033[1;2r\033[2;1H", "\n\n", "a     " },
        { "a\033[1;2r\033[3;1H", "\n\n", "" },
        { "a\r\nb\033[3;1Habc\344", "\n", "a  b  " },
        { "a\033[3;1H", "\033[3h\v\v\v\v", "a  " },
        { "a\033[3;1H", "\n\033[6n", "a  " },
    };
    for (size_t i = 0; i < sizeof cases / sizeof *cases; i++) {
        struct vt_screen s = { 0 };
        WANT(vt_screen_new(&s, 3, 3) == VT_OK && drawn(&s, cases[i].before));
        if (!WANT(fell(&s, cases[i].text, strlen(cases[i].text), 64, cases[i].fallen)))
            printf("case %zu\n", i);
        vt_screen_free(&s);
    }
    struct vt_screen s = { 0 };
    struct vt_out out = { .kind = 9 };
    struct vt_cell cells[9] = { { 9, 9, { 9, 9, 9 } } };
    struct vt_fed fed = { 7, 7, 7, { 7 } };
    WANT(vt_screen_new(&s, 3, 3) == VT_OK && drawn(&s, "a\r\nb\r\nc"));
    /* Two rows have to have room; then the text ends when they don't. */
    LEAVES(&s, vt_screen_feed_rows(&s, (const uint8_t *)"\n", 1, &out, 1, cells, 5, &fed), VT_NO_ROOM);
    WANT(fed.taken == 7 && fed.outs == 7 && fed.rows == 7 && out.kind == 9 && cells[0].code == 9);
    LEAVES(&s, vt_screen_feed_rows(&s, NULL, 0, NULL, 0, NULL, 0, &fed), VT_NO_ROOM);
    LEAVES(&s, vt_screen_feed_rows(&s, NULL, 0, NULL, 0, cells, 6, &fed), VT_OK);
    WANT(fed.taken == 0 && fed.outs == 0 && fed.rows == 0 && fed.spare[0] == 0);
    LEAVES(&s, vt_screen_feed_rows(&s, (const uint8_t *)"\n", 1, NULL, 0, cells, 6, &fed), VT_OK);
    WANT(fed.taken == 0 && fed.outs == 0 && fed.rows == 0);
    WANT(vt_screen_feed_rows(&s, (const uint8_t *)"\nx\n\n", 4, &out, 1, cells, 8, &fed) == VT_OK);
    WANT(fed.taken == 1 && fed.rows == 1 && cells[0].code == 'a' && cells[0].attr == 7 && cells[3].code == 0);
    WANT(vt_screen_feed_rows(&s, (const uint8_t *)"x\n\n", 3, &out, 1, cells, 9, &fed) == VT_OK);
    WANT(fed.taken == 3 && fed.rows == 2 && cells[0].code == 'b' && cells[3].code == 'c');
    vt_screen_free(&s);
}

static void try_settings(void)
{
    struct vt_screen s = { 0 };
    struct vt_state state;
    struct vt_cell cell;
    uint16_t words[256];
    WANT(vt_screen_new(&s, 2, 4) == VT_OK);
    /* The colours of the VGA: 170 for a part, bright ones 85 more. */
    WANT(is_colour(&s, 1, 170, 0, 0) && is_colour(&s, 12, 85, 85, 255));
    struct vt_colour palette[17] = { [8] = { 9, 9, 9, 9 }, [16] = { 9, 9, 9, 9 } };
    WANT(vt_screen_palette(&s, palette, 8) == VT_OK && palette[7].blue == 170 && palette[8].blue == 9);
    WANT(vt_screen_palette(&s, palette, 17) == VT_OK && palette[15].red == 255 && palette[16].red == 9);
    WANT(vt_screen_palette(&s, palette, 0) == VT_OK && palette[0].red == 0);
    WANT(vt_screen_set_colour(&s, 12, 1, 2, 3) == VT_OK);
    WANT(is_colour(&s, 12, 1, 2, 3));
    WANT(drawn(&s, "\033]P5102030"));
    WANT(is_colour(&s, 5, 16, 32, 48));
    LEAVES(&s, vt_screen_set_colour(&s, 16, 1, 1, 1), VT_RANGE);
    LEAVES(&s, vt_screen_set_colour(&s, UINT32_MAX, 1, 1, 1), VT_RANGE);
    for (unsigned i = 0; i < 256; i++)
        words[i] = (uint16_t)(0x3B1 + i);
    WANT(vt_screen_set_user(&s, words) == VT_OK);
    WANT(drawn(&s, "\033%@\033(Ka\033(B\033%G"));
    WANT(vt_screen_cell(&s, 0, 0, &cell) == VT_OK && cell.code == 0x3B1 + 'a');
    WANT(drawn(&s, "\033[?1h\033=\033[20h\033[?8l\033[?25l\033[?5h\033[?6h\033[?7l\033[4h\033[3h"));
    WANT(vt_screen_state(&s, &state) == VT_OK && state.modes.cursor_keys && state.modes.keypad);
    WANT(state.modes.newline_mode && !state.modes.repeat && !state.visible && state.reverse);
    WANT(state.origin && !state.autowrap && state.insert && state.controls);
    LEAVES(&s, vt_screen_resize(&s, 0, 4), VT_RANGE);
    LEAVES(&s, vt_screen_resize(&s, 2, 256), VT_RANGE);
    LEAVES(&s, vt_screen_resize(&s, UINT32_MAX, UINT32_MAX), VT_RANGE);
    WANT(vt_screen_resize(&s, 255, 255) == VT_OK);
    WANT(vt_screen_state(&s, &state) == VT_OK && state.rows == 255 && state.cols == 255);
    WANT(vt_screen_cell(&s, 0, 0, &cell) == VT_OK && cell.code == 0x3B1 + 'a');
    WANT(vt_screen_resize(&s, 1, 1) == VT_OK);
    vt_screen_free(&s);
}

static void try_changes(void)
{
    struct vt_screen s = { 0 };
    uint8_t changed[4] = { 0, 0, 0, 9 };
    WANT(vt_screen_new(&s, 3, 4) == VT_OK);
    WANT(vt_screen_changed(&s, changed, 4) == VT_OK && changed[0] == 1 && changed[1] == 1 && changed[2] == 1);
    WANT(changed[3] == 9);
    LEAVES(&s, vt_screen_mark(&s), VT_OK);
    WANT(vt_screen_changed(&s, changed, 4) == VT_OK && changed[0] == 0 && changed[1] == 0 && changed[2] == 0);
    WANT(changed[3] == 9);
    WANT(drawn(&s, "\033[2;1Hx"));
    LEAVES(&s, vt_screen_changed(&s, changed, 3), VT_OK);
    WANT(changed[0] == 0 && changed[1] == 1 && changed[2] == 0);
    changed[1] = 9;
    WANT(vt_screen_changed(&s, changed, 1) == VT_OK && changed[0] == 0 && changed[1] == 9);
    changed[0] = 9;
    WANT(vt_screen_changed(&s, changed, 0) == VT_OK && changed[0] == 9);
    WANT(drawn(&s, "\b \033[3;4H\033[31m "));
    WANT(vt_screen_changed(&s, changed, 3) == VT_OK && changed[0] == 0 && changed[1] == 0);
    WANT(changed[2] == 1); /* a space in another colour */
    WANT(vt_screen_mark(&s) == VT_OK);
    WANT(vt_screen_resize(&s, 2, 4) == VT_OK);
    changed[2] = 9;
    WANT(vt_screen_changed(&s, changed, 4) == VT_OK && changed[0] == 1 && changed[1] == 1 && changed[2] == 9);
    /* A resize forgets the mark, also one to the same size. */
    WANT(vt_screen_mark(&s) == VT_OK && vt_screen_resize(&s, 2, 4) == VT_OK);
    WANT(vt_screen_changed(&s, changed, 4) == VT_OK && changed[0] == 1 && changed[1] == 1);
    vt_screen_free(&s);
}

static void try_redraw(void)
{
    struct vt_screen s = { 0 }, other = { 0 };
    uint8_t text[4096];
    size_t length, again;
    WANT(vt_screen_new(&s, ROWS, COLS) == VT_OK && vt_screen_new(&other, ROWS, COLS) == VT_OK);
    WANT(vt_screen_write(&s, TEXT, sizeof TEXT - 1) == VT_OK);
    WANT(drawn(&other, "\033[7mQQQQ\033[2;3r\033[?6hZZZ"));
    LEAVES(&s, vt_screen_redraw(&s, text, sizeof text, &length), VT_OK);
    WANT(length > 0 && length <= sizeof text);
    WANT(vt_screen_write(&other, text, length) == VT_OK);
    take(&s, &before);
    take(&other, &after);
    WANT(is_same(&before, &after));
    memset(text, 9, sizeof text);
    LEAVES(&s, vt_screen_redraw(&s, text, length - 1, &again), VT_NO_ROOM);
    WANT(again == length && text[0] == 9);
    WANT(vt_screen_redraw(&s, text, 0, &again) == VT_NO_ROOM && again == length);
    WANT(vt_screen_redraw(&s, text, length, &again) == VT_OK && again == length);
    WANT(drawn(&s, "\033%@\033[3h\001\033[3l\033%G")); /* a cell of 01 */
    again = 9;
    LEAVES(&s, vt_screen_redraw(&s, text, sizeof text, &again), VT_NOT_DRAWABLE);
    WANT(again == 9);
    vt_screen_free(&s);
    vt_screen_free(&other);
}

static void try_redraw_of_changes(void)
{
    struct vt_screen s = { 0 }, other = { 0 };
    uint8_t whole[4096], text[4096];
    size_t length, again;
    WANT(vt_screen_new(&s, ROWS, COLS) == VT_OK && vt_screen_new(&other, ROWS, COLS) == VT_OK);
    WANT(vt_screen_write(&s, TEXT, sizeof TEXT - 1) == VT_OK);
    WANT(vt_screen_write(&other, TEXT, sizeof TEXT - 1) == VT_OK);
    /* Nothing was remembered: the text of vt_screen_redraw. */
    WANT(vt_screen_redraw(&s, whole, sizeof whole, &length) == VT_OK);
    LEAVES(&s, vt_screen_redraw_changes(&s, text, sizeof text, &again), VT_OK);
    WANT(again == length && memcmp(whole, text, length) == 0);
    WANT(vt_screen_mark(&s) == VT_OK);
    WANT(drawn(&s, "\033[3;1HZZ\033[2;3r"));
    WANT(vt_screen_redraw(&s, whole, sizeof whole, &length) == VT_OK);
    LEAVES(&s, vt_screen_redraw_changes(&s, text, sizeof text, &again), VT_OK);
    WANT(again < length);
    LEAVES(&s, vt_screen_redraw_changes(&s, text, again - 1, &length), VT_NO_ROOM);
    WANT(length == again);
    WANT(vt_screen_write(&other, text, again) == VT_OK);
    take(&s, &before);
    take(&other, &after);
    WANT(is_same(&before, &after));
    /* Another size than that of the mark: the whole text. */
    WANT(vt_screen_resize(&s, 2, 2) == VT_OK);
    WANT(vt_screen_redraw(&s, whole, sizeof whole, &length) == VT_OK);
    WANT(vt_screen_redraw_changes(&s, text, sizeof text, &again) == VT_OK);
    WANT(again == length && memcmp(whole, text, length) == 0);
    vt_screen_free(&s);
    vt_screen_free(&other);
}

/* All cells at once are the rows, one after another, as far as there is room. */
static void try_cells(void)
{
    struct vt_screen s = { 0 };
    struct vt_cell all[ROWS * COLS + 1], row[COLS];
    WANT(vt_screen_new(&s, ROWS, COLS) == VT_OK && vt_screen_write(&s, TEXT, sizeof TEXT - 1) == VT_OK);
    memset(all, 9, sizeof all);
    LEAVES(&s, vt_screen_cells(&s, all, ROWS * COLS + 1), VT_OK);
    for (uint32_t y = 0; y < ROWS; y++) {
        WANT(vt_screen_row(&s, y, row, COLS) == VT_OK);
        WANT(memcmp(all + y * COLS, row, sizeof row) == 0);
    }
    WANT(all[0].code == 'a' && all[COLS + 2].code == 0xE9 && all[COLS + 4].code == VT_HALF);
    WANT(all[ROWS * COLS].code == 0x09090909 && all[ROWS * COLS].spare[2] == 9);
    memset(all, 9, sizeof all);
    WANT(vt_screen_cells(&s, all, COLS + 3) == VT_OK && all[COLS + 2].code == 0xE9);
    WANT(all[COLS + 3].code == 0x09090909 && all[COLS + 3].attr == 9);
    all[0].code = 9;
    LEAVES(&s, vt_screen_cells(&s, all, 0), VT_OK);
    LEAVES(&s, vt_screen_cells(&s, NULL, 0), VT_OK);
    WANT(all[0].code == 9);
    vt_screen_free(&s);
}

/* Widths of Unicode Standard Annex 11: a Han character and an emoji are wide, an accent joins the letter before it. */
static void try_columns(void)
{
    WANT(vt_columns('a') == 1 && vt_columns(0xE9) == 1 && vt_columns(0x4E2D) == 2 && vt_columns(0x1F600) == 2);
    WANT(vt_columns(0x301) == 0 && vt_columns(0x200D) == 0 && vt_columns(0xFFFD) == 1);
    WANT(vt_columns(0) == 1 && vt_columns(VT_FONT) == 1 && vt_columns(0xD800) == 1);
    WANT(vt_columns(VT_HALF) == 1 && vt_columns(UINT32_MAX) == 1);
}

/* Draws the nearest screen on another one that shows something else, and compares them, all but the first cell. */
static void try_near(struct vt_screen *s, uint32_t wanted, bool is_first_kept)
{
    static uint8_t text[65536];
    struct vt_screen other = { 0 };
    uint32_t parts = 99;
    size_t length = 0, again = 0;
    LEAVES(s, vt_screen_left_out(s, &parts), VT_OK);
    WANT(parts == wanted);
    WANT(vt_screen_redraw(s, text, sizeof text, &length) == (wanted ? VT_NOT_DRAWABLE : VT_OK));
    LEAVES(s, vt_screen_redraw_near(s, text, sizeof text, &length), VT_OK);
    take(s, &before);
    WANT(length > 0 && length <= VT_REDRAW_MOST(before.state.rows, before.state.cols));
    WANT(vt_screen_new(&other, before.state.rows, before.state.cols) == VT_OK);
    WANT(drawn(&other, "\033[7mQQQQ\033[2;3r\033[?6hZZZ") && vt_screen_write(&other, text, length) == VT_OK);
    take(&other, &after);
    if (!is_first_kept) {
        WANT(after.cells[0][0].code == 0xFFFD && after.cells[0][0].attr == before.cells[0][0].attr);
        after.cells[0][0] = before.cells[0][0];
    }
    WANT(is_same(&before, &after));
    /* What was drawn can be drawn. */
    WANT(vt_screen_left_out(&other, &parts) == VT_OK && parts == 0);
    text[0] = 9;
    LEAVES(s, vt_screen_redraw_near(s, text, length - 1, &again), VT_NO_ROOM);
    WANT(again == length && text[0] == 9);
    LEAVES(s, vt_screen_redraw_near(s, NULL, 0, &again), VT_NO_ROOM);
    WANT(again == length);
    WANT(vt_screen_redraw_near(s, text, length, &again) == VT_OK && again == length);
    /* Without a mark, and with one. */
    LEAVES(s, vt_screen_redraw_changes_near(s, NULL, 0, &again), VT_NO_ROOM);
    WANT(again == length && vt_screen_mark(s) == VT_OK);
    LEAVES(s, vt_screen_redraw_changes_near(s, text, sizeof text, &again), VT_OK);
    WANT(again < length && vt_screen_write(&other, text, again) == VT_OK);
    take(&other, &after);
    WANT(after.state.y == before.state.y && after.state.x == before.state.x);
    text[0] = 9;
    LEAVES(s, vt_screen_redraw_changes_near(s, text, again - 1, &length), VT_NO_ROOM);
    WANT(length == again && text[0] == 9);
    vt_screen_free(&other);
}

/* A text for each part that no text makes, of those that a screen can have (console_codes(4)). */
static void try_left_out(void)
{
    static const struct {
        const char *text;
        uint32_t rows, cols, parts;
        bool is_first_kept;
    } row[] = {
        { "ab\033[31mc", 0, 0, 0, true },
        { "\033[32m\033%@\033[3h\001\033[3l\033%G", 0, 0, VT_LEFT_CELLS, false },       /* a cell of 01 */
        { "\033[3;5H\0337", 2, 4, VT_LEFT_SAVED, true },                               /* the last row and column go */
        { "\033[2;3r\033[?6h", 2, 6, 0, true },                                         /* the region is whole again */
    };
    for (size_t i = 0; i < sizeof row / sizeof *row; i++) {
        struct vt_screen s = { 0 };
        WANT(vt_screen_new(&s, ROWS, COLS) == VT_OK && drawn(&s, row[i].text));
        if (row[i].rows)
            WANT(vt_screen_resize(&s, row[i].rows, row[i].cols) == VT_OK);
        try_near(&s, row[i].parts, row[i].is_first_kept);
        vt_screen_free(&s);
    }
}

static void try_picture(void)
{
    static const char begin[] = "<svg xmlns='http://www.w3.org/2000/svg'", end[] = "</svg>\n";
    struct vt_screen s = { 0 };
    uint8_t text[4096];
    size_t length, again;
    WANT(vt_screen_new(&s, 2, 4) == VT_OK && drawn(&s, "a<"));
    LEAVES(&s, vt_screen_picture(&s, text, sizeof text, &length), VT_OK);
    WANT(length > sizeof begin + sizeof end && memcmp(text, begin, sizeof begin - 1) == 0);
    WANT(memcmp(text + length - (sizeof end - 1), end, sizeof end - 1) == 0);
    text[0] = 9;
    LEAVES(&s, vt_screen_picture(&s, text, length - 1, &again), VT_NO_ROOM);
    WANT(again == length && text[0] == 9);
    vt_screen_free(&s);
}

/* A pointer with the length 0 may be null. */
static void try_null(void)
{
    struct vt_screen s = { 0 };
    struct vt_fed fed = { 7, 7, 7, { 7 } };
    struct vt_out out = { .kind = 9 };
    size_t length;
    WANT(vt_screen_new(&s, 2, 4) == VT_OK);
    LEAVES(&s, vt_screen_feed(&s, NULL, 0, &out, 1, &fed), VT_OK);
    WANT(fed.taken == 0 && fed.outs == 0 && fed.rows == 0 && fed.spare[0] == 0 && out.kind == 9);
    LEAVES(&s, vt_screen_feed(&s, TEXT, 1, NULL, 0, &fed), VT_OK);
    WANT(fed.taken == 0 && fed.outs == 0);
    LEAVES(&s, vt_screen_write(&s, NULL, 0), VT_OK);
    LEAVES(&s, vt_screen_row(&s, 0, NULL, 0), VT_OK);
    LEAVES(&s, vt_screen_row_text(&s, 0, NULL, 0, &length), VT_NO_ROOM);
    WANT(length == 4);
    LEAVES(&s, vt_screen_changed(&s, NULL, 0), VT_OK);
    LEAVES(&s, vt_screen_palette(&s, NULL, 0), VT_OK);
    LEAVES(&s, vt_screen_redraw(&s, NULL, 0, &length), VT_NO_ROOM);
    LEAVES(&s, vt_screen_redraw_changes(&s, NULL, 0, &length), VT_NO_ROOM);
    LEAVES(&s, vt_screen_picture(&s, NULL, 0, &length), VT_NO_ROOM);
    vt_screen_free(&s);
}

/* A handle may be moved, and the version is that of the header. */
static void try_moving(void)
{
    struct vt_screen s = { 0 }, moved;
    struct vt_cell cell;
    WANT(vt_version() == VT_VERSION);
    WANT(vt_screen_new(&s, 2, 4) == VT_OK && drawn(&s, "x"));
    memcpy(&moved, &s, sizeof s);
    memset(&s, 0, sizeof s);
    WANT(vt_screen_cell(&moved, 0, 0, &cell) == VT_OK && cell.code == 'x' && cell.attr == 7);
    WANT(cell.spare[0] == 0 && cell.spare[1] == 0 && cell.spare[2] == 0);
    vt_screen_free(&moved);
}

int main(void)
{
    try_making();
    try_screen();
    try_feeding();
    try_rows();
    try_settings();
    try_changes();
    try_redraw();
    try_redraw_of_changes();
    try_cells();
    try_columns();
    try_left_out();
    try_picture();
    try_null();
    try_moving();
    return ended();
}
