/* Each request for memory of screens and keyboards refused in turn, alone and with all that follow.
 *
 * A call that is refused memory returns VT_NO_MEMORY, what the handle has stays, and what it asked for is given back; or
 * it asks for less and does its work, as a list does that wanted room for twice as many items. The first line has how
 * many requests each call makes. */
#include "refusals.h"
#include "want.h"

static const uint8_t TEXT[] = "one\033[31m two\r\n\033[44;1mthree\033[5;5Hfour";
static const uint8_t UNDRAWABLE[] = "\033[H\033%@\033[3h\001\033[3l\033%G"; /* a cell of 01 */
static const uint8_t KEYMAP[] = "keymaps 0-2\ninclude \"more\"\nkeycode 30 = a\nstring F1 = \"one\"\n";
static const uint8_t NAME[] = "more", MORE[] = "keycode 31 = b\ncompose '`' 'a' to U+00E0\n";
static const struct vt_text TEXTS[] = { { NAME, 4, MORE, sizeof MORE - 1 } };

/* A number with these bytes added. */
static uint64_t summed(uint64_t sum, const void *from, size_t n)
{
    for (size_t i = 0; i < n; i++)
        sum = (sum ^ ((const uint8_t *)from)[i]) * 1099511628211u;
    return sum;
}

/* What the calls show of a screen, as a number. */
static uint64_t shown(struct vt_screen *s)
{
    static struct vt_cell all[255 * 255];
    struct vt_state state;
    struct vt_colour colours[16];
    uint8_t changed[255];
    WANT(vt_screen_state(s, &state) == VT_OK && vt_screen_cells(s, all, 255 * 255) == VT_OK);
    WANT(vt_screen_palette(s, colours, 16) == VT_OK && vt_screen_changed(s, changed, 255) == VT_OK);
    uint64_t sum = summed(14695981039346656037u, &state, sizeof state);
    sum = summed(summed(sum, colours, sizeof colours), changed, state.rows);
    return summed(sum, all, (size_t)state.rows * state.cols * sizeof *all);
}

static struct vt_screen screen;
static struct vt_keys keys;
static uint8_t room[65536];
static struct vt_cell cells[64 * 64];
static size_t length;
static struct vt_fault fault;

/* The calls that may ask for memory. */
static uint8_t make(void) { return vt_screen_new(&screen, 25, 80); }
static uint8_t mark(void) { return vt_screen_mark(&screen); }
static uint8_t resize(void) { return vt_screen_resize(&screen, 30, 40); }
static uint8_t redraw(void) { return vt_screen_redraw(&screen, room, sizeof room, &length); }
static uint8_t near(void) { return vt_screen_redraw_near(&screen, room, sizeof room, &length); }
static uint8_t changes_near(void) { return vt_screen_redraw_changes_near(&screen, room, sizeof room, &length); }
static uint8_t picture(void) { return vt_screen_picture(&screen, room, sizeof room, &length); }
static uint8_t changes(void) { return vt_screen_redraw_changes(&screen, room, sizeof room, &length); }
static uint8_t make_keys(void) { return vt_keys_new(&keys, KEYMAP, sizeof KEYMAP - 1, TEXTS, 1, &fault); }

/* Frees what the call has made, so that it can make it again. */
static void undo(uint8_t (*call)(void))
{
    if (call == mark)
        WANT(vt_screen_resize(&screen, 25, 80) == VT_OK);
    if (call == make)
        vt_screen_free(&screen);
    if (call == make_keys)
        vt_keys_free(&keys);
}

/* Refuses the call its requests in turn, until it needs no more; how many it makes. */
static unsigned long try_refusals(uint8_t (*call)(void), bool is_there)
{
    unsigned long refusals = 0;
    for (unsigned long n = 1; n < 10000; n++) {
        uint64_t before = is_there ? shown(&screen) : 0;
        long blocks_before = blocks;
        asked = 0, refused = n;
        uint8_t code = call();
        unsigned long made = asked;
        refused = 0;
        if (made < n) {
            WANT(code == VT_OK && refusals > 0);
            return made;
        }
        if (code == VT_OK) {
            WANT(made > n && !goes_on);
            undo(call);
            continue;
        }
        refusals++;
        WANT(code == VT_NO_MEMORY);
        WANT(blocks == blocks_before);
        WANT(is_there ? shown(&screen) == before : screen.at == NULL && keys.at == NULL);
    }
    WANT(false);
    return 0;
}

/* The same for one request alone, and for all from one on. */
static unsigned long try_each(uint8_t (*call)(void), bool is_there)
{
    goes_on = true;
    unsigned long made = try_refusals(call, is_there);
    undo(call);
    goes_on = false;
    WANT(try_refusals(call, is_there) == made);
    return made;
}

int main(void)
{
    unsigned long counts[9];
    counts[0] = try_each(make, false);
    WANT(vt_screen_write(&screen, TEXT, sizeof TEXT - 1) == VT_OK);
    counts[2] = try_each(mark, true);
    counts[3] = try_each(redraw, true);
    counts[4] = try_each(changes, true);
    WANT(vt_screen_write(&screen, UNDRAWABLE, sizeof UNDRAWABLE - 1) == VT_OK && redraw() == VT_NOT_DRAWABLE);
    counts[1] = try_each(near, true);
    counts[8] = try_each(changes_near, true);
    counts[5] = try_each(resize, true);
    counts[7] = try_each(picture, true);
    /* Calls that ask for none. */
    struct vt_out outs[8];
    struct vt_fed fed;
    asked = 0;
    for (int i = 0; i < 100; i++) {
        WANT(vt_screen_feed(&screen, TEXT, sizeof TEXT - 1, outs, 8, &fed) == VT_OK);
        WANT(vt_screen_write(&screen, TEXT, sizeof TEXT - 1) == VT_OK);
        shown(&screen);
        uint32_t parts;
        WANT(vt_screen_row_text(&screen, 0, room, sizeof room, &length) == VT_OK);
        WANT(vt_screen_cells(&screen, cells, sizeof cells / sizeof *cells) == VT_OK);
        WANT(vt_screen_left_out(&screen, &parts) == VT_OK && vt_columns(0x4E2D) == 2);
    }
    WANT(asked == 0);
    vt_screen_free(&screen);
    WANT(blocks == 0 && screen.at == NULL);
    counts[6] = try_each(make_keys, false);
    struct vt_key key;
    static const struct vt_modes modes = VT_MODES_START;
    struct vt_key_state state = VT_KEY_STATE_START;
    asked = 0;
    for (int i = 0; i < 1000; i++)
        WANT(vt_keys_scan(&keys, (uint8_t)(30 + i % 2 * 128), &modes, &state, &key) == VT_OK);
    WANT(asked == 0);
    struct vt_pair pairs[1];
    size_t count = 9;
    asked = 0, refused = 1;
    WANT(vt_keys_pairs(&keys, pairs, 1, &count) == VT_NO_MEMORY && count == 9);
    refused = 0;
    WANT(vt_keys_pairs(&keys, pairs, 1, &count) == VT_OK && count == 1);
    vt_keys_free(&keys);
    WANT(blocks == 0 && keys.at == NULL);
    printf("requests: new %lu, redraw_near %lu, mark %lu, redraw %lu, redraw_changes %lu, resize %lu, keys_new %lu, "
           "picture %lu, redraw_changes_near %lu\n",
           counts[0], counts[1], counts[2], counts[3], counts[4], counts[5], counts[6], counts[7], counts[8]);
    return ended();
}
