/* The whole interface for libFuzzer: an input is a list of calls on two screens, two keyboards and a machine, with their
 * numbers, lengths, rooms and texts. Beside what the sanitizers see, each call is compared with vt.h: its codes, what
 * it writes and what it leaves, and a feed in pieces with a write of the whole text on another screen.
 * libvt/tools/fuzz_c.sh builds it. */
#include "fuzz_input.h"
#include "fuzz_machine.h"
#include <vt.h>

enum { MOST = 4096 };

/* Two screens that are drawn alike: the first by feeds, the second by writes. */
struct pair {
    struct vt_screen fed, written;
    bool is_made;
    uint32_t rows, cols;
};

static void same_screens(struct pair *p)
{
    struct vt_state a, b;
    uint8_t code = vt_screen_state(&p->fed, &a);
    must(code == (p->is_made ? VT_OK : VT_NOTHING) && vt_screen_state(&p->written, &b) == code);
    if (!p->is_made)
        return;
    must(memcmp(&a, &b, sizeof a) == 0 && a.rows == p->rows && a.cols == p->cols && a.y < a.rows && a.x < a.cols);
    uint32_t y = byte() % a.rows;
    struct vt_cell cells[255], others[255];
    must(vt_screen_row(&p->fed, y, cells, 255) == VT_OK && vt_screen_row(&p->written, y, others, 255) == VT_OK);
    for (int x = 0; x < a.cols; x++)
        must(cells[x].code == others[x].code && cells[x].attr == others[x].attr && cells[x].code <= VT_HALF);
}

static bool is_size(uint32_t n)
{
    return n >= 1 && n <= 255;
}

static void make(struct pair *p)
{
    uint32_t rows = number(), cols = number();
    bool is_good = is_size(rows) && is_size(cols);
    uint8_t wanted = p->is_made ? VT_MADE : is_good ? VT_OK : VT_RANGE;
    must(vt_screen_new(&p->fed, rows, cols) == wanted && vt_screen_new(&p->written, rows, cols) == wanted);
    if (wanted == VT_OK)
        p->is_made = true, p->rows = rows, p->cols = cols;
}

static void drop(struct pair *p)
{
    vt_screen_free(&p->fed);
    vt_screen_free(&p->written);
    p->is_made = false;
    must(p->fed.at == NULL);
}

static void feed(struct pair *p)
{
    size_t length, room = byte() % 5;
    uint8_t *text = piece(&length);
    struct vt_out outs[5];
    struct vt_fed fed;
    for (size_t at = 0; at < length && p->is_made;) {
        size_t n = 1 + byte() % 64u;
        n = n < length - at ? n : length - at;
        must(vt_screen_feed(&p->fed, text + at, n, outs, room, &fed) == VT_OK);
        must(fed.taken <= n && fed.outs <= room && (fed.taken == n || fed.outs == room));
        for (size_t i = 0; i < fed.outs; i++)
            must(outs[i].kind >= VT_REPORT && outs[i].kind <= VT_BELL && outs[i].length <= 16);
        at += fed.taken;
        if (room == 0)
            room = 1;
    }
    must(vt_screen_write(&p->written, text, length) == (p->is_made ? VT_OK : VT_NOTHING));
    free(text);
}

/* The same, with room for two to five rows that fall out. */
static void feed_rows(struct pair *p)
{
    size_t length, most = 2 + byte() % 4u, room = most * (p->is_made ? p->cols : 1u);
    uint8_t *text = piece(&length);
    struct vt_cell *cells = malloc(room * sizeof *cells);
    struct vt_out outs[5];
    struct vt_fed fed;
    must(cells != NULL);
    if (!p->is_made)
        must(vt_screen_feed_rows(&p->fed, text, length, outs, 5, cells, room, &fed) == VT_NOTHING);
    else
        must(vt_screen_feed_rows(&p->fed, text, length, outs, 5, cells, 2 * p->cols - 1, &fed) == VT_NO_ROOM);
    for (size_t at = 0; at < length && p->is_made; at += fed.taken) {
        must(vt_screen_feed_rows(&p->fed, text + at, length - at, outs, 5, cells, room, &fed) == VT_OK);
        must(fed.taken > 0 && fed.taken <= length - at && fed.outs <= 5 && fed.rows <= most);
        must(fed.taken == length - at || fed.outs == 5 || fed.rows + 2 > most);
        for (size_t i = 0; i < fed.rows * p->cols; i++)
            must(cells[i].code <= VT_HALF && cells[i].spare[0] == 0);
    }
    must(vt_screen_write(&p->written, text, length) == (p->is_made ? VT_OK : VT_NOTHING));
    free(text), free(cells);
}

static void look(struct pair *p)
{
    uint32_t y = number(), x = number();
    size_t room = byte() * 4u, length = 77;
    struct vt_cell cell;
    uint8_t *text = malloc(room + 1);
    must(text != NULL);
    uint8_t wanted = !p->is_made ? VT_NOTHING : y < p->rows && x < p->cols ? VT_OK : VT_RANGE;
    must(vt_screen_cell(&p->fed, y, x, &cell) == wanted);
    wanted = !p->is_made ? VT_NOTHING : y < p->rows ? VT_OK : VT_RANGE;
    uint8_t code = vt_screen_row_text(&p->fed, y, text, room, &length);
    must(code == wanted || (wanted == VT_OK && code == VT_NO_ROOM));
    must(wanted == VT_OK ? length <= 4 * 255 && (code == VT_NO_ROOM) == (length > room) : length == 77);
    free(text);
}

static void resize(struct pair *p)
{
    uint32_t rows = number(), cols = number();
    bool is_good = is_size(rows) && is_size(cols);
    uint8_t wanted = !p->is_made ? VT_NOTHING : is_good ? VT_OK : VT_RANGE;
    must(vt_screen_resize(&p->fed, rows, cols) == wanted && vt_screen_resize(&p->written, rows, cols) == wanted);
    if (wanted == VT_OK)
        p->rows = rows, p->cols = cols;
}

static void set(struct pair *p)
{
    uint32_t n = number();
    uint8_t red = byte(), green = byte(), blue = byte();
    uint8_t wanted = !p->is_made ? VT_NOTHING : n < 16 ? VT_OK : VT_RANGE;
    uint16_t words[256];
    must(vt_screen_set_colour(&p->fed, n, red, green, blue) == wanted);
    must(vt_screen_set_colour(&p->written, n, red, green, blue) == wanted);
    struct vt_colour all[16];
    must(vt_screen_palette(&p->fed, all, 16) == (p->is_made ? VT_OK : VT_NOTHING));
    must(wanted != VT_OK || (all[n].red == red && all[n].green == green && all[n].blue == blue));
    for (int i = 0; i < 256; i++)
        words[i] = (uint16_t)(n * (uint32_t)i);
    must(vt_screen_set_user(&p->fed, words) == (p->is_made ? VT_OK : VT_NOTHING));
    vt_screen_set_user(&p->written, words);
}

static void mark(struct pair *p)
{
    uint8_t changed[255];
    must(vt_screen_mark(&p->fed) == (p->is_made ? VT_OK : VT_NOTHING));
    must(vt_screen_changed(&p->fed, changed, 255) == (p->is_made ? VT_OK : VT_NOTHING));
    for (uint32_t y = 0; p->is_made && y < p->rows; y++)
        must(!changed[y]);
}

/* The text of the changes makes the cells too, on a screen that shows the ones that were marked. */
static void redraw_changes(struct pair *p)
{
    struct vt_screen other = { 0 };
    struct vt_cell cells[255], others[255];
    size_t length, room = 1u << 20;
    uint8_t *text = malloc(room);
    must(text != NULL && vt_screen_new(&other, p->rows, p->cols) == VT_OK);
    if (vt_screen_mark(&p->fed) == VT_OK && vt_screen_redraw(&p->fed, text, room, &length) == VT_OK) {
        must(vt_screen_write(&other, text, length) == VT_OK);
        feed(p);
        if (vt_screen_redraw_changes(&p->fed, text, room, &length) == VT_OK) {
            must(vt_screen_write(&other, text, length) == VT_OK);
            for (uint32_t y = 0; y < p->rows; y++) {
                must(vt_screen_row(&p->fed, y, cells, 255) == VT_OK && vt_screen_row(&other, y, others, 255) == VT_OK);
                for (uint32_t x = 0; x < p->cols; x++)
                    must(cells[x].code == others[x].code && cells[x].attr == others[x].attr);
            }
        }
    }
    vt_screen_free(&other);
    free(text);
}

/* The picture of a small screen needs as much room as it names. */
static void picture(struct pair *p)
{
    size_t length = 0, again;
    if (p->is_made && p->rows * p->cols > 1000)
        return;
    must(vt_screen_picture(&p->fed, NULL, 0, &length) == (p->is_made ? VT_NO_ROOM : VT_NOTHING));
    if (!p->is_made)
        return;
    uint8_t *text = malloc(length);
    must(text != NULL && vt_screen_picture(&p->fed, text, length, &again) == VT_OK && again == length);
    must(length > 5 && memcmp(text, "<svg ", 5) == 0);
    free(text);
}

static bool is_same_cell(struct vt_cell a, struct vt_cell b)
{
    return a.code == b.code && a.attr == b.attr;
}

/* The text of a near redraw makes the same cells, or U+FFFD in the same colours, as far as the parts that are left out
 * allow, and isn't longer than the header says. */
static void redraw_near(struct pair *p)
{
    size_t length = 0, again, room = p->is_made ? VT_REDRAW_MOST(p->rows, p->cols) : 0;
    size_t count = p->is_made ? p->rows * p->cols : 0;
    uint32_t parts = 77;
    must(vt_screen_left_out(&p->fed, &parts) == (p->is_made ? VT_OK : VT_NOTHING) && (p->is_made || parts == 77));
    must(vt_screen_redraw_near(&p->fed, NULL, 0, &length) == (p->is_made ? VT_NO_ROOM : VT_NOTHING));
    if (!p->is_made)
        return;
    must(vt_screen_redraw(&p->fed, NULL, 0, &again) == (parts ? VT_NOT_DRAWABLE : VT_NO_ROOM));
    uint8_t *text = malloc(room);
    struct vt_cell *cells = malloc(2 * count * sizeof *cells);
    struct vt_screen other = { 0 };
    must(text != NULL && cells != NULL && length <= room);
    must(vt_screen_redraw_near(&p->fed, text, room, &again) == VT_OK && again == length);
    must(vt_screen_new(&other, p->rows, p->cols) == VT_OK && vt_screen_write(&other, text, length) == VT_OK);
    must(vt_screen_cells(&p->fed, cells, count) == VT_OK && vt_screen_cells(&other, cells + count, count) == VT_OK);
    for (size_t i = 0; i < count; i++) {
        struct vt_cell replaced = { 0xFFFD, cells[i].attr, { 0 } };
        must(is_same_cell(cells[i], cells[count + i]) ||
             ((parts & VT_LEFT_CELLS) && is_same_cell(replaced, cells[count + i])));
    }
    must(vt_screen_left_out(&other, &parts) == VT_OK && parts == 0);
    vt_screen_free(&other);
    free(text), free(cells);
}

/* The text of a redraw makes the same cells on another screen, and needs as much room as it names. */
static void redraw(struct pair *p)
{
    size_t length = 0, again;
    picture(p);
    redraw_near(p);
    uint8_t code = vt_screen_redraw(&p->fed, (uint8_t *)&again, 0, &length);
    must(p->is_made ? code == VT_NO_ROOM || code == VT_NOT_DRAWABLE : code == VT_NOTHING);
    if (code != VT_NO_ROOM)
        return;
    uint8_t *text = malloc(length);
    struct vt_screen other = { 0 };
    struct vt_cell cells[255], others[255];
    must(text != NULL && vt_screen_redraw(&p->fed, text, length, &again) == VT_OK && again == length);
    must(vt_screen_new(&other, p->rows, p->cols) == VT_OK && vt_screen_write(&other, text, length) == VT_OK);
    for (uint32_t y = 0; y < p->rows; y++) {
        must(vt_screen_row(&p->fed, y, cells, 255) == VT_OK && vt_screen_row(&other, y, others, 255) == VT_OK);
        for (uint32_t x = 0; x < p->cols; x++)
            must(cells[x].code == others[x].code && cells[x].attr == others[x].attr);
    }
    vt_screen_free(&other);
    free(text);
    redraw_changes(p);
}

static void make_keys(struct vt_keys *k)
{
    size_t length, name, included;
    uint8_t *text = piece(&length), *first = piece(&name), *second = piece(&included);
    struct vt_text texts[2] = { { first, name, second, included }, { second, included, first, name } };
    struct vt_fault fault = { 0, 0, 0, 0 };
    bool was_made = k->at != NULL;
    uint8_t code = vt_keys_new(k, text, length, texts, byte() % 3, &fault);
    must(was_made ? code == VT_MADE : code == VT_OK || code == VT_FAULT);
    must(code != VT_FAULT || (fault.kind >= 1 && fault.kind <= 13 && fault.line >= 1 && fault.column >= 1));
    free(text), free(first), free(second);
}

static bool is_state(const struct vt_key_state *state)
{
    return state->mode <= 4 && (state->meta == VT_METABIT || state->meta == VT_ESCPREFIX) && state->flags <= 7 &&
           state->defaults <= 7 && (state->lights <= 7 || state->lights == VT_LIGHTS_FOLLOW);
}

/* Types scan bytes or keycodes into a console. */
static void type(struct vt_keys *k, struct vt_key_state *state)
{
    size_t length;
    uint8_t *scans = piece(&length), bits = byte();
    struct vt_modes modes = { bits & 1, bits & 2, bits & 4, bits & 8, { 0 } };
    struct vt_key key;
    uint8_t wanted = k->at ? VT_OK : VT_NOTHING;
    for (size_t i = 0; i < length; i++) {
        if (bits & 16)
            must(vt_keys_key(k, scans[i], bits & 32, &modes, state, &key) ==
                 (wanted == VT_OK && scans[i] == 0 ? VT_RANGE : wanted));
        else
            must(vt_keys_scan(k, scans[i], &modes, state, &key) == wanted);
        must(wanted != VT_OK || scans[i] == 0 || (key.kind <= VT_KEY_ATTENTION && key.length <= 512));
        must(is_state(state));
    }
    free(scans);
}

/* Sets the pairs that these bytes are, and reads them. */
static void set_pairs(struct vt_keys *k, const uint8_t *bytes, size_t length)
{
    static struct vt_pair pairs[256], found[256];
    size_t count = length / sizeof *pairs, read = 0;
    bool is_made = k->at != NULL, is_good = true;
    must(count <= 256);
    if (count > 0)
        memcpy(pairs, bytes, count * sizeof *pairs);
    for (size_t i = 0; i < count; i++)
        is_good = is_good && pairs[i].accent <= 65535 && pairs[i].base <= 65535 && pairs[i].result <= 65535;
    must(vt_keys_set_pairs(k, pairs, count) == (!is_made ? VT_NOTHING : is_good ? VT_OK : VT_RANGE));
    must(vt_keys_pairs(k, found, 256, &read) == (is_made ? VT_OK : VT_NOTHING));
    must(!is_made || !is_good || (read == count && memcmp(found, pairs, count * sizeof *pairs) == 0));
}

static void set_keys(struct vt_keys *k, struct vt_key_state *state)
{
    uint32_t a = number(), b = number();
    size_t length, room = byte() % 3 * 128u, found;
    uint8_t *text = piece(&length), string[256], wanted;
    struct vt_modes modes = VT_MODES_START;
    uint8_t c = (uint8_t)a, d = (uint8_t)b;
    struct vt_key_state other = { c, d, c, d, c, d, c, { 0 } };
    struct vt_action action = { 0, 0 };
    struct vt_key key;
    uint32_t keycode = 0;
    bool is_made = k->at != NULL, is_scan = (a >= 1 && a <= 127) || (a >= 129 && a <= 255);
#define CODE(is_good) (wanted = !is_made ? VT_NOTHING : (is_good) ? VT_OK : VT_RANGE)
    must(vt_keys_scan(k, 0x9E, &modes, &other, &key) == CODE(is_state(&other)));
    if (wanted == VT_OK)
        *state = other;
    must(vt_keys_set_keycode(k, a, b) == CODE(is_scan && b <= 255));
    bool is_kept = wanted == VT_OK;
    must(vt_keys_keycode(k, a, &keycode) == CODE(is_scan) && (!is_kept || keycode == b));
    must(vt_keys_entry(k, a, b, &action) == CODE(a <= 255 && b >= 1 && b <= 255));
    if (wanted == VT_OK)
        must(vt_keys_set_entry(k, a, b, &action) == (action.kind == VT_ACTION_NO_TABLE ? VT_RANGE : VT_OK));
    must(vt_keys_set_string(k, a, text, length) == CODE(a <= 255 && length <= 255));
    bool is_set = wanted == VT_OK;
    uint8_t code = vt_keys_string(k, a, string, room, &found);
    must(code == CODE(a <= 255) || (wanted == VT_OK && code == VT_NO_ROOM && found > room));
    must(!is_set || (found == length && (code != VT_OK || memcmp(string, text, length) == 0)));
    set_pairs(k, text, length);
    free(text);
}

int LLVMFuzzerTestOneInput(const uint8_t *data, size_t size);
int LLVMFuzzerTestOneInput(const uint8_t *data, size_t size)
{
    static struct pair pairs[2];
    static struct vt_keys keys[2];
    static const struct vt_key_state start = VT_KEY_STATE_START;
    struct vt_key_state states[2] = { start, start };
    input = data, left = size;
    for (int calls = 0; left > 0 && calls < MOST; calls++) {
        uint8_t which = byte();
        struct pair *p = &pairs[which >> 7];
        struct vt_keys *k = &keys[which >> 7];
        switch (which % 16) {
        case 0: make(p); break;
        case 1: which & 32 ? on_machine() : drop(p); break;
        case 2: case 3: feed(p); break;
        case 4: which & 32 ? feed_rows(p) : feed(p); break;
        case 5: look(p); break;
        case 6: resize(p); break;
        case 7: set(p); break;
        case 8: mark(p); break;
        case 9: redraw(p); break;
        case 10: make_keys(k); break;
        case 11: which & 32 ? on_machine() : vt_keys_free(k); break;
        case 12: type(k, &states[which >> 6 & 1]); break;
        case 13: set_keys(k, &states[which >> 6 & 1]); break;
        case 14: must(vt_keys_release(k) == (k->at ? VT_OK : VT_NOTHING)); break;
        default: which & 32 ? on_machine() : same_screens(p);
        }
    }
    for (int i = 0; i < 2; i++) {
        same_screens(&pairs[i]);
        drop(&pairs[i]);
        vt_keys_free(&keys[i]);
    }
    drop_machine();
    return 0;
}
