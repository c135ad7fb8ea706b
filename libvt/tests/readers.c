/* Eight threads that read one screen, one keyboard and one machine at once, all calls that take a `const` handle. Each thread must
 * see what one thread alone saw before. For valgrind's helgrind, too, which must find nothing. Its word is how many
 * turns each thread has. */
#include "want.h"
#include <pthread.h>

enum { THREADS = 8, ROWS = 5, COLS = 20, TEXT = 4096, PICTURE = 16384 };

/* All that the calls that read give. */
struct view {
    struct vt_state state;
    struct vt_cell cell, cells[COLS];
    struct vt_colour colours[16];
    struct vt_cell all[ROWS * COLS];
    uint8_t changed[ROWS], row[4 * COLS], redraw[TEXT], changes[TEXT], near[TEXT], changes_near[TEXT], picture[PICTURE];
    uint8_t string[255];
    size_t row_length, redraw_length, changes_length, near_length, changes_near_length, picture_length, string_length;
    uint32_t left_out;
    struct vt_action action;
    uint32_t keycode;
    struct vt_pair pairs[1];
    struct vt_mark marks[4];
    struct vt_display display;
    struct vt_console console;
    struct vt_cell machine_cells[COLS], machine_all[ROWS * COLS];
    uint8_t wait, machine_redraw[TEXT], machine_changes[TEXT], machine_near[TEXT], machine_changes_near[TEXT];
    uint8_t machine_picture[PICTURE], entry[TEXT], journal[TEXT];
    size_t pairs_count, marks_count, machine_redraw_length, machine_changes_length, machine_near_length;
    size_t machine_changes_near_length, machine_picture_length, entry_length, journal_length;
};

static struct vt_screen screen;
static struct vt_keys keys;
static struct vt_machine machine;
static struct view first;
static const struct vt_cell blanks[ROWS * COLS];
static long turns = 20;

static bool read_machine(const struct vt_machine *m, struct view *v)
{
    return vt_machine_marks(m, v->marks, 4, &v->marks_count) == VT_OK && vt_machine_wait(m, 1, &v->wait) == VT_OK &&
           vt_machine_display(m, &v->display) == VT_OK && vt_machine_console(m, 1, &v->console) == VT_OK &&
           vt_machine_row(m, 1, 0, v->machine_cells, COLS) == VT_OK &&
           vt_machine_cells(m, 1, v->machine_all, ROWS * COLS) == VT_OK &&
           vt_machine_redraw(m, 1, v->machine_redraw, TEXT, &v->machine_redraw_length) == VT_OK &&
           vt_machine_redraw_changes(m, 1, blanks, ROWS * COLS, COLS, v->machine_changes, TEXT,
                                     &v->machine_changes_length) == VT_OK &&
           vt_machine_redraw_near(m, 1, v->machine_near, TEXT, &v->machine_near_length) == VT_OK &&
           vt_machine_redraw_changes_near(m, 1, blanks, ROWS * COLS, COLS, v->machine_changes_near, TEXT,
                                          &v->machine_changes_near_length) == VT_OK &&
           vt_machine_picture(m, 1, v->machine_picture, PICTURE, &v->machine_picture_length) == VT_OK &&
           vt_machine_entry(m, 1, v->entry, TEXT, &v->entry_length) == VT_OK &&
           vt_machine_journal(m, v->journal, TEXT, &v->journal_length) == VT_OK;
}

/* Whether every call returned VT_OK. */
static bool read_all(const struct vt_screen *s, const struct vt_keys *k, struct view *v)
{
    memset(v, 0, sizeof *v);
    return read_machine(&machine, v) && vt_keys_pairs(k, v->pairs, 1, &v->pairs_count) == VT_OK &&
           vt_screen_state(s, &v->state) == VT_OK && vt_screen_cell(s, 1, 2, &v->cell) == VT_OK &&
           vt_screen_row(s, 1, v->cells, COLS) == VT_OK && vt_screen_palette(s, v->colours, 16) == VT_OK &&
           vt_screen_changed(s, v->changed, ROWS) == VT_OK &&
           vt_screen_row_text(s, 1, v->row, sizeof v->row, &v->row_length) == VT_OK &&
           vt_screen_redraw(s, v->redraw, TEXT, &v->redraw_length) == VT_OK &&
           vt_screen_redraw_changes(s, v->changes, TEXT, &v->changes_length) == VT_OK &&
           vt_screen_cells(s, v->all, ROWS * COLS) == VT_OK && vt_screen_left_out(s, &v->left_out) == VT_OK &&
           vt_screen_redraw_near(s, v->near, TEXT, &v->near_length) == VT_OK &&
           vt_screen_redraw_changes_near(s, v->changes_near, TEXT, &v->changes_near_length) == VT_OK &&
           vt_screen_picture(s, v->picture, PICTURE, &v->picture_length) == VT_OK &&
           vt_keys_string(k, 0, v->string, sizeof v->string, &v->string_length) == VT_OK &&
           vt_keys_entry(k, 0, 30, &v->action) == VT_OK && vt_keys_keycode(k, 30, &v->keycode) == VT_OK;
}

static void *run(void *count)
{
    struct view *own = malloc(sizeof *own);
    long *wrong = count;
    for (long i = 0; own && i < turns; i++)
        *wrong += !read_all(&screen, &keys, own) || memcmp(own, &first, sizeof first) != 0;
    *wrong += !own;
    free(own);
    return NULL;
}

static void make_machine(void)
{
    static const struct vt_start start = { .consoles = 1 << 1 | 1 << 2, .bytes = 1 << 20, .events = 100, .rows = ROWS,
                                           .cols = COLS, .front = 1, .keyboards = 1 };
    static const struct vt_seat seats[] = { { .home = 1, .privileged = 1 } };
    static const uint16_t console[] = { 1 }, descriptor[] = { 0 }, other[] = { 0, 2 };
    static const uint8_t text[] = "one \033[32mtwo";
    struct vt_fault fault;
    struct vt_reply reply;
    WANT(vt_machine_new(&machine, &start, seats, 1, NULL, 0, &fault) == VT_OK);
    WANT(vt_machine_call(&machine, 1, "open", console, 1, NULL, 0, &reply, NULL, 0) == VT_OK);
    WANT(vt_machine_call(&machine, 1, "write", descriptor, 1, text, sizeof text - 1, &reply, NULL, 0) == VT_OK);
    WANT(vt_machine_call(&machine, 1, "activate", other, 2, NULL, 0, &reply, NULL, 0) == VT_OK);
}

int main(int count, char **words)
{
    static const uint8_t map[] = "keycode 30 = a\nkeycode 59 = F1\nstring F1 = \"one\"\ncompose '`' 'a' to 'x'\n";
    static const uint8_t text[] = "one\r\n \033[1;31mtwo\xE4\xB8\xAD\033[0m", more[] = "\033[4;4Hthree";
    pthread_t readers[THREADS];
    long wrong[THREADS] = { 0 };
    struct vt_fault fault;
    if (count > 1)
        turns = atol(words[1]);
    WANT(vt_screen_new(&screen, ROWS, COLS) == VT_OK && vt_screen_write(&screen, text, sizeof text - 1) == VT_OK);
    WANT(vt_screen_mark(&screen) == VT_OK && vt_screen_write(&screen, more, sizeof more - 1) == VT_OK);
    WANT(vt_keys_new(&keys, map, sizeof map - 1, NULL, 0, &fault) == VT_OK);
    make_machine();
    WANT(read_all(&screen, &keys, &first) && first.marks_count == 2 && first.entry_length > 0);
    for (int i = 0; i < THREADS; i++)
        if (pthread_create(&readers[i], NULL, run, &wrong[i]))
            return 2;
    for (int i = 0; i < THREADS; i++) {
        pthread_join(readers[i], NULL);
        WANT(wrong[i] == 0);
    }
    vt_screen_free(&screen);
    vt_keys_free(&keys);
    vt_machine_free(&machine);
    return ended();
}
