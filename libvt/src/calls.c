/* The calls of vt.h that the proved code has in another form. All other calls are the proved ones themselves.
 *
 * - A call that takes a `const` handle only reads. The proved call takes a loan: a handle of its own, here a copy of
 *   the handle on this call's stack. It gives the loan back as it was, so nothing of the caller's handle is written,
 *   and any number of such calls may run at once. No loan is kept, and each goes to one call.
 * - The proved calls want pointers that aren't null, also if the length is 0. They get an address that nobody follows.
 * - The proved calls have the pairs of compose keys as bytes: four for each number, the lowest first, as on x86-64.
 *   More than 256 pairs are 257 there, so that the number of bytes doesn't overflow.
 * - The proved calls have the name of a call as its bytes and their number: strlen counts them.
 *
 * Nothing else is done here. */
#include "vt.h"

#include <string.h>

enum { MOST_PAIRS = 256 };

/* The proved calls that want pointers that aren't null. */
uint8_t vt_nonnull_screen_feed(struct vt_screen *s, const uint8_t *bytes, size_t n, struct vt_out *outs, size_t room,
                               struct vt_fed *fed);
uint8_t vt_nonnull_screen_feed_rows(struct vt_screen *s, const uint8_t *bytes, size_t n, struct vt_out *outs,
                                    size_t room, struct vt_cell *cells, size_t cells_room, struct vt_fed *fed);
uint8_t vt_nonnull_screen_write(struct vt_screen *s, const uint8_t *bytes, size_t n);
uint8_t vt_nonnull_keys_new(struct vt_keys *k, const uint8_t *text, size_t n, const struct vt_text *texts, size_t count,
                            struct vt_fault *fault);
uint8_t vt_nonnull_keys_set_string(struct vt_keys *k, uint32_t number, const uint8_t *text, size_t n);
uint8_t vt_nonnull_keys_set_pairs(struct vt_keys *k, const uint8_t *bytes, size_t n);

uint8_t vt_nonnull_machine_new(struct vt_machine *m, const struct vt_start *start, const struct vt_seat *seats,
                               size_t count, const uint8_t *keymap, size_t n, struct vt_fault *fault);
uint8_t vt_nonnull_machine_call(struct vt_machine *m, uint32_t caller, const uint8_t *name, size_t length,
                                const uint16_t *numbers, size_t count, const uint8_t *held, size_t n,
                                struct vt_reply *reply, uint8_t *bytes, size_t room);

/* The proved calls that take a loan. A loan is laid out as a handle is. */
uint8_t vt_lent_screen_state(struct vt_screen *loan, struct vt_state *state);
uint8_t vt_lent_screen_cell(struct vt_screen *loan, uint32_t row, uint32_t col, struct vt_cell *cell);
uint8_t vt_lent_screen_row(struct vt_screen *loan, uint32_t row, struct vt_cell *cells, size_t room);
uint8_t vt_lent_screen_cells(struct vt_screen *loan, struct vt_cell *cells, size_t room);
uint8_t vt_lent_screen_row_text(struct vt_screen *loan, uint32_t row, uint8_t *text, size_t room, size_t *length);
uint8_t vt_lent_screen_changed(struct vt_screen *loan, uint8_t *rows, size_t room);
uint8_t vt_lent_screen_palette(struct vt_screen *loan, struct vt_colour *colours, size_t room);
uint8_t vt_lent_screen_redraw(struct vt_screen *loan, uint8_t *text, size_t room, size_t *length);
uint8_t vt_lent_screen_redraw_changes(struct vt_screen *loan, uint8_t *text, size_t room, size_t *length);
uint8_t vt_lent_screen_redraw_near(struct vt_screen *loan, uint8_t *text, size_t room, size_t *length);
uint8_t vt_lent_screen_redraw_changes_near(struct vt_screen *loan, uint8_t *text, size_t room, size_t *length);
uint8_t vt_lent_screen_left_out(struct vt_screen *loan, uint32_t *parts);
uint8_t vt_lent_screen_picture(struct vt_screen *loan, uint8_t *text, size_t room, size_t *length);
uint8_t vt_lent_keys_string(struct vt_keys *loan, uint32_t number, uint8_t *text, size_t room, size_t *length);
uint8_t vt_lent_keys_entry(struct vt_keys *loan, uint32_t table, uint32_t keycode, struct vt_action *action);
uint8_t vt_lent_keys_keycode(struct vt_keys *loan, uint32_t scan, uint32_t *keycode);
uint8_t vt_lent_keys_pairs(struct vt_keys *loan, uint8_t *bytes, size_t room, size_t *length);
uint8_t vt_lent_machine_marks(struct vt_machine *loan, struct vt_mark *marks, size_t room, size_t *count);
uint8_t vt_lent_machine_wait(struct vt_machine *loan, uint32_t caller, uint8_t *wait);
uint8_t vt_lent_machine_display(struct vt_machine *loan, struct vt_display *display);
uint8_t vt_lent_machine_console(struct vt_machine *loan, uint32_t n, struct vt_console *console);
uint8_t vt_lent_machine_row(struct vt_machine *loan, uint32_t n, uint32_t row, struct vt_cell *cells, size_t room);
uint8_t vt_lent_machine_cells(struct vt_machine *loan, uint32_t n, struct vt_cell *cells, size_t room);
uint8_t vt_lent_machine_redraw(struct vt_machine *loan, uint32_t n, uint8_t *text, size_t room, size_t *length);
uint8_t vt_lent_machine_redraw_changes(struct vt_machine *loan, uint32_t n, const struct vt_cell *shown, size_t count,
                                       uint32_t cols, uint8_t *text, size_t room, size_t *length);
uint8_t vt_lent_machine_redraw_near(struct vt_machine *loan, uint32_t n, uint8_t *text, size_t room, size_t *length);
uint8_t vt_lent_machine_redraw_changes_near(struct vt_machine *loan, uint32_t n, const struct vt_cell *shown,
                                            size_t count, uint32_t cols, uint8_t *text, size_t room, size_t *length);
uint8_t vt_lent_machine_picture(struct vt_machine *loan, uint32_t n, uint8_t *text, size_t room, size_t *length);
uint8_t vt_lent_machine_entry(struct vt_machine *loan, uint32_t index, uint8_t *text, size_t room, size_t *length);
uint8_t vt_lent_machine_journal(struct vt_machine *loan, uint8_t *text, size_t room, size_t *length);

/* A place for pointers without a length, at an address that every type may have. */
static max_align_t nowhere;

static const void *read_at(const void *at)
{
    return at ? at : &nowhere;
}

static void *written_at(void *at)
{
    return at ? at : &nowhere;
}

uint32_t vt_version(void)
{
    return VT_VERSION;
}

uint8_t vt_screen_feed(struct vt_screen *s, const uint8_t *bytes, size_t n, struct vt_out *outs, size_t room,
                       struct vt_fed *fed)
{
    return vt_nonnull_screen_feed(s, read_at(bytes), n, written_at(outs), room, fed);
}

uint8_t vt_screen_feed_rows(struct vt_screen *s, const uint8_t *bytes, size_t n, struct vt_out *outs, size_t room,
                            struct vt_cell *cells, size_t cells_room, struct vt_fed *fed)
{
    return vt_nonnull_screen_feed_rows(s, read_at(bytes), n, written_at(outs), room, written_at(cells), cells_room,
                                       fed);
}

uint8_t vt_screen_write(struct vt_screen *s, const uint8_t *bytes, size_t n)
{
    return vt_nonnull_screen_write(s, read_at(bytes), n);
}

uint8_t vt_screen_state(const struct vt_screen *s, struct vt_state *state)
{
    struct vt_screen loan = *s;
    return vt_lent_screen_state(&loan, state);
}

uint8_t vt_screen_cell(const struct vt_screen *s, uint32_t row, uint32_t col, struct vt_cell *cell)
{
    struct vt_screen loan = *s;
    return vt_lent_screen_cell(&loan, row, col, cell);
}

uint8_t vt_screen_row(const struct vt_screen *s, uint32_t row, struct vt_cell *cells, size_t room)
{
    struct vt_screen loan = *s;
    return vt_lent_screen_row(&loan, row, written_at(cells), room);
}

uint8_t vt_screen_cells(const struct vt_screen *s, struct vt_cell *cells, size_t room)
{
    struct vt_screen loan = *s;
    return vt_lent_screen_cells(&loan, written_at(cells), room);
}

uint8_t vt_screen_row_text(const struct vt_screen *s, uint32_t row, uint8_t *text, size_t room, size_t *length)
{
    struct vt_screen loan = *s;
    return vt_lent_screen_row_text(&loan, row, written_at(text), room, length);
}

uint8_t vt_screen_changed(const struct vt_screen *s, uint8_t *rows, size_t room)
{
    struct vt_screen loan = *s;
    return vt_lent_screen_changed(&loan, written_at(rows), room);
}

uint8_t vt_screen_palette(const struct vt_screen *s, struct vt_colour *colours, size_t room)
{
    struct vt_screen loan = *s;
    return vt_lent_screen_palette(&loan, written_at(colours), room);
}

uint8_t vt_screen_redraw(const struct vt_screen *s, uint8_t *text, size_t room, size_t *length)
{
    struct vt_screen loan = *s;
    return vt_lent_screen_redraw(&loan, written_at(text), room, length);
}

uint8_t vt_screen_redraw_changes(const struct vt_screen *s, uint8_t *text, size_t room, size_t *length)
{
    struct vt_screen loan = *s;
    return vt_lent_screen_redraw_changes(&loan, written_at(text), room, length);
}

uint8_t vt_screen_redraw_near(const struct vt_screen *s, uint8_t *text, size_t room, size_t *length)
{
    struct vt_screen loan = *s;
    return vt_lent_screen_redraw_near(&loan, written_at(text), room, length);
}

uint8_t vt_screen_redraw_changes_near(const struct vt_screen *s, uint8_t *text, size_t room, size_t *length)
{
    struct vt_screen loan = *s;
    return vt_lent_screen_redraw_changes_near(&loan, written_at(text), room, length);
}

uint8_t vt_screen_left_out(const struct vt_screen *s, uint32_t *parts)
{
    struct vt_screen loan = *s;
    return vt_lent_screen_left_out(&loan, parts);
}

uint8_t vt_screen_picture(const struct vt_screen *s, uint8_t *text, size_t room, size_t *length)
{
    struct vt_screen loan = *s;
    return vt_lent_screen_picture(&loan, written_at(text), room, length);
}

uint8_t vt_keys_new(struct vt_keys *k, const uint8_t *text, size_t n, const struct vt_text *texts, size_t count,
                    struct vt_fault *fault)
{
    return vt_nonnull_keys_new(k, read_at(text), n, read_at(texts), count, fault);
}

uint8_t vt_keys_string(const struct vt_keys *k, uint32_t number, uint8_t *text, size_t room, size_t *length)
{
    struct vt_keys loan = *k;
    return vt_lent_keys_string(&loan, number, written_at(text), room, length);
}

uint8_t vt_keys_set_string(struct vt_keys *k, uint32_t number, const uint8_t *text, size_t n)
{
    return vt_nonnull_keys_set_string(k, number, read_at(text), n);
}

uint8_t vt_keys_entry(const struct vt_keys *k, uint32_t table, uint32_t keycode, struct vt_action *action)
{
    struct vt_keys loan = *k;
    return vt_lent_keys_entry(&loan, table, keycode, action);
}

uint8_t vt_keys_keycode(const struct vt_keys *k, uint32_t scan, uint32_t *keycode)
{
    struct vt_keys loan = *k;
    return vt_lent_keys_keycode(&loan, scan, keycode);
}

/* The bytes of so many pairs, as far as there may be any. */
static size_t bytes_of(size_t pairs)
{
    return (pairs <= MOST_PAIRS ? pairs : MOST_PAIRS + 1) * sizeof(struct vt_pair);
}

uint8_t vt_keys_pairs(const struct vt_keys *k, struct vt_pair *pairs, size_t room, size_t *count)
{
    struct vt_keys loan = *k;
    size_t length;
    uint8_t code = vt_lent_keys_pairs(&loan, written_at(pairs), bytes_of(room), &length);
    if (code == VT_OK || code == VT_NO_ROOM)
        *count = length / sizeof *pairs;
    return code;
}

uint8_t vt_keys_set_pairs(struct vt_keys *k, const struct vt_pair *pairs, size_t count)
{
    return vt_nonnull_keys_set_pairs(k, read_at(pairs), bytes_of(count));
}

uint8_t vt_machine_new(struct vt_machine *m, const struct vt_start *start, const struct vt_seat *seats, size_t count,
                       const uint8_t *keymap, size_t n, struct vt_fault *fault)
{
    return vt_nonnull_machine_new(m, start, read_at(seats), count, read_at(keymap), n, fault);
}

uint8_t vt_machine_call(struct vt_machine *m, uint32_t caller, const char *name, const uint16_t *numbers, size_t count,
                        const uint8_t *held, size_t n, struct vt_reply *reply, uint8_t *bytes, size_t room)
{
    return vt_nonnull_machine_call(m, caller, (const uint8_t *)name, strlen(name), read_at(numbers), count,
                                   read_at(held), n, reply, written_at(bytes), room);
}

uint8_t vt_machine_marks(const struct vt_machine *m, struct vt_mark *marks, size_t room, size_t *count)
{
    struct vt_machine loan = *m;
    return vt_lent_machine_marks(&loan, written_at(marks), room, count);
}

uint8_t vt_machine_wait(const struct vt_machine *m, uint32_t caller, uint8_t *wait)
{
    struct vt_machine loan = *m;
    return vt_lent_machine_wait(&loan, caller, wait);
}

uint8_t vt_machine_display(const struct vt_machine *m, struct vt_display *display)
{
    struct vt_machine loan = *m;
    return vt_lent_machine_display(&loan, display);
}

uint8_t vt_machine_console(const struct vt_machine *m, uint32_t n, struct vt_console *console)
{
    struct vt_machine loan = *m;
    return vt_lent_machine_console(&loan, n, console);
}

uint8_t vt_machine_row(const struct vt_machine *m, uint32_t n, uint32_t row, struct vt_cell *cells, size_t room)
{
    struct vt_machine loan = *m;
    return vt_lent_machine_row(&loan, n, row, written_at(cells), room);
}

uint8_t vt_machine_cells(const struct vt_machine *m, uint32_t n, struct vt_cell *cells, size_t room)
{
    struct vt_machine loan = *m;
    return vt_lent_machine_cells(&loan, n, written_at(cells), room);
}

uint8_t vt_machine_redraw(const struct vt_machine *m, uint32_t n, uint8_t *text, size_t room, size_t *length)
{
    struct vt_machine loan = *m;
    return vt_lent_machine_redraw(&loan, n, written_at(text), room, length);
}

uint8_t vt_machine_redraw_changes(const struct vt_machine *m, uint32_t n, const struct vt_cell *shown, size_t count,
                                  uint32_t cols, uint8_t *text, size_t room, size_t *length)
{
    struct vt_machine loan = *m;
    return vt_lent_machine_redraw_changes(&loan, n, read_at(shown), count, cols, written_at(text), room, length);
}

uint8_t vt_machine_redraw_near(const struct vt_machine *m, uint32_t n, uint8_t *text, size_t room, size_t *length)
{
    struct vt_machine loan = *m;
    return vt_lent_machine_redraw_near(&loan, n, written_at(text), room, length);
}

uint8_t vt_machine_redraw_changes_near(const struct vt_machine *m, uint32_t n, const struct vt_cell *shown,
                                       size_t count, uint32_t cols, uint8_t *text, size_t room, size_t *length)
{
    struct vt_machine loan = *m;
    return vt_lent_machine_redraw_changes_near(&loan, n, read_at(shown), count, cols, written_at(text), room, length);
}

uint8_t vt_machine_picture(const struct vt_machine *m, uint32_t n, uint8_t *text, size_t room, size_t *length)
{
    struct vt_machine loan = *m;
    return vt_lent_machine_picture(&loan, n, written_at(text), room, length);
}

uint8_t vt_machine_entry(const struct vt_machine *m, uint32_t index, uint8_t *text, size_t room, size_t *length)
{
    struct vt_machine loan = *m;
    return vt_lent_machine_entry(&loan, index, written_at(text), room, length);
}

uint8_t vt_machine_journal(const struct vt_machine *m, uint8_t *text, size_t room, size_t *length)
{
    struct vt_machine loan = *m;
    return vt_lent_machine_journal(&loan, written_at(text), room, length);
}
