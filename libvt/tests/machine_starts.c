/* The codes of a machine that isn't made, that is being made, or whose processes are given to programs, by the rules of
 * vt.h and docs/library/machine.md. */
#include "machine_calls.h"

static void try_nothing(void)
{
    struct vt_mark mark = { .kind = 9 };
    struct vt_display shown = { .front = 9 };
    struct vt_console console = { .rows = 9 };
    struct vt_cell cell = { .code = 9 };
    uint8_t wait = 9, text[4] = { 9 };
    size_t length = 9;
    WANT(vt_machine_admit(&m, 1, &SEATS[0]) == VT_NOTHING);
    WANT(call(1, "open", N(1), NULL) == VT_NOTHING && reply.kind == 99);
    WANT(vt_machine_forget(&m) == VT_NOTHING);
    WANT(vt_machine_marks(&m, &mark, 1, &length) == VT_NOTHING && mark.kind == 9 && length == 9);
    WANT(vt_machine_wait(&m, 1, &wait) == VT_NOTHING && wait == 9);
    WANT(vt_machine_display(&m, &shown) == VT_NOTHING && shown.front == 9);
    WANT(vt_machine_console(&m, 1, &console) == VT_NOTHING && console.rows == 9);
    WANT(vt_machine_row(&m, 1, 0, &cell, 1) == VT_NOTHING && cell.code == 9);
    WANT(vt_machine_cells(&m, 1, &cell, 1) == VT_NOTHING && cell.code == 9);
    WANT(vt_machine_redraw(&m, 1, text, 4, &length) == VT_NOTHING && text[0] == 9 && length == 9);
    WANT(vt_machine_redraw_changes(&m, 1, NULL, 0, 0, text, 4, &length) == VT_NOTHING && text[0] == 9 && length == 9);
    WANT(vt_machine_redraw_near(&m, 1, text, 4, &length) == VT_NOTHING && text[0] == 9 && length == 9);
    WANT(vt_machine_redraw_changes_near(&m, 1, NULL, 0, 0, text, 4, &length) == VT_NOTHING && length == 9);
    WANT(vt_machine_picture(&m, 1, text, 4, &length) == VT_NOTHING && text[0] == 9 && length == 9);
    WANT(vt_machine_entry(&m, 0, text, 4, &length) == VT_NOTHING && text[0] == 9 && length == 9);
    WANT(vt_machine_journal(&m, text, 4, &length) == VT_NOTHING && text[0] == 9 && length == 9);
    vt_machine_free(&m);
    WANT(m.at == NULL);
}

/* Each number of a start out of its range, and each greatest and least one within. */
static void try_starts(void)
{
    struct vt_start s;
    static const struct vt_seat many[65] = { { .home = 1 } };
#define STARTS(code, ...) (s = START, __VA_ARGS__, WANT(make(&s, SEATS, 3) == (code)), vt_machine_free(&m))
    STARTS(VT_RANGE, s.rows = 0), STARTS(VT_RANGE, s.rows = 256), STARTS(VT_OK, s.rows = 255);
    STARTS(VT_RANGE, s.cols = 0), STARTS(VT_RANGE, s.cols = 256), STARTS(VT_OK, s.cols = 255);
    STARTS(VT_RANGE, s.front = 0), STARTS(VT_RANGE, s.front = 3), STARTS(VT_RANGE, s.front = 64);
    STARTS(VT_OK, s.front = 2);
    STARTS(VT_RANGE, s.consoles |= 1), STARTS(VT_RANGE, s.consoles = 0), STARTS(VT_OK, s.consoles = ~1ull);
    STARTS(VT_RANGE, s.keyboards = 0), STARTS(VT_RANGE, s.keyboards = 5), STARTS(VT_OK, s.keyboards = 4);
    STARTS(VT_RANGE, s.events = 1000001), STARTS(VT_OK, s.events = 1000000), STARTS(VT_OK, s.events = 0);
    STARTS(VT_RANGE, s.bytes = 1073741825), STARTS(VT_OK, s.bytes = 1073741824), STARTS(VT_OK, s.bytes = 0);
    STARTS(VT_RANGE, s.spare[0] = 1), STARTS(VT_RANGE, s.spare[21] = 1);
    struct vt_seat seats[] = { { .home = 64 }, { .home = 1, .privileged = 2 }, { .home = 1, .spare = { [5] = 1 } },
                               { .home = 63, .privileged = 1 } };
    for (int i = 0; i < 4; i++) {
        WANT(make(&START, &seats[i], 1) == (i < 3 ? VT_RANGE : VT_OK));
        vt_machine_free(&m);
    }
    WANT(make(&START, many, 65) == VT_RANGE && make(&START, many, 64) == VT_OK);
    vt_machine_free(&m);
    WANT(make(&START, NULL, 0) == VT_OK && make(&START, NULL, 0) == VT_MADE);
    vt_machine_free(&m);
    vt_machine_free(&m);
    WANT(m.at == NULL);
}

static void try_keymaps(void)
{
    static const uint8_t bad[] = "keymaps 0-1\nkeycode 30 = aogonek\n", includes[] = "include \"one\"\n";
    struct vt_fault fault = { 9, 9, 9, 9 };
    WANT(vt_machine_new(&m, &START, SEATS, 3, bad, sizeof bad - 1, &fault) == VT_FAULT && m.at == NULL);
    WANT(fault.kind == 2 && fault.line == 2 && fault.column == 14 && fault.spare == 0);
    WANT(vt_machine_new(&m, &START, SEATS, 3, includes, sizeof includes - 1, &fault) == VT_FAULT && m.at == NULL);
    WANT(fault.kind == 7 && fault.line == 1 && fault.column == 9);
    WANT(vt_machine_new(&m, &START, SEATS, 3, NULL, 0, &fault) == VT_OK);
    vt_machine_free(&m);
}

/* Processes that are given to programs (docs/library/machine.md). */
static void try_admissions(void)
{
    struct vt_seat seat = { .home = 2 };
    WANT(make(&START, SEATS, 3) == VT_OK);
    WANT(vt_machine_admit(&m, 0, &seat) == VT_RANGE && vt_machine_admit(&m, 4, &seat) == VT_RANGE);
    WANT(vt_machine_admit(&m, 65, &seat) == VT_RANGE && vt_machine_admit(&m, UINT32_MAX, &seat) == VT_RANGE);
    static const struct vt_seat bad[] = { { .home = 64 }, { .privileged = 2 }, { .spare = { 1 } } };
    for (int i = 0; i < 3; i++)
        WANT(vt_machine_admit(&m, 3, &bad[i]) == VT_RANGE);
    /* process 3 had no home: now it is at home on console 2 */
    WANT(vt_machine_admit(&m, 3, &seat) == VT_OK && display().entries == 0);
    WANT(call(3, "open", N(2), NULL) == VT_OK && call(3, "activate", N(0, 2), NULL) == VT_OK && is_done());
    WANT(vt_machine_admit(&m, 3, &seat) == VT_MADE); /* (it has a descriptor) */
    WANT(call(3, "close", N(0), NULL) == VT_OK && vt_machine_admit(&m, 3, &seat) == VT_OK);
    WANT(vt_machine_admit(&m, 3, &SEATS[0]) == VT_MADE); /* (another home) */
    WANT(call(3, "exit", NULL, 0, NULL) == VT_OK && vt_machine_admit(&m, 3, &seat) == VT_MADE);
    vt_machine_free(&m);
}

int main(void)
{
    try_nothing();
    try_starts();
    try_keymaps();
    try_admissions();
    try_nothing();
    return ended();
}
