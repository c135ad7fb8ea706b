/* Each code of each call on a machine that is made, by the rules of vt.h. What is answered comes from
 * docs/reference/switching.md ("The table of calls"), the texts from docs/reference/journal.md. */
#include "machine_calls.h"

/* Each kind of an answer. */
static void try_answers(void)
{
    WANT(make(&START, SEATS, 3) == VT_OK);
    WANT(call(1, "open", N(1), NULL) == VT_OK && is_number(0));
    WANT(call(1, "open", N(0), NULL) == VT_OK && is_number(1));
    WANT(call(1, "close", N(1), NULL) == VT_OK && is_done());
    WANT(call(1, "close", N(1), NULL) == VT_OK && is_error(EBADF));
    WANT(call(1, "open", N(64), NULL) == VT_OK && is_error(ENXIO));
    WANT(call(1, "activate", N(0, 2), NULL) == VT_OK && is_done());
    WANT(call(2, "open", N(1), NULL) == VT_OK && call(2, "activate", N(0, 1), NULL) == VT_OK && is_done());
    WANT(call(3, "open", N(1), NULL) == VT_OK && call(3, "activate", N(0, 2), NULL) == VT_OK && is_error(EPERM));
    WANT(call(1, "getstate", NULL, 0, NULL) == VT_RANGE && call(1, "getstate", N(0), NULL) == VT_OK);
    WANT(is_reply((struct vt_reply){ .kind = VT_REPLY_STATE, .number = 1, .mask = 1 << 1 | 1 << 2 }));
    WANT(call(1, "read", N(0, 64), NULL) == VT_OK && is_error(EAGAIN));
    WANT(call(1, "write", N(0), "hi\033[6n") == VT_OK && is_number(6));
    bytes[6] = 77;
    WANT(call(1, "read", N(0, 64), NULL) == VT_OK && is_bytes("\033[1;3R", 6) && bytes[6] == 77);
    WANT(call(1, "getmode", N(0), NULL) == VT_OK && is_reply((struct vt_reply){ .kind = VT_REPLY_MODE }));
    WANT(call(1, "setmode", N(0, 1, 2, 10, 12, 3), NULL) == VT_OK && is_done());
    WANT(call(1, "getmode", N(0), NULL) == VT_OK);
    WANT(is_reply((struct vt_reply){ .kind = VT_REPLY_MODE, .words = { 1, 2, 10, 12, 3 } }));
    WANT(call(1, "getent", N(0, 0, 30), NULL) == VT_OK);
    WANT(is_reply((struct vt_reply){ .kind = VT_REPLY_ACT, .words = { 2, 97 } })); /* (a letter, a) */
    WANT(call(1, "getent", N(0, 9, 30), NULL) == VT_OK);
    WANT(is_reply((struct vt_reply){ .kind = VT_REPLY_ACT, .words = { VT_ACTION_NO_TABLE } }));
    WANT(call(2, "kill", N(1, 64), NULL) == VT_OK && is_done());
    WANT(call(1, "signals", NULL, 0, NULL) == VT_OK);
    WANT(is_reply((struct vt_reply){ .kind = VT_REPLY_SIGS, .mask = 1ull << 63 }));
    WANT(call(0, "scan", NULL, 0, "\x1e") == VT_OK && is_done());
    WANT(call(1, "read", N(0, 64), NULL) == VT_OK && is_bytes("a", 1));
    WANT(call(64, "open", N(1), NULL) == VT_OK && is_error(ESRCH)); /* (no process of the start) */
    WANT(call(67, "exit", NULL, 0, NULL) == VT_OK && is_error(ESRCH));
    WANT(call(0, "open", N(1), NULL) == VT_OK && is_error(ENOTTY));
}

/* The machine of try_answers: callers, names and words that are none. Nothing is entered. */
static void try_words(void)
{
    static const uint16_t seven[7] = { 0 };
    uint32_t entries = display().entries;
    static const char *const names[] = { "", "ope", "openn", "OPEN", "open ", "wait", "scan " };
    for (size_t i = 0; i < sizeof names / sizeof *names; i++)
        WANT(call(1, names[i], N(1), NULL) == VT_RANGE && reply.kind == 99);
    WANT(call(68, "open", N(1), NULL) == VT_RANGE && call(UINT32_MAX, "open", N(1), NULL) == VT_RANGE);
    WANT(call(1, "open", NULL, 0, NULL) == VT_RANGE && call(1, "open", N(1, 2), NULL) == VT_RANGE);
    WANT(call(1, "setmode", seven, 5, NULL) == VT_RANGE && call(1, "setmode", seven, 7, NULL) == VT_RANGE);
    WANT(call(1, "open", N(1), "x") == VT_RANGE && call(1, "exit", NULL, 0, "x") == VT_RANGE);
    WANT(call(0, "scan", NULL, 0, NULL) == VT_RANGE && call(0, "scan", NULL, 0, "\x1e\x1f") == VT_RANGE);
    WANT(call(0, "scan", N(30), NULL) == VT_RANGE);
    WANT(display().entries == entries);
    WANT(call(1, "write", N(0), NULL) == VT_OK && is_number(0)); /* (no bytes) */
    WANT(display().entries == entries + 1);
    vt_machine_free(&m);
}

/* The room that an answer may need: min(M, 4,096) for `read`, 260,100 for `dump 2`, 255 for `getfunc`. */
static void try_room(void)
{
    WANT(make(&START, SEATS, 3) == VT_OK && call(2, "open", N(1), NULL) == VT_OK);
    const struct {
        const char *name;
        uint16_t numbers[2];
        size_t most;
    } rows[] = { { "read", { 0, 64 }, 64 },   { "read", { 0, 5000 }, 4096 },     { "getfunc", { 0, 0 }, 255 },
                 { "dump", { 0, 1 }, 65025 }, { "dump", { 1, 1 }, 130054 }, { "dump", { 2, 1 }, 260100 } };
    for (size_t i = 0; i < sizeof rows / sizeof *rows; i++) {
        uint32_t entries = display().entries;
        reply.kind = 99, bytes[0] = 77;
        WANT(vt_machine_call(&m, 2, rows[i].name, rows[i].numbers, 2, NULL, 0, &reply, bytes, rows[i].most - 1) ==
             VT_NO_ROOM);
        WANT(reply.kind == 99 && bytes[0] == 77 && display().entries == entries);
        WANT(vt_machine_call(&m, 2, rows[i].name, rows[i].numbers, 2, NULL, 0, &reply, bytes, rows[i].most) == VT_OK);
        WANT(display().entries == entries + 1);
    }
    /* code points of 3 rows and 10 columns, in four bytes each */
    WANT(reply.kind == VT_REPLY_BYTES && reply.length == 3 * 10 * 4 && memcmp(bytes, "\x20\0\0\0", 4) == 0);
    WANT(vt_machine_call(&m, 2, "getstate", N(0), NULL, 0, &reply, NULL, 0) == VT_OK);
    vt_machine_free(&m);
}

/* A journal that is full, by entries and by charges: 64, with a byte more for each that is written. */
static void try_full(void)
{
    struct vt_start s = START;
    s.events = 2;
    WANT(make(&s, SEATS, 3) == VT_OK);
    WANT(call(1, "open", N(1), NULL) == VT_OK && call(1, "open", N(1), NULL) == VT_OK && is_number(1));
    WANT(call(1, "open", N(1), NULL) == VT_FULL && reply.kind == 99);
    WANT(vt_machine_call(&m, 1, "read", N(0, 9), NULL, 0, &reply, bytes, 8) == VT_NO_ROOM && reply.kind == 99);
    WANT(is_journal("%journal 2\np1 0 open 1 = num 0\np1 1 open 1 = num 1\n%end 2 128\n"));
    WANT(vt_machine_forget(&m) == VT_OK && display().entries == 0 && display().gone == 2);
    WANT(is_journal("%journal 2\n%end 0 0\n"));
    WANT(call(1, "open", N(1), NULL) == VT_OK && is_number(2)); /* (the refused one opened nothing) */
    WANT(is_journal("%journal 2\np1 2 open 1 = num 2\n%end 1 64\n"));
    vt_machine_free(&m);
    s = START, s.bytes = 64 + 67;
    WANT(make(&s, SEATS, 3) == VT_OK && call(1, "open", N(1), NULL) == VT_OK);
    WANT(call(1, "write", N(0), "four") == VT_FULL && call(1, "write", N(0), "one") == VT_OK);
    WANT(call(1, "exit", NULL, 0, NULL) == VT_FULL);
    WANT(is_journal("%journal 2\np1 0 open 1 = num 0\np1 1 write 0 6f6e65 = num 3\n%end 2 131\n"));
    vt_machine_free(&m);
}

/* A handshake: what each call caused, and the display. */
static void try_handshake(void)
{
    static const struct vt_mark asked = { .kind = VT_MARK_ASKED, .a = 2 };
    static const struct vt_mark raised = { .kind = VT_MARK_RAISED, .a = 1, .b = 10 };
    static const struct vt_mark hopped = { .kind = VT_MARK_HOPPED, .a = 1, .b = 2, .cause = 1 };
    struct vt_mark marks[3];
    struct vt_display shown;
    size_t count = 9;
    WANT(make(&START, SEATS, 3) == VT_OK);
    WANT(vt_machine_marks(&m, marks, 3, &count) == VT_OK && count == 0);
    call(1, "open", N(1), NULL), call(1, "setmode", N(0, 1, 0, 10, 12, 0), NULL);
    call(2, "open", N(2), NULL), call(2, "activate", N(0, 2), NULL);
    memset(marks, 99, sizeof marks);
    WANT(vt_machine_marks(&m, marks, 3, &count) == VT_OK && count == 2 && marks[2].kind == 99);
    WANT(memcmp(&marks[0], &asked, sizeof asked) == 0 && memcmp(&marks[1], &raised, sizeof raised) == 0);
    memset(marks, 99, sizeof marks);
    WANT(vt_machine_marks(&m, marks, 1, &count) == VT_OK && count == 2 && marks[1].kind == 99);
    WANT(vt_machine_marks(&m, NULL, 0, &count) == VT_OK && count == 2);
    shown = display();
    WANT(shown.front == 1 && shown.pending == 2 && shown.hops == 0 && shown.locked == 0 && shown.entries == 4);
    call(1, "reldisp", N(0, 1), NULL);
    WANT(vt_machine_marks(&m, marks, 3, &count) == VT_OK && count == 1);
    WANT(memcmp(&marks[0], &hopped, sizeof hopped) == 0);
    shown = display();
    WANT(shown.front == 2 && shown.pending == 0 && shown.hops == 1);
    call(2, "lock", N(0), NULL);
    WANT(display().locked == 1 && display().gone == 0);
    call(2, "unlock", N(0), NULL);
    /* nobody had to let console 2 go; then the owner of console 1 dies while 2 is pending */
    call(2, "activate", N(0, 1), NULL), vt_machine_marks(&m, marks, 3, &count);
    static const struct vt_mark freed = { .kind = VT_MARK_HOPPED, .a = 2, .b = 1 };
    WANT(count == 3 && marks[0].a == 1 && memcmp(&marks[1], &freed, sizeof freed) == 0);
    WANT(marks[2].kind == VT_MARK_RAISED && marks[2].a == 1 && marks[2].b == 12);
    call(2, "activate", N(0, 2), NULL), call(2, "kill", N(1, 9), NULL);
    static const struct vt_mark ended = { .kind = VT_MARK_ENDED, .a = 1 };
    static const struct vt_mark died = { .kind = VT_MARK_HOPPED, .a = 1, .b = 2, .cause = 128 + 1 };
    WANT(vt_machine_marks(&m, marks, 3, &count) == VT_OK && count == 2);
    WANT(memcmp(&marks[0], &ended, sizeof ended) == 0 && memcmp(&marks[1], &died, sizeof died) == 0);
    vt_machine_free(&m);
}

static void try_waits(void)
{
    uint8_t wait = 9;
    WANT(make(&START, SEATS, 3) == VT_OK);
    WANT(vt_machine_wait(&m, 68, &wait) == VT_RANGE && wait == 9);
    WANT(vt_machine_wait(&m, 1, &wait) == VT_OK && wait == VT_WAIT_NONE);
    WANT(vt_machine_wait(&m, 67, &wait) == VT_OK && wait == VT_WAIT_NONE);
    WANT(call(1, "waitend", NULL, 0, NULL) == VT_OK && is_error(EINVAL));
    call(1, "open", N(1), NULL);
    WANT(call(1, "waitinput", N(0), NULL) == VT_OK && is_reply((struct vt_reply){ .kind = VT_REPLY_WAIT }));
    WANT(vt_machine_wait(&m, 1, &wait) == VT_OK && wait == VT_WAIT_OPEN);
    WANT(call(1, "waitend", NULL, 0, NULL) == VT_OK && is_error(EAGAIN));
    WANT(call(1, "getstate", N(0), NULL) == VT_OK && is_error(EINVAL));
    call(0, "scan", NULL, 0, "\x1e");
    WANT(vt_machine_wait(&m, 1, &wait) == VT_OK && wait == VT_WAIT_DONE);
    WANT(call(1, "waitend", NULL, 0, NULL) == VT_OK && is_done());
    WANT(vt_machine_wait(&m, 1, &wait) == VT_OK && wait == VT_WAIT_NONE);
    WANT(call(1, "waitsignal", NULL, 0, NULL) == VT_OK && call(2, "kill", N(1, 10), NULL) == VT_OK);
    WANT(vt_machine_wait(&m, 1, &wait) == VT_OK && wait == VT_WAIT_BROKEN);
    WANT(call(1, "waitend", NULL, 0, NULL) == VT_OK && is_error(EINTR));
    vt_machine_free(&m);
}

static void try_consoles(void)
{
    struct vt_console found;
    struct vt_cell cells[10];
    WANT(make(&START, SEATS, 3) == VT_OK);
    memset(&found, 99, sizeof found);
    WANT(vt_machine_console(&m, 0, &found) == VT_RANGE && vt_machine_console(&m, 3, &found) == VT_RANGE);
    WANT(vt_machine_console(&m, 64, &found) == VT_RANGE && found.rows == 0x6363);
    call(1, "open", N(1), NULL), call(1, "resize", N(0, 4, 9), NULL);
    call(1, "write", N(0), "one\r\n\033[31mtw\a\a\033[?25l"), call(1, "write", N(0), "\033[6n");
    call(1, "setmode", N(0, 1, 0, 10, 12, 0), NULL), call(1, "setkd", N(0, 1), NULL);
    static const struct vt_console wanted = { .bells = 2, .queued = 6, .rows = 4, .cols = 9, .y = 1, .x = 2, .owner = 1,
                                              .graphics = 1 };
    WANT(vt_machine_console(&m, 1, &found) == VT_OK && memcmp(&found, &wanted, sizeof found) == 0);
    WANT(vt_machine_console(&m, 2, &found) == VT_OK && found.rows == 3 && found.cols == 10 && found.visible == 1);
    memset(cells, 99, sizeof cells);
    WANT(vt_machine_row(&m, 1, 1, cells, 10) == VT_OK && cells[0].code == 't' && cells[1].code == 'w');
    WANT(cells[0].attr == 4 && cells[2].code == ' ' && cells[2].attr == 7 && cells[0].spare[2] == 0); /* (red, grey) */
    WANT(cells[9].attr == 99);                                                                        /* (9 columns) */
    WANT(vt_machine_row(&m, 1, 0, cells, 1) == VT_OK && cells[0].code == 'o' && cells[1].code == 'w');
    WANT(vt_machine_row(&m, 1, 0, NULL, 0) == VT_OK);
    WANT(vt_machine_row(&m, 1, 4, cells, 1) == VT_RANGE && vt_machine_row(&m, 3, 0, cells, 1) == VT_RANGE);
    WANT(vt_machine_row(&m, 0, 0, cells, 1) == VT_RANGE && vt_machine_row(&m, 64, 0, cells, 1) == VT_RANGE);
    WANT(cells[0].code == 'o');
    struct vt_cell all[37];
    memset(all, 99, sizeof all);
    WANT(vt_machine_cells(&m, 1, all, 37) == VT_OK && all[0].code == 'o' && all[9].code == 't' && all[10].code == 'w');
    WANT(all[35].code == ' ' && all[35].spare[0] == 0 && all[36].attr == 99); /* (4 rows of 9 columns) */
    WANT(vt_machine_cells(&m, 1, all + 3, 1) == VT_OK && all[3].code == 'o' && all[4].code == ' ');
    WANT(vt_machine_cells(&m, 1, NULL, 0) == VT_OK);
    WANT(vt_machine_cells(&m, 3, all, 1) == VT_RANGE && vt_machine_cells(&m, 0, all, 1) == VT_RANGE);
    WANT(vt_machine_cells(&m, 64, all, 1) == VT_RANGE && all[0].code == 'o');
    vt_machine_free(&m);
}

/* A redraw makes the same cells on a screen; a screen that no text draws has none. */
static void try_redraw(void)
{
    static uint8_t text[4096];
    struct vt_screen s = { 0 };
    struct vt_cell wanted, found;
    size_t length = 0, again = 0;
    WANT(make(&START, SEATS, 3) == VT_OK);
    call(1, "open", N(1), NULL), call(1, "write", N(0), "\033[1;32mgr\xC3\xBC");
    WANT(vt_machine_redraw(&m, 1, NULL, 0, &length) == VT_NO_ROOM && length > 0 && length < sizeof text);
    WANT(vt_machine_redraw(&m, 1, text, length - 1, &again) == VT_NO_ROOM && again == length && text[0] == 0);
    WANT(vt_machine_redraw(&m, 1, text, length, &again) == VT_OK && again == length);
    WANT(vt_screen_new(&s, 3, 10) == VT_OK && vt_screen_write(&s, text, length) == VT_OK);
    for (uint32_t x = 0; x < 10; x++) {
        struct vt_cell row[10];
        WANT(vt_machine_row(&m, 1, 0, row, 10) == VT_OK && vt_screen_cell(&s, 0, x, &found) == VT_OK);
        wanted = row[x];
        WANT(memcmp(&wanted, &found, sizeof found) == 0);
    }
    vt_screen_free(&s);
    WANT(vt_machine_redraw(&m, 3, text, 9, &again) == VT_RANGE && vt_machine_redraw(&m, 0, text, 9, &again) == VT_RANGE);
    call(1, "write", N(0), "\033%@\033[3h\x01");
    WANT(vt_machine_redraw(&m, 1, text, sizeof text, &again) == VT_NOT_DRAWABLE && again == length);
    vt_machine_free(&m);
}

/* Whether a screen shows the cells of console 1, which has 3 rows of 10 columns. */
static bool shows_console(const struct vt_screen *s)
{
    struct vt_cell shown[30], wanted[30];
    memset(shown, 1, sizeof shown), memset(wanted, 2, sizeof wanted);
    return vt_screen_cells(s, shown, 30) == VT_OK && vt_machine_cells(&m, 1, wanted, 30) == VT_OK &&
           memcmp(shown, wanted, sizeof shown) == 0;
}

/* Two terminals that watch a console: each gets the rows that differ from its own cells. */
static void try_changes(void)
{
    static uint8_t text[4096], other[4096];
    struct vt_screen near = { 0 }, far = { 0 };
    struct vt_cell shown[30], blank[30];
    size_t length = 0, again = 9;
    WANT(make(&START, SEATS, 3) == VT_OK && vt_screen_new(&near, 3, 10) == VT_OK && vt_screen_new(&far, 3, 10) == VT_OK);
    WANT(vt_screen_cells(&far, blank, 30) == VT_OK);
    call(1, "open", N(1), NULL), call(1, "write", N(0), "one\r\n\033[1;32mgr\xC3\xBC");
    WANT(vt_machine_redraw(&m, 1, text, sizeof text, &length) == VT_OK && vt_screen_write(&near, text, length) == VT_OK);
    WANT(shows_console(&near) && !shows_console(&far) && vt_machine_cells(&m, 1, shown, 30) == VT_OK);
    call(1, "write", N(0), "\033[3;4Hthree");
    WANT(vt_machine_redraw_changes(&m, 1, shown, 30, 10, NULL, 0, &length) == VT_NO_ROOM && length < sizeof text);
    WANT(vt_machine_redraw_changes(&m, 1, shown, 30, 10, text, length - 1, &again) == VT_NO_ROOM && again == length);
    WANT(vt_machine_redraw_changes(&m, 1, shown, 30, 10, text, length, &again) == VT_OK && again == length);
    WANT(vt_machine_redraw_changes(&m, 1, blank, 30, 10, other, sizeof other, &again) == VT_OK && again > length);
    WANT(!shows_console(&near) && vt_screen_write(&near, text, length) == VT_OK && shows_console(&near));
    WANT(!shows_console(&far) && vt_screen_write(&far, text, length) == VT_OK && !shows_console(&far));
    WANT(vt_screen_write(&far, other, again) == VT_OK && shows_console(&far));
    WANT(vt_machine_redraw_changes_near(&m, 1, shown, 30, 10, other, sizeof other, &again) == VT_OK && again == length);
    WANT(memcmp(text, other, length) == 0);
    vt_screen_free(&near), vt_screen_free(&far), vt_machine_free(&m);
}

/* Cells of another size, or with a spare byte, are refused; and a console that isn't there, in this order. */
static void try_other_cells(void)
{
    uint8_t text[8] = { 77 };
    struct vt_cell shown[31] = { { .code = 'x' } };
    size_t length = 9;
    WANT(make(&START, SEATS, 3) == VT_OK);
    call(1, "open", N(1), NULL), call(1, "write", N(0), "\033%@\033[3h\x01"); /* (no text draws it) */
    for (int near = 0; near < 2; near++) {
        uint8_t (*const changes)(const struct vt_machine *, uint32_t, const struct vt_cell *, size_t, uint32_t,
                                 uint8_t *, size_t, size_t *) =
            near ? vt_machine_redraw_changes_near : vt_machine_redraw_changes;
        WANT(changes(&m, 0, shown, 30, 10, text, 8, &length) == VT_RANGE);
        WANT(changes(&m, 3, shown, 30, 10, text, 8, &length) == VT_RANGE);
        WANT(changes(&m, 64, shown, 30, 10, text, 8, &length) == VT_RANGE);
        WANT(changes(&m, 1, shown, 31, 10, text, 8, &length) == VT_RANGE);
        WANT(changes(&m, 1, shown, 29, 10, text, 8, &length) == VT_RANGE);
        WANT(changes(&m, 1, shown, 30, 15, text, 8, &length) == VT_RANGE);
        WANT(changes(&m, 1, shown, 30, 266, text, 8, &length) == VT_RANGE); /* (10 in one byte) */
        WANT(changes(&m, 1, NULL, 0, 10, text, 8, &length) == VT_RANGE);
        shown[29].spare[2] = 1;
        WANT(changes(&m, 1, shown, 30, 10, text, 8, &length) == VT_RANGE);
        shown[29].spare[2] = 0;
        WANT(length == 9 && text[0] == 77);
    }
    WANT(vt_machine_redraw_changes(&m, 1, shown, 30, 10, text, 8, &length) == VT_NOT_DRAWABLE && length == 9);
    WANT(vt_machine_redraw_changes_near(&m, 1, shown, 30, 10, text, 8, &length) == VT_NO_ROOM && length > 9);
    WANT(text[0] == 77);
    vt_machine_free(&m);
}

/* The nearest screen of one that no text draws: what isn't a character is U+FFFD in its colours. */
static void try_near(void)
{
    static uint8_t text[4096];
    struct vt_screen s = { 0 };
    struct vt_cell shown[30], again_shown[30];
    size_t length = 0, again = 9;
    WANT(make(&START, SEATS, 3) == VT_OK && vt_screen_new(&s, 3, 10) == VT_OK);
    call(1, "open", N(1), NULL), call(1, "write", N(0), "a\033[31m\033%@\033[3h\x01");
    WANT(vt_machine_redraw_near(&m, 3, text, 9, &again) == VT_RANGE);
    WANT(vt_machine_redraw_near(&m, 0, text, 9, &again) == VT_RANGE && again == 9);
    WANT(vt_machine_redraw_near(&m, 1, NULL, 0, &length) == VT_NO_ROOM && length > 0 && length < sizeof text);
    WANT(vt_machine_redraw_near(&m, 1, text, length - 1, &again) == VT_NO_ROOM && again == length && text[0] == 0);
    WANT(vt_machine_redraw_near(&m, 1, text, length, &again) == VT_OK && again == length);
    WANT(vt_screen_write(&s, text, length) == VT_OK && vt_screen_cells(&s, shown, 30) == VT_OK);
    WANT(shown[0].code == 'a' && shown[1].code == 0xFFFD && shown[1].attr == 4); /* (red) */
    /* A screen that got the same text has the cells of the terminal: no row differs. */
    WANT(vt_machine_redraw_changes_near(&m, 1, shown, 30, 10, text, sizeof text, &again) == VT_OK && again < length);
    WANT(memchr(text, 'a', again) == NULL && vt_screen_write(&s, text, again) == VT_OK);
    WANT(vt_screen_cells(&s, again_shown, 30) == VT_OK && memcmp(shown, again_shown, sizeof shown) == 0);
    vt_screen_free(&s), vt_machine_free(&m);
}

/* The picture of a console is that of a screen that shows the same. */
static void try_picture(void)
{
    static uint8_t text[4096], wanted[16384], found[16384];
    struct vt_screen s = { 0 };
    size_t length = 0, again = 9;
    WANT(make(&START, SEATS, 3) == VT_OK && vt_screen_new(&s, 3, 10) == VT_OK);
    call(1, "open", N(1), NULL), call(1, "write", N(0), "\033[1;32mgr\xC3\xBC\r\n\033[7mb");
    WANT(vt_machine_picture(&m, 3, found, 9, &again) == VT_RANGE);
    WANT(vt_machine_picture(&m, 0, found, 9, &again) == VT_RANGE && again == 9);
    WANT(vt_machine_redraw(&m, 1, text, sizeof text, &length) == VT_OK && vt_screen_write(&s, text, length) == VT_OK);
    WANT(vt_screen_picture(&s, wanted, sizeof wanted, &length) == VT_OK);
    WANT(vt_machine_picture(&m, 1, NULL, 0, &again) == VT_NO_ROOM && again == length);
    WANT(vt_machine_picture(&m, 1, found, length - 1, &again) == VT_NO_ROOM && again == length && found[0] == 0);
    WANT(vt_machine_picture(&m, 1, found, length, &again) == VT_OK && again == length);
    WANT(memcmp(found, wanted, length) == 0);
    vt_screen_free(&s), vt_machine_free(&m);
}

static void try_journal(void)
{
    static const char text[] = "%journal 2\np1 0 open 1 = num 0\nk0 0 scan 1e = ok\np1 1 read 0 8 = bytes 61\n"
                               "p1 2 waitend = err 22\n%end 4 264\n";
    static const char line[] = "k0 0 scan 1e = ok\n";
    uint8_t found[200] = { 77 };
    size_t length = 9;
    WANT(make(&START, SEATS, 3) == VT_OK);
    WANT(vt_machine_entry(&m, 0, found, sizeof found, &length) == VT_RANGE && found[0] == 77 && length == 9);
    call(1, "open", N(1), NULL), call(0, "scan", NULL, 0, "\x1e"), call(1, "read", N(0, 8), NULL);
    call(1, "waitend", NULL, 0, NULL);
    WANT(is_journal(text)); /* (4 times 64, and 8 that `read` may give) */
    WANT(vt_machine_journal(&m, NULL, 0, &length) == VT_NO_ROOM && length == sizeof text - 1);
    WANT(vt_machine_journal(&m, found, length - 1, &length) == VT_NO_ROOM && found[0] == 77);
    WANT(vt_machine_journal(&m, found, length, &length) == VT_OK && length == sizeof text - 1);
    WANT(vt_machine_entry(&m, 1, NULL, 0, &length) == VT_NO_ROOM && length == sizeof line - 1);
    WANT(vt_machine_entry(&m, 1, found, length, &length) == VT_OK && memcmp(found, line, sizeof line - 1) == 0);
    WANT(vt_machine_entry(&m, 4, found, 9, &length) == VT_RANGE);
    WANT(vt_machine_entry(&m, UINT32_MAX, found, 9, &length) == VT_RANGE && length == sizeof line - 1);
    vt_machine_free(&m);
}

int main(void)
{
    try_answers();
    try_words();
    try_room();
    try_full();
    try_handshake();
    try_waits();
    try_consoles();
    try_redraw();
    try_changes();
    try_other_cells();
    try_near();
    try_picture();
    try_journal();
    return ended();
}
