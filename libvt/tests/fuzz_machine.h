/* Calls on a machine for the fuzzer. Each is compared with vt.h: its codes, what it writes and what it leaves. */
#ifndef FUZZ_MACHINE_H
#define FUZZ_MACHINE_H

#include "fuzz_input.h"
#include <vt.h>

enum { ROOM = 260100, MOST_MARKS = 3072, MOST_ROWS = 40, GONE_ROOM = 1 << 16 };

/* What bytes a call has: none, any number, or one. */
enum { NO_BYTES, ANY_BYTES, ONE_BYTE };

/* The calls (docs/reference/journal.md): the name, how many numbers, its bytes. */
static const struct {
    const char *name;
    uint8_t count, bytes;
} CALLS[] = {
    { "scan", 0, ONE_BYTE },   { "exit", 0, 0 },       { "open", 1, 0 },     { "close", 1, 0 },
    { "write", 1, ANY_BYTES }, { "read", 2, 0 },       { "waitinput", 1, 0 }, { "waitactive", 2, 0 },
    { "waitsignal", 0, 0 },    { "waitend", 0, 0 },    { "activate", 2, 0 }, { "disallocate", 2, 0 },
    { "openqry", 1, 0 },       { "getstate", 1, 0 },   { "resize", 3, 0 },   { "lock", 1, 0 },
    { "unlock", 1, 0 },        { "setkd", 2, 0 },      { "getkd", 1, 0 },    { "setmode", 6, 0 },
    { "getmode", 1, 0 },       { "reldisp", 2, 0 },    { "setkb", 2, 0 },    { "getkb", 1, 0 },
    { "setmeta", 2, 0 },       { "getmeta", 1, 0 },    { "setled", 2, 0 },   { "getled", 1, 0 },
    { "setflags", 2, 0 },      { "getflags", 1, 0 },   { "setent", 5, 0 },   { "getent", 3, 0 },
    { "setfunc", 2, ANY_BYTES }, { "getfunc", 2, 0 },  { "setdia", 1, ANY_BYTES }, { "getdia", 1, 0 },
    { "setcode", 3, 0 },       { "getcode", 2, 0 },    { "accept", 2, 0 },   { "setmap", 1, ANY_BYTES },
    { "getmap", 1, 0 },        { "setpal", 1, ANY_BYTES }, { "getpal", 1, 0 }, { "dump", 2, 0 },
    { "signals", 0, 0 },       { "kill", 2, 0 },
};

enum { CALL_COUNT = sizeof CALLS / sizeof *CALLS };

static struct {
    struct vt_machine at;
    struct vt_start start;
    struct vt_display shown;
    uint32_t processes;
    uint64_t charged;
} machine;

static inline void drop_machine(void)
{
    vt_machine_free(&machine.at);
    must(machine.at.at == NULL);
}

static inline bool is_start(const struct vt_start *s)
{
    bool is_front = s->front >= 1 && s->front <= 63 && (s->consoles >> s->front & 1) != 0;
    return s->rows >= 1 && s->rows <= 255 && s->cols >= 1 && s->cols <= 255 && is_front && (s->consoles & 1) == 0 &&
           s->keyboards >= 1 && s->keyboards <= 4 && s->events <= 1000000 && s->bytes <= 1073741824;
}

static inline bool is_seat(const struct vt_seat *seat)
{
    return seat->home <= 63 && seat->privileged <= 1;
}

static inline void make_machine(void)
{
    struct vt_start s = { .rows = (uint16_t)(number() % 300), .cols = (uint16_t)(number() % 300) };
    struct vt_seat seats[65];
    struct vt_fault fault = { 0, 0, 0, 0 };
    size_t length, count = byte();
    uint64_t mask = number();
    memset(seats, 0, sizeof seats);
    count = count < 250 ? count % 6 : count % 66;
    s.consoles = byte() < 240 ? (mask | 2) & 0xFE : mask << 32 | mask;
    s.front = byte() < 240 ? 1 : byte();
    s.keyboards = byte() < 240 ? 1 : byte(), s.events = byte() < 200 ? 300 : number(), s.bytes = byte() * 300000u;
    bool is_good = is_start(&s) && count <= 64, was_made = machine.at.at != NULL;
    for (size_t i = 0; i < count; i++) {
        seats[i].home = byte() % 65, seats[i].privileged = byte() % 8 ? 1 : byte();
        is_good = is_good && is_seat(&seats[i]);
    }
    uint8_t *text = piece(&length);
    uint8_t code = vt_machine_new(&machine.at, &s, seats, count, text, length, &fault);
    must(was_made ? code == VT_MADE : is_good ? code == VT_OK || code == VT_FAULT : code == VT_RANGE);
    must(code != VT_FAULT || (fault.kind >= 1 && fault.line >= 1 && fault.column >= 1));
    if (code == VT_OK) {
        machine.start = s, machine.processes = (uint32_t)count, machine.charged = 0;
        must(vt_machine_display(&machine.at, &machine.shown) == VT_OK && machine.shown.front == s.front);
        must(machine.shown.entries == 0 && machine.shown.gone == 0 && machine.shown.hops == 0);
    }
    free(text);
}

/* The most bytes of a call's answer. */
static inline size_t most_bytes(const char *name, const uint16_t *numbers)
{
    if (strcmp(name, "read") == 0)
        return numbers[1] < 4096 ? numbers[1] : 4096;
    if (strcmp(name, "dump") == 0)
        return numbers[0] == 0 ? 65025 : numbers[0] == 1 ? 130054 : numbers[0] == 2 ? 260100 : 0;
    return strcmp(name, "getfunc") == 0 ? 255
           : strcmp(name, "getdia") == 0 ? 3072
           : strcmp(name, "getmap") == 0 ? 512
           : strcmp(name, "getpal") == 0 ? 48
                                         : 0;
}

/* The journal's numbers before and after a call: one entry more if it was made, else nothing. */
static inline void after_call(uint8_t code)
{
    struct vt_display now;
    must(vt_machine_display(&machine.at, &now) == VT_OK);
    struct vt_display *old = &machine.shown;
    must(now.gone == old->gone && now.entries == old->entries + (code == VT_OK));
    must(code == VT_OK || memcmp(&now, old, sizeof now) == 0);
    must(now.front >= 1 && now.front <= 63 && now.pending <= 63 && now.pending != now.front && now.locked <= 1);
    must(now.hops == old->hops || code == VT_OK);
    *old = now;
}

static inline void call_machine(void)
{
    static uint8_t bytes[ROOM];
    uint8_t which = byte(), row = which % CALL_COUNT;
    uint32_t caller = byte();
    uint16_t numbers[8];
    struct vt_reply reply;
    size_t n, count = CALLS[row].count, room = byte() < 220 ? ROOM : byte() * 16u;
    caller = caller < 200 ? caller % 8 : number();
    for (int i = 0; i < 8; i++)
        numbers[i] = (size_t)i < count ? (uint16_t)number() : 0;
    count = byte() < 250 ? count : byte() % 8u;
    uint8_t *held = piece(&n), has = CALLS[row].bytes;
    n = has == ONE_BYTE && n > 1 && byte() < 250 ? 1 : has == NO_BYTES && byte() < 250 ? 0 : n;
    bool is_good = caller <= 67 && count == CALLS[row].count;
    is_good = is_good && (has == ANY_BYTES || n == (has == ONE_BYTE));
    size_t most = most_bytes(CALLS[row].name, numbers);
    uint64_t charge = 64 + most + (has == ANY_BYTES ? n : 0);
    bool is_full = machine.shown.entries >= machine.start.events || machine.charged + charge > machine.start.bytes;
    uint8_t code = vt_machine_call(&machine.at, caller, CALLS[row].name, numbers, count, held, n, &reply, bytes, room);
    if (machine.at.at == NULL) {
        must(code == VT_NOTHING);
    } else {
        uint8_t wanted = !is_good ? VT_RANGE : most > room ? VT_NO_ROOM : is_full ? VT_FULL : VT_OK;
        must(code == wanted);
        machine.charged += code == VT_OK ? charge : 0;
        must(code != VT_OK || (reply.kind <= VT_REPLY_ERR && reply.length <= most));
        after_call(code);
    }
    free(held);
}

static inline void admit_process(void)
{
    uint32_t process = byte() % 80;
    struct vt_seat seat = { .home = byte() % 65, .privileged = byte() % 3 };
    uint8_t code = vt_machine_admit(&machine.at, process, &seat);
    if (machine.at.at == NULL)
        must(code == VT_NOTHING);
    else if (process < 1 || process > machine.processes || !is_seat(&seat))
        must(code == VT_RANGE);
    else
        must(code == VT_OK || code == VT_MADE);
}

static inline void forget_journal(void)
{
    must(vt_machine_forget(&machine.at) == (machine.at.at ? VT_OK : VT_NOTHING));
    if (machine.at.at == NULL)
        return;
    machine.shown.gone += machine.shown.entries, machine.shown.entries = 0, machine.charged = 0;
    struct vt_display now;
    must(vt_machine_display(&machine.at, &now) == VT_OK && memcmp(&now, &machine.shown, sizeof now) == 0);
}

/* The journal is its first line, the lines of its entries, and its last line. */
static inline void read_journal(void)
{
    size_t length = 0, again, at = 11, line;
    uint8_t *text;
    must(vt_machine_journal(&machine.at, NULL, 0, &length) == (machine.at.at ? VT_NO_ROOM : VT_NOTHING));
    if (machine.at.at == NULL || length > GONE_ROOM)
        return;
    text = malloc(length), must(text != NULL);
    must(vt_machine_journal(&machine.at, text, length, &again) == VT_OK && again == length);
    must(memcmp(text, "%journal 2\n", at) == 0 && text[length - 1] == '\n');
    for (uint32_t i = 0; i < machine.shown.entries; i++) {
        uint8_t *own = malloc(length);
        must(own != NULL && vt_machine_entry(&machine.at, i, own, length, &line) == VT_OK);
        must(line <= length - at && memcmp(text + at, own, line) == 0 && own[line - 1] == '\n');
        at += line;
        free(own);
    }
    must(vt_machine_entry(&machine.at, machine.shown.entries, text, length, &line) == VT_RANGE);
    must(memcmp(text + at, "%end ", 5) == 0 && memchr(text + at, '\n', length - at) == text + length - 1);
    free(text);
}

/* Whether a screen of the console's size shows its cells. */
static inline bool shows_console(const struct vt_screen *s, uint32_t n, const struct vt_console *c)
{
    size_t count = (size_t)c->rows * c->cols;
    struct vt_cell *cells = malloc(2 * count * sizeof *cells);
    must(cells != NULL && vt_machine_cells(&machine.at, n, cells, count) == VT_OK);
    must(vt_screen_cells(s, cells + count, count) == VT_OK);
    bool is_so = memcmp(cells, cells + count, count * sizeof *cells) == 0;
    free(cells);
    return is_so;
}

/* What differs from other cells makes the console on a screen that shows those; cells of another size are refused. */
static inline void change_console(uint32_t n, const struct vt_console *c)
{
    struct vt_screen other = { 0 };
    size_t count = (size_t)c->rows * c->cols, length = 0, again;
    uint32_t cols = c->cols;
    if (c->rows > MOST_ROWS)
        return;
    static const uint8_t drawn[] = "a\033[7mbc\r\n\xE4\xB8\xAD\033[2;3r\033[?6h\033(0d\n\033[31me";
    must(vt_screen_new(&other, c->rows, cols) == VT_OK && vt_screen_write(&other, drawn, sizeof drawn - 1) == VT_OK);
    struct vt_cell *shown = malloc(count * sizeof *shown);
    must(shown != NULL && vt_screen_cells(&other, shown, count) == VT_OK);
    must(vt_machine_redraw_changes(&machine.at, n, shown, count - 1, cols, NULL, 0, &length) == VT_RANGE);
    must(vt_machine_redraw_changes(&machine.at, n, shown, count, cols + 1, NULL, 0, &length) == VT_RANGE);
    uint8_t code = vt_machine_redraw_changes(&machine.at, n, shown, count, cols, NULL, 0, &length);
    must(code == VT_NO_ROOM || code == VT_NOT_DRAWABLE);
    bool is_near = code == VT_NOT_DRAWABLE;
    must(vt_machine_redraw_changes_near(&machine.at, n, shown, count, cols, NULL, 0, is_near ? &length : &again) ==
         VT_NO_ROOM);
    must((is_near || again == length) && length <= VT_REDRAW_MOST(c->rows, cols));
    uint8_t *text = malloc(length);
    must(text != NULL && (is_near ? vt_machine_redraw_changes_near : vt_machine_redraw_changes)(
                             &machine.at, n, shown, count, cols, text, length, &again) == VT_OK && again == length);
    must(vt_screen_write(&other, text, length) == VT_OK && (is_near || shows_console(&other, n, c)));
    vt_screen_free(&other);
    free(shown);
    free(text);
}

/* The redraw of a console makes its cells on a screen of its size. */
static inline void redraw_console(uint32_t n, const struct vt_console *c)
{
    struct vt_screen other = { 0 };
    struct vt_cell cells[255], others[255];
    size_t length = 0, again;
    uint8_t code = vt_machine_redraw(&machine.at, n, NULL, 0, &length);
    must(code == VT_NO_ROOM || code == VT_NOT_DRAWABLE);
    if (code == VT_NOT_DRAWABLE || c->rows > MOST_ROWS)
        return;
    uint8_t *text = malloc(length);
    must(text != NULL && vt_machine_redraw(&machine.at, n, text, length, &again) == VT_OK && again == length);
    must(vt_screen_new(&other, c->rows, c->cols) == VT_OK && vt_screen_write(&other, text, length) == VT_OK);
    for (uint32_t y = 0; y < c->rows; y++) {
        must(vt_machine_row(&machine.at, n, y, cells, 255) == VT_OK && vt_screen_row(&other, y, others, 255) == VT_OK);
        for (uint32_t x = 0; x < c->cols; x++)
            must(cells[x].code == others[x].code && cells[x].attr == others[x].attr && cells[x].code <= VT_HALF);
    }
    vt_screen_free(&other);
    free(text);
}

static inline void look_at_machine(void)
{
    static struct vt_mark marks[MOST_MARKS];
    uint32_t n = number(), caller = number();
    uint8_t wait = 9, wanted = machine.at.at ? VT_OK : VT_NOTHING;
    size_t count = 0;
    struct vt_console c;
    must(vt_machine_marks(&machine.at, marks, MOST_MARKS, &count) == wanted && count <= MOST_MARKS);
    for (size_t i = 0; i < count; i++)
        must(marks[i].kind >= VT_MARK_ASKED && marks[i].kind <= VT_MARK_ENDED);
    uint8_t code = vt_machine_wait(&machine.at, caller, &wait);
    must(wanted == VT_NOTHING ? code == VT_NOTHING : code == (caller <= 67 ? VT_OK : VT_RANGE));
    must(code == VT_OK ? wait <= VT_WAIT_BROKEN : wait == 9);
    code = vt_machine_console(&machine.at, n, &c);
    must(wanted == VT_NOTHING ? code == VT_NOTHING : code == VT_OK || code == VT_RANGE);
    must(code != VT_OK || (n >= 1 && n <= 63 && c.y < c.rows && c.x < c.cols && c.queued <= 4096));
    if (wanted == VT_OK)
        must(vt_machine_console(&machine.at, machine.shown.front, &c) == VT_OK);
    if (wanted == VT_OK && byte() % 8 == 0) {
        redraw_console(machine.shown.front, &c);
        change_console(machine.shown.front, &c);
    }
}

static inline void on_machine(void)
{
    switch (byte() % 16) {
    case 0: make_machine(); break;
    case 1: admit_process(); break;
    case 2: forget_journal(); break;
    case 3: read_journal(); break;
    case 4: case 5: look_at_machine(); break;
    case 6: byte() % 16 ? call_machine() : drop_machine(); break;
    default: call_machine();
    }
}

#endif
