/* The requests of the control socket, and their answers. docs/reference/vtrun.md has them in a table. */
#include "control.h"
#include <limits.h>
#include <stdlib.h>
#include <string.h>

enum { MOST_WORDS = 1024, MORE_PROGRAMS = 1024, RUNS = -1, MOST_MS = 86400000, MOST_ROWS = 255 };

/* The statuses of the programs that were started, by their numbers. */
static int *statuses;
static unsigned programs, room;

void program_ended(unsigned number, int how)
{
    if (number <= programs)
        statuses[number] = how;
}

/* Whether there is room for the status of one more program. */
static bool has_room(void)
{
    if (programs + 1 < room)
        return true;
    int *more = realloc(statuses, (room + MORE_PROGRAMS) * sizeof *more);
    if (!more)
        return false;
    statuses = more;
    room += MORE_PROGRAMS;
    return true;
}

static const char *const long_forms[] = { "type ", "wait text ", "run " };

/* The last word of a line is a length if the line is of a form with bytes. */
long body_length(const char *line)
{
    for (size_t i = 0; i < sizeof long_forms / sizeof *long_forms; i++)
        if (strncmp(line, long_forms[i], strlen(long_forms[i])) == 0) {
            const char *last = strrchr(line, ' ') + 1;
            size_t n = strspn(last, "0123456789");
            return n == 0 || last[n] ? -1 : n > 8 ? 99999999 : atol(last);
        }
    return 0;
}

/* Reads a number up to `most`, and the blank after it, if more follows. */
static bool take_number(const char **at, long most, long *number)
{
    char *end;
    if (**at < '0' || **at > '9')
        return false;
    *number = strtol(*at, &end, 10);
    *at = *end == ' ' && end[1] ? end + 1 : end;
    return *number <= most && (*end == ' ' || *end == '\0');
}

/* Reads a console, 0 for the one in front, that has to be allocated. */
static bool take_console(struct client *it, const char **at, unsigned *n)
{
    long number;
    struct vt_console seen;
    if (!take_number(at, CONSOLES - 1, &number)) {
        reply_no(it, "a console from 0 to 63 was wanted");
        return false;
    }
    *n = number ? (unsigned)number : front;
    read_all_outputs();
    if (vt_machine_console(&machine, *n, &seen) == VT_OK)
        return true;
    reply_no(it, "console %u isn't allocated", *n);
    return false;
}

/* Reads a console that is the last word. */
static bool take_last_console(struct client *it, const char *form, const char *rest, unsigned *n)
{
    if (!take_console(it, &rest, n))
        return false;
    if (*rest)
        reply_no(it, "`%s` was wanted", form);
    return !*rest;
}

static void show_front(struct client *it, const char *rest, const char *body, size_t length)
{
    char text[16];
    (void)rest, (void)body, (void)length;
    reply_ok(it, text, (size_t)snprintf(text, sizeof text, "%u\n", front));
}

static void hello(struct client *it, const char *rest, const char *body, size_t length)
{
    (void)rest, (void)body, (void)length;
    reply_ok(it, "vtrun 1\n", 8);
}

static void list_consoles(struct client *it, const char *rest, const char *body, size_t length)
{
    char text[CONSOLES * 96];
    size_t n = 0;
    (void)rest, (void)body, (void)length;
    read_all_outputs();
    for (unsigned i = 1; i < CONSOLES; i++) {
        struct vt_console seen;
        if (vt_machine_console(&machine, i, &seen) == VT_OK)
            n += (size_t)snprintf(text + n, sizeof text - n, "%u %u %u %u %u %u %u %u %u %u\n", i, seen.rows, seen.cols,
                                  seen.y, seen.x, seen.visible, seen.owner, seen.graphics, seen.bells, seen.queued);
    }
    reply_ok(it, text, n);
}

static void type_body(struct client *it, const char *rest, const char *body, size_t length)
{
    size_t fault;
    long size;
    if (!take_number(&rest, MOST_BODY, &size) || *rest) {
        reply_no(it, "`type LENGTH` was wanted");
        return;
    }
    bool is_typed = type_text(body, length, &fault);
    hand_over();
    if (is_typed)
        reply_ok(it, NULL, 0);
    else
        reply_no(it, "%.*s: no key makes this; names of keys are <Enter>, <A-F2>, <C-c>, and <lt> is the character <",
                 (int)(length - fault < 24 ? length - fault : 24), body + fault);
}

static void scan_bytes(struct client *it, const char *rest, const char *body, size_t length)
{
    uint8_t bytes[MOST_LINE / 2];
    size_t n = 0;
    (void)body, (void)length;
    for (const char *at = rest;; at += 3) {
        if (strspn(at, "0123456789abcdefABCDEF") != 2 || (at[2] && at[2] != ' ')) {
            reply_no(it, "%s: bytes of two hexadecimal digits were wanted", at);
            return;
        }
        bytes[n++] = (uint8_t)strtoul(at, NULL, 16);
        if (!at[2])
            break;
    }
    scan(bytes, n);
    hand_over();
    reply_ok(it, NULL, 0);
}

static void snap(struct client *it, const char *rest, const char *body, size_t length)
{
    static char text[MOST_TEXT];
    unsigned n;
    (void)body, (void)length;
    if (take_last_console(it, "snap N", rest, &n))
        reply_ok(it, text, screen_text(n, text, sizeof text));
}

static void show_row(struct client *it, const char *rest, const char *body, size_t length)
{
    char text[2048];
    unsigned n;
    long row;
    (void)body, (void)length;
    if (!take_console(it, &rest, &n))
        return;
    bool is_right = take_number(&rest, LONG_MAX, &row) && !*rest;
    if (!is_right) {
        reply_no(it, "`row N R` was wanted");
        return;
    }
    size_t found = row < MOST_ROWS ? row_text(n, (unsigned)row, text, sizeof text) : 0;
    if (found)
        reply_ok(it, text, found);
    else
        reply_no(it, "the screen of console %u has no such row", n);
}

static void draw_with(struct client *it, const char *form, const char *rest, char *(*draw)(unsigned, size_t *))
{
    unsigned n;
    size_t length;
    if (!take_last_console(it, form, rest, &n))
        return;
    char *text = draw(n, &length);
    if (text)
        reply_ok(it, text, length);
    else
        reply_no(it, "the screen of console %u can't be drawn", n);
    free(text);
}

static void redraw(struct client *it, const char *rest, const char *body, size_t length)
{
    (void)body, (void)length;
    draw_with(it, "redraw N", rest, screen_redraw);
}

static void svg(struct client *it, const char *rest, const char *body, size_t length)
{
    (void)body, (void)length;
    draw_with(it, "svg N", rest, screen_picture);
}

static void wait_for(struct client *it, enum awaited awaited, long what, long ms)
{
    it->awaited = awaited;
    it->console = (unsigned)what;
    it->deadline = now_ms() + ms;
    if (awaited == FOR_TEXT)
        it->changes = changes[it->console ? it->console : front] - 1;
    read_all_outputs();
    look_at_wait(it);
}

static void wait_console(struct client *it, const char *rest, enum awaited awaited, const char *form)
{
    long n, ms;
    if (take_number(&rest, CONSOLES - 1, &n) && n > 0 && take_number(&rest, MOST_MS, &ms) && !*rest)
        wait_for(it, awaited, n, ms);
    else
        reply_no(it, "`%s` was wanted", form);
}

static void wait_front(struct client *it, const char *rest, const char *body, size_t length)
{
    (void)body, (void)length;
    wait_console(it, rest, FOR_FRONT, "wait front N MS");
}

static void wait_owner(struct client *it, const char *rest, const char *body, size_t length)
{
    (void)body, (void)length;
    wait_console(it, rest, FOR_OWNER, "wait owner N MS");
}

static void wait_text(struct client *it, const char *rest, const char *body, size_t length)
{
    long n, ms, size;
    if (!take_number(&rest, CONSOLES - 1, &n) || !take_number(&rest, MOST_MS, &ms) ||
        !take_number(&rest, MOST_BODY, &size) || *rest) {
        reply_no(it, "`wait text N MS LENGTH` was wanted");
        return;
    }
    free(it->text);
    it->text = malloc(length + 1);
    if (!it->text) {
        reply_no(it, "memory ran out");
        return;
    }
    memcpy(it->text, body, length);
    it->text_length = length;
    wait_for(it, FOR_TEXT, n, ms);
}

static void wait_program(struct client *it, const char *rest, const char *body, size_t length)
{
    long n, ms;
    (void)body, (void)length;
    if (take_number(&rest, programs, &n) && n > 0 && take_number(&rest, MOST_MS, &ms) && !*rest)
        wait_for(it, FOR_PROGRAM, n, ms);
    else
        reply_no(it, "`wait program K MS` was wanted, with a program that was started");
}

/* Answers a wait if what it waits for is there, or its time has passed. */
void look_at_wait(struct client *it)
{
    static char text[MOST_TEXT];
    char line[16];
    size_t n = 0;
    struct vt_console seen;
    bool is_there = it->awaited == FOR_FRONT && front == it->console;
    if (it->awaited == FOR_OWNER)
        is_there = vt_machine_console(&machine, it->console, &seen) == VT_OK && seen.owner;
    unsigned console = it->console ? it->console : front;
    if (it->awaited == FOR_TEXT && it->changes != changes[console]) {
        it->changes = changes[console];
        n = screen_text(console, text, sizeof text);
        is_there = n > 0 && memmem(text, n, it->text, it->text_length) != NULL;
        n = 0;
    } else if (it->awaited == FOR_PROGRAM && statuses[it->console] != RUNS) {
        is_there = true;
        n = (size_t)snprintf(line, sizeof line, "%d\n", statuses[it->console]);
    }
    if (!is_there && now_ms() < it->deadline)
        return;
    it->awaited = NOT_WAITING;
    if (is_there)
        reply_ok(it, line, n);
    else
        reply_no(it, "it didn't come in time");
}

static void run(struct client *it, const char *rest, const char *body, size_t length)
{
    char *words[MOST_WORDS] = { NULL }, line[16];
    size_t count = 0;
    long n = 0, size;
    bool is_right = length > 0 && body[length - 1] == '\0';
    if (strncmp(rest, "- ", 2) == 0)
        rest += 2;
    else
        is_right = is_right && take_number(&rest, CONSOLES - 1, &n) && n > 0;
    is_right = is_right && take_number(&rest, MOST_BODY, &size) && !*rest;
    for (size_t at = 0; is_right && at < length && count < MOST_WORDS - 1; at += strlen(body + at) + 1)
        words[count++] = (char *)body + at;
    if (!is_right || count == MOST_WORDS - 1) {
        reply_no(it, "`run N LENGTH` was wanted, and words with a null byte after each");
        return;
    }
    if (!has_room() || !run_program((unsigned)n, words, programs + 1)) {
        reply_no(it, "no program can be started: %s", strerror(errno));
        return;
    }
    statuses[++programs] = RUNS;
    reply_ok(it, line, (size_t)snprintf(line, sizeof line, "%u\n", programs));
}

static void show_processes(struct client *it, const char *rest, const char *body, size_t length)
{
    char *text = NULL;
    size_t n = 0;
    FILE *to = open_memstream(&text, &n);
    (void)rest, (void)body, (void)length;
    if (to) {
        list_processes(to);
        fclose(to);
    }
    reply_ok(it, text, n);
    free(text);
}

static void show_journal(struct client *it, const char *rest, const char *body, size_t length)
{
    char line[PATH_ROOM];
    (void)rest, (void)body, (void)length;
    flush_journal();
    if (options.journal)
        reply_ok(it, line, (size_t)snprintf(line, sizeof line, "%.4000s\n", options.journal));
    else
        reply_no(it, "there is no journal: vtrun -j writes one");
}

static void attach(struct client *it, const char *rest, const char *body, size_t length)
{
    long rows, cols;
    (void)body, (void)length;
    if (!take_number(&rest, 1000, &rows) || !take_number(&rest, 1000, &cols) || *rest || rows < 1 || cols < 1) {
        reply_no(it, "`attach R C` was wanted");
        return;
    }
    it->shown = (struct shown){ .most_rows = (unsigned)rows, .most_cols = (unsigned)cols };
    it->shown.cells = calloc(255 * 255, sizeof *it->shown.cells);
    if (!it->shown.cells) {
        reply_no(it, "memory ran out");
        return;
    }
    reply_ok(it, NULL, 0);
    it->is_attached = true;
}

static void end(struct client *it, const char *rest, const char *body, size_t length)
{
    (void)rest, (void)body, (void)length;
    reply_ok(it, NULL, 0);
    if (status < 0)
        status = 0;
    hang_up();
}

static const struct {
    const char *words;
    void (*serve)(struct client *, const char *, const char *, size_t);
    bool is_alone; /* whether no words follow */
} forms[] = {
    { "hello", hello, true },
    { "front", show_front, true },
    { "consoles", list_consoles, true },
    { "type", type_body, false },
    { "scan", scan_bytes, false },
    { "snap", snap, false },
    { "row", show_row, false },
    { "redraw", redraw, false },
    { "svg", svg, false },
    { "wait front", wait_front, false },
    { "wait owner", wait_owner, false },
    { "wait text", wait_text, false },
    { "wait program", wait_program, false },
    { "run", run, false },
    { "processes", show_processes, true },
    { "journal", show_journal, true },
    { "attach", attach, false },
    { "end", end, true },
};

void serve_line(struct client *it, char *line, const char *body, size_t length)
{
    for (size_t i = 0; i < sizeof forms / sizeof *forms; i++) {
        size_t n = strlen(forms[i].words);
        if (strncmp(line, forms[i].words, n) || (line[n] != ' ' && line[n] != '\0'))
            continue;
        if (forms[i].is_alone && line[n])
            reply_no(it, "`%s` was wanted, with no words after it", forms[i].words);
        else
            forms[i].serve(it, line[n] ? line + n + 1 : line + n, body, length);
        return;
    }
    reply_no(it, "%.60s: no such request", line);
}
