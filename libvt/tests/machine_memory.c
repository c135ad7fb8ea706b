/* Each request for memory of a machine refused in turn, alone and with all that follow, in a call of every kind.
 *
 * A call that is refused memory returns VT_NO_MEMORY, and nothing is lost: the machine has its journal, its display, its
 * consoles and its waits as before, what was asked for is given back, and the same call, made again, is answered as it
 * would have been. The first line has how many requests the calls make. */
#include "refusals.h"
#include "want.h"

enum { ROOM = 260100, TEXT = 65536, CONSOLES = 3 };

static const uint8_t KEYMAP[] = "keymaps 0-1\nkeycode 30 = a\nkeycode 60 = Console_2\nkeycode 59 = F1\nstring F1 = \"one\"\n"
                                "compose '`' 'a' to U+00E0\n";
static const struct vt_start START = { .consoles = 1 << 1 | 1 << 2, .bytes = 1 << 24, .events = 100, .rows = 4,
                                       .cols = 9, .front = 1, .keyboards = 1 };
static const struct vt_seat SEATS[] = { { .home = 1, .privileged = 1 }, { .home = 2, .privileged = 1 } };

struct one_call {
    uint32_t caller;
    const char *name;
    uint16_t count, numbers[6];
    const void *held;
    size_t n;
};

static uint8_t zeros[512];

/* Made before each call that is tried. */
static const struct one_call PREPARED[] = {
    { 1, "open", 1, { 1 }, NULL, 0 },
    { 2, "open", 1, { 2 }, NULL, 0 },
    { 1, "write", 1, { 0 }, "a\033[31mb\033[6n", 12 },
    { 2, "setmode", 6, { 0, 1, 0, 10, 12, 0 }, NULL, 0 },
    { 1, "kill", 2, { 1, 12 }, NULL, 0 },
};

/* A call of every kind, and what takes memory in several ways. */
static const struct one_call TRIED[] = {
    { 0, "scan", 0, { 0 }, "\x1e", 1 },
    { 0, "scan", 0, { 0 }, "\x3b", 1 },
    { 0, "scan", 0, { 0 }, "\x3c", 1 },
    { 1, "exit", 0, { 0 }, NULL, 0 },
    { 1, "open", 1, { 3 }, NULL, 0 },
    { 1, "open", 1, { 64 }, NULL, 0 },
    { 1, "close", 1, { 0 }, NULL, 0 },
    { 1, "write", 1, { 0 }, "text\033[6n\033[12;2]\a", 15 },
    { 1, "write", 1, { 9 }, "text", 4 },
    { 1, "read", 2, { 0, 64 }, NULL, 0 },
    { 2, "waitinput", 1, { 0 }, NULL, 0 },
    { 2, "waitactive", 2, { 0, 2 }, NULL, 0 },
    { 2, "waitsignal", 0, { 0 }, NULL, 0 },
    { 1, "waitend", 0, { 0 }, NULL, 0 },
    { 1, "activate", 2, { 0, 3 }, NULL, 0 },
    { 2, "disallocate", 2, { 0, 0 }, NULL, 0 },
    { 1, "openqry", 1, { 0 }, NULL, 0 },
    { 1, "getstate", 1, { 0 }, NULL, 0 },
    { 1, "resize", 3, { 0, 30, 40 }, NULL, 0 },
    { 1, "lock", 1, { 0 }, NULL, 0 },
    { 1, "unlock", 1, { 0 }, NULL, 0 },
    { 1, "setkd", 2, { 0, 1 }, NULL, 0 },
    { 1, "getkd", 1, { 0 }, NULL, 0 },
    { 1, "setmode", 6, { 0, 1, 0, 10, 12, 0 }, NULL, 0 },
    { 2, "getmode", 1, { 0 }, NULL, 0 },
    { 2, "reldisp", 2, { 0, 2 }, NULL, 0 },
    { 1, "setkb", 2, { 0, 1 }, NULL, 0 },
    { 1, "getkb", 1, { 0 }, NULL, 0 },
    { 1, "setmeta", 2, { 0, 3 }, NULL, 0 },
    { 1, "getmeta", 1, { 0 }, NULL, 0 },
    { 1, "setled", 2, { 0, 4 }, NULL, 0 },
    { 1, "getled", 1, { 0 }, NULL, 0 },
    { 1, "setflags", 2, { 0, 4 }, NULL, 0 },
    { 1, "getflags", 1, { 0 }, NULL, 0 },
    { 1, "setent", 5, { 0, 0, 30, 1, 98 }, NULL, 0 },
    { 1, "getent", 3, { 0, 0, 30 }, NULL, 0 },
    { 1, "setfunc", 2, { 0, 0 }, "other", 5 },
    { 1, "getfunc", 2, { 0, 0 }, NULL, 0 },
    { 1, "setdia", 1, { 0 }, zeros, 24 },
    { 1, "getdia", 1, { 0 }, NULL, 0 },
    { 1, "setcode", 3, { 0, 30, 31 }, NULL, 0 },
    { 1, "getcode", 2, { 0, 30 }, NULL, 0 },
    { 1, "accept", 2, { 0, 10 }, NULL, 0 },
    { 1, "setmap", 1, { 0 }, zeros, 512 },
    { 1, "getmap", 1, { 0 }, NULL, 0 },
    { 1, "setpal", 1, { 0 }, zeros, 48 },
    { 1, "getpal", 1, { 0 }, NULL, 0 },
    { 1, "dump", 2, { 0, 1 }, NULL, 0 },
    { 1, "dump", 2, { 1, 1 }, NULL, 0 },
    { 1, "dump", 2, { 2, 0 }, NULL, 0 },
    { 1, "signals", 0, { 0 }, NULL, 0 },
    { 1, "kill", 2, { 2, 9 }, NULL, 0 },
};

enum { TRIED_COUNT = sizeof TRIED / sizeof *TRIED, PREPARED_COUNT = sizeof PREPARED / sizeof *PREPARED };

static struct vt_machine m;
static struct vt_reply reply;
static uint8_t bytes[ROOM], text[TEXT];
static size_t length;
static struct vt_cell blanks[36];

/* All that can be read of a machine. */
struct view {
    uint8_t journal[TEXT];
    size_t journal_length, mark_count;
    struct vt_display display;
    struct vt_console consoles[CONSOLES];
    struct vt_cell rows[CONSOLES][4][9];
    struct vt_mark marks[16];
    uint8_t waits[3];
};

static uint8_t make(const struct one_call *c)
{
    return vt_machine_call(&m, c->caller, c->name, c->numbers, c->count, c->held, c->n, &reply, bytes, ROOM);
}

static void prepare(void)
{
    struct vt_fault fault;
    WANT(vt_machine_new(&m, &START, SEATS, 2, KEYMAP, sizeof KEYMAP - 1, &fault) == VT_OK);
    for (int i = 0; i < PREPARED_COUNT; i++)
        WANT(make(&PREPARED[i]) == VT_OK && reply.kind != VT_REPLY_ERR);
}

static void look(struct view *v)
{
    memset(v, 0, sizeof *v);
    WANT(vt_machine_journal(&m, v->journal, TEXT, &v->journal_length) == VT_OK);
    WANT(vt_machine_display(&m, &v->display) == VT_OK && vt_machine_marks(&m, v->marks, 16, &v->mark_count) == VT_OK);
    for (uint32_t n = 0; n < CONSOLES; n++)
        if (vt_machine_console(&m, n + 1, &v->consoles[n]) == VT_OK)
            for (uint32_t row = 0; row < 4; row++)
                WANT(vt_machine_row(&m, n + 1, row, v->rows[n][row], 9) == VT_OK);
    for (uint32_t caller = 0; caller < 3; caller++)
        WANT(vt_machine_wait(&m, caller, &v->waits[caller]) == VT_OK);
}

/* Refuses a call its requests in turn, until it needs no more; how many it makes. */
static unsigned long try_call(const struct one_call *c)
{
    static struct view before, after, found;
    static uint8_t wanted_bytes[ROOM];
    struct vt_reply wanted;
    prepare();
    look(&before);
    WANT(make(c) == VT_OK);
    wanted = reply;
    memcpy(wanted_bytes, bytes, wanted.length);
    look(&after);
    vt_machine_free(&m);
    for (unsigned long n = 1; n < 10000; n++) {
        prepare();
        long blocks_before = blocks;
        asked = 0, refused = n;
        uint8_t code = make(c);
        unsigned long made = asked;
        refused = 0;
        WANT(code == VT_OK || (code == VT_NO_MEMORY && made >= n));
        if (code == VT_NO_MEMORY) {
            WANT(blocks == blocks_before);
            look(&found);
            WANT(memcmp(&found, &before, sizeof found) == 0);
            WANT(make(c) == VT_OK);
        }
        WANT(memcmp(&reply, &wanted, sizeof wanted) == 0 && memcmp(bytes, wanted_bytes, wanted.length) == 0);
        look(&found);
        WANT(memcmp(&found, &after, sizeof found) == 0);
        vt_machine_free(&m);
        if (made < n)
            return made;
    }
    WANT(false);
    return 0;
}

static uint8_t make_machine(void)
{
    struct vt_fault fault;
    return vt_machine_new(&m, &START, SEATS, 2, KEYMAP, sizeof KEYMAP - 1, &fault);
}

static uint8_t redraw(void) { return vt_machine_redraw(&m, 1, text, TEXT, &length); }
static uint8_t near(void) { return vt_machine_redraw_near(&m, 1, text, TEXT, &length); }
static uint8_t changes(void) { return vt_machine_redraw_changes(&m, 1, blanks, 36, 9, text, TEXT, &length); }
static uint8_t changes_near(void) { return vt_machine_redraw_changes_near(&m, 1, blanks, 36, 9, text, TEXT, &length); }
static uint8_t picture(void) { return vt_machine_picture(&m, 1, text, TEXT, &length); }
static uint8_t entry(void) { return vt_machine_entry(&m, 2, text, TEXT, &length); }
static uint8_t journal(void) { return vt_machine_journal(&m, text, TEXT, &length); }

/* The same for a call that makes a machine, or reads one. */
static unsigned long try_other(uint8_t (*call)(void))
{
    bool is_making = call == make_machine;
    if (!is_making)
        prepare();
    for (unsigned long n = 1; n < 10000; n++) {
        long blocks_before = blocks;
        asked = 0, refused = n, length = 77;
        uint8_t code = call();
        unsigned long made = asked;
        refused = 0;
        WANT(code == VT_OK || (code == VT_NO_MEMORY && made >= n && blocks == blocks_before));
        WANT(code == VT_OK || (is_making ? m.at == NULL : length == 77));
        if (is_making || made < n)
            vt_machine_free(&m);
        if (made < n)
            return made;
    }
    WANT(false);
    return 0;
}

int main(void)
{
    unsigned long all = 0, most = 0;
    goes_on = true;
    for (int i = 0; i < TRIED_COUNT; i++)
        try_call(&TRIED[i]);
    try_other(make_machine), try_other(redraw), try_other(entry), try_other(journal);
    goes_on = false;
    for (int i = 0; i < TRIED_COUNT; i++) {
        unsigned long requests = try_call(&TRIED[i]);
        all += requests, most = requests > most ? requests : most;
    }
    printf("requests: new %lu, redraw %lu, redraw_changes %lu, redraw_near %lu, redraw_changes_near %lu, picture %lu, "
           "entry %lu, journal %lu; %d calls %lu, at most %lu\n", try_other(make_machine), try_other(redraw),
           try_other(changes), try_other(near), try_other(changes_near), try_other(picture), try_other(entry),
           try_other(journal), TRIED_COUNT, all, most);
    WANT(blocks == 0 && m.at == NULL);
    return ended();
}
