/* The machine: every call goes through here, into the journal, and what it causes goes on from here. */
#include "vtrun.h"
#include "us_keymap.h"
#include <stdlib.h>
#include <string.h>

/* A call causes at most so many marks: `few` of `World::trace` in crates/vt_world is proved. */
enum { MOST_MARKS = 3072, KEPT_ENTRIES = 256, FULL_CHARGE = 1 << 30 };

struct vt_machine machine;
struct vt_reply reply;
uint8_t answer_bytes[MOST_ANSWER];
unsigned front = 1;
uint32_t changes[CONSOLES];

static struct vt_mark marks[MOST_MARKS];
static unsigned entries; /* of the machine's own journal, since it was emptied */

/* Reads a whole file, or stops. */
static char *read_file(const char *path, size_t *length)
{
    FILE *file = fopen(path, "re");
    size_t room = 1 << 20;
    char *text = malloc(room);
    if (!file || !text)
        stop(2, "%s: %s", path, strerror(file ? ENOMEM : errno));
    *length = fread(text, 1, room, file);
    if (ferror(file) || *length == room)
        stop(2, "%s: %s", path, ferror(file) ? "it can't be read" : "a keymap of less than 1,048,576 bytes was wanted");
    fclose(file);
    return text;
}

static unsigned lowest(uint64_t consoles)
{
    unsigned n = 1;
    while (n < CONSOLES - 1 && !(consoles >> n & 1))
        n++;
    return n;
}

void make_machine(void)
{
    struct vt_seat homes[SEATS - 1];
    struct vt_fault fault = { 0, 0, 0, 0 };
    struct vt_start start = { .consoles = options.consoles, .bytes = FULL_CHARGE, .events = KEPT_ENTRIES };
    size_t length = sizeof us_keymap - 1;
    const char *keymap = us_keymap;
    if (options.keymap)
        keymap = read_file(options.keymap, &length);
    memset(homes, 0, sizeof homes);
    for (unsigned i = 0; i < SEATS - 1; i++)
        homes[i].privileged = 1;
    start.rows = (uint16_t)options.rows;
    start.cols = (uint16_t)options.cols;
    start.keyboards = 1;
    start.front = (uint8_t)(front = lowest(options.consoles));
    unsigned code = vt_machine_new(&machine, &start, homes, SEATS - 1, (const uint8_t *)keymap, length, &fault);
    if (code == VT_FAULT)
        stop(2, "%s:%u:%u: fault %u of a keymap (vt-keymap(5), DIAGNOSTICS)", options.keymap, fault.line, fault.column,
             fault.kind);
    if (code != VT_OK)
        stop(126, "no machine: %s", code == VT_NO_MEMORY ? "memory ran out" : "a number is out of its range");
    learn_keys(keymap, length);
    if (options.journal)
        keep_keymap(keymap, length);
}

/* Hands on what the last call caused: signals become those of the kernel. */
static void follow_marks(void)
{
    size_t count = 0;
    if (vt_machine_marks(&machine, marks, MOST_MARKS, &count) != VT_OK || count > MOST_MARKS)
        stop(126, "a call caused %zu marks, more than are followed", count);
    for (size_t i = 0; i < count; i++) {
        const struct vt_mark *it = &marks[i];
        if (it->kind == VT_MARK_RAISED && it->a >= 1 && it->a < SEATS) {
            raise_signal(it->a, it->b);
        } else if (it->kind == VT_MARK_HOPPED) {
            front = it->b;
            changes[it->b]++;
            tell_event(1, it->a, it->b);
        } else if (it->kind == VT_MARK_ENDED && it->a >= 1 && it->a < SEATS) {
            pump_ended(it->a);
            seat_ended(it->a);
        }
    }
}

int call_machine(unsigned caller, const char *name, const uint16_t *numbers, size_t count, const void *held, size_t n)
{
    unsigned code =
        vt_machine_call(&machine, caller, name, numbers, count, held, n, &reply, answer_bytes, sizeof answer_bytes);
    if (code != VT_OK) {
        memset(&reply, 0, sizeof reply);
        reply.kind = VT_REPLY_ERR;
        reply.number = code == VT_NO_MEMORY ? ENOMEM : EINVAL;
        return (int)reply.number;
    }
    enter_call(caller, name, numbers, caller == 0 || caller >= SEATS ? 0 : n); /* (the byte of a scan has no charge) */
    if (options.journal || ++entries == KEPT_ENTRIES) {
        vt_machine_forget(&machine);
        entries = 0;
    }
    follow_marks();
    return reply.kind == VT_REPLY_ERR ? (int)reply.number : 0;
}

void take_signals(unsigned caller)
{
    struct vt_reply kept = reply;
    seats[caller].is_raised = false;
    call_machine(caller, "signals", NULL, 0, NULL, 0);
    reply = kept;
}

/* (of a process that waits another thread calls: it is refused, and no call of a script stands within a wait) */
int act(unsigned caller, const char *name, const uint16_t *numbers, size_t count, const void *held, size_t n)
{
    if (caller > 0 && caller < SEATS && seats[caller].waits) {
        reply = (struct vt_reply){ .kind = VT_REPLY_ERR, .number = EINVAL };
        return EINVAL;
    }
    int error = call_machine(caller, name, numbers, count, held, n);
    if (has_scripts && reply.kind != VT_REPLY_WAIT && caller > 0 && caller < SEATS)
        take_signals(caller);
    return error;
}

/* Types scan bytes, and hands on what they put into the consoles' queues. */
void scan(const uint8_t *bytes, size_t n)
{
    for (size_t i = 0; i < n; i++) {
        call_machine(0, "scan", NULL, 0, &bytes[i], 1);
        write_all_input();
    }
    settle_waits();
}
