/* What the tests of a machine share: a machine with three processes, its calls, and what they are answered. */
#ifndef MACHINE_CALLS_H
#define MACHINE_CALLS_H

#include "want.h"
#include <errno.h>

enum { MOST_BYTES = 260100 };

/* The numbers of a call, and how many they are. */
#define N(...) (const uint16_t[]){ __VA_ARGS__ }, sizeof((uint16_t[]){ __VA_ARGS__ }) / sizeof(uint16_t)

static const uint8_t KEYMAP[] = "keymaps 0\nkeycode 30 = a\n";
static const struct vt_start START = { .consoles = 1 << 1 | 1 << 2, .bytes = 1 << 20, .events = 1000, .rows = 3,
                                       .cols = 10, .front = 1, .keyboards = 1 };
/* Process 1 is at home on console 1, process 2 is privileged, process 3 has no home. */
static const struct vt_seat SEATS[] = { { .home = 1 }, { .home = 2, .privileged = 1 }, { .home = 0 } };

static struct vt_machine m;
static struct vt_reply reply;
static uint8_t bytes[MOST_BYTES];

static inline uint8_t make(const struct vt_start *start, const struct vt_seat *seats, size_t count)
{
    struct vt_fault fault = { 9, 9, 9, 9 };
    uint8_t code = vt_machine_new(&m, start, seats, count, KEYMAP, sizeof KEYMAP - 1, &fault);
    WANT(fault.kind == 9 && (m.at != NULL) == (code == VT_OK || code == VT_MADE));
    return code;
}

/* A call with room for every answer. */
static inline uint8_t call(uint32_t caller, const char *name, const uint16_t *numbers, size_t count, const char *text)
{
    memset(&reply, 99, sizeof reply);
    return vt_machine_call(&m, caller, name, numbers, count, (const uint8_t *)text, text ? strlen(text) : 0, &reply,
                           bytes, sizeof bytes);
}

/* Whether the answer is this, with zeros elsewhere. */
static inline bool is_reply(struct vt_reply wanted)
{
    return memcmp(&reply, &wanted, sizeof wanted) == 0;
}

static inline bool is_done(void)
{
    return is_reply((struct vt_reply){ .kind = VT_REPLY_OK });
}

static inline bool is_number(uint32_t number)
{
    return is_reply((struct vt_reply){ .kind = VT_REPLY_NUM, .number = number });
}

static inline bool is_error(uint32_t number)
{
    return is_reply((struct vt_reply){ .kind = VT_REPLY_ERR, .number = number });
}

static inline bool is_bytes(const void *text, uint32_t length)
{
    return is_reply((struct vt_reply){ .kind = VT_REPLY_BYTES, .length = length }) && memcmp(bytes, text, length) == 0;
}

static inline struct vt_display display(void)
{
    struct vt_display found;
    memset(&found, 99, sizeof found);
    WANT(vt_machine_display(&m, &found) == VT_OK);
    for (size_t i = 0; i < sizeof found.spare; i++)
        WANT(found.spare[i] == 0);
    return found;
}

static inline bool is_journal(const char *text)
{
    uint8_t found[4096];
    size_t length = 0;
    return vt_machine_journal(&m, found, sizeof found, &length) == VT_OK && length == strlen(text) &&
           memcmp(found, text, length) == 0;
}

#endif
