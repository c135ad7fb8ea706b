/* A machine and calls from words and lines: the start of a session, and the lines of a journal. */
#ifndef SESSION_CALLS_H
#define SESSION_CALLS_H

#include <stdbool.h>
#include <stdint.h>
#include <stdio.h>
#include <stdlib.h>
#include <string.h>
#include <vt.h>

enum { LINE = 1 << 20, KEYMAP = 1 << 20, NUMBERS = 8, BYTES = 260100, START_WORDS = 7 };

/* A call of a line. */
struct session_call {
    uint32_t caller;
    char name[16];
    uint16_t numbers[NUMBERS];
    size_t count, n;
    uint8_t *held;
};

static struct vt_machine m;
static char line[LINE];

static inline void must(uint8_t code, const char *what)
{
    if (code == VT_OK)
        return;
    fprintf(stderr, "code %u: %s\n", code, what);
    exit(5);
}

/* Makes a machine from the words ROWS COLS CONSOLES FRONT KEYBOARDS EVENTS KEYMAP [HOME,PRIVILEGED ..]. */
static inline void make_machine(char **words, size_t count)
{
    static uint8_t keymap[KEYMAP];
    struct vt_seat seats[64];
    struct vt_fault fault;
    FILE *file = count < START_WORDS ? NULL : fopen(words[6], "rb");
    if (!file)
        exit(1);
    size_t length = fread(keymap, 1, KEYMAP, file), processes = count - START_WORDS;
    fclose(file);
    struct vt_start start = { .rows = (uint16_t)atoi(words[0]), .cols = (uint16_t)atoi(words[1]),
                              .consoles = strtoull(words[2], NULL, 10), .front = (uint8_t)atoi(words[3]),
                              .keyboards = (uint8_t)atoi(words[4]), .events = (uint32_t)atol(words[5]),
                              .bytes = 1073741824 };
    memset(seats, 0, sizeof seats);
    for (size_t i = 0; i < processes && i < 64; i++)
        if (sscanf(words[START_WORDS + i], "%hhu,%hhu", &seats[i].home, &seats[i].privileged) != 2)
            exit(1);
    must(vt_machine_new(&m, &start, seats, processes, keymap, length, &fault), "new");
}

/* The number of a caller: k0 is 0, k1 to k3 are 65 to 67, p1 to p64 are 1 to 64. */
static inline uint32_t caller_of(const char *word)
{
    uint32_t number = (uint32_t)atol(word + 1);
    return word[0] == 'p' || number == 0 ? number : 64 + number;
}

/* The bytes of a word of hexadecimal digits. */
static inline void read_bytes(struct session_call *call, const char *word)
{
    call->held = malloc(strlen(word) / 2 + 1);
    if (!call->held)
        exit(4);
    for (; word[0] != '-' && word[2 * call->n]; call->n++) {
        unsigned value = 0;
        sscanf(word + 2 * call->n, "%2x", &value);
        call->held[call->n] = (uint8_t)value;
    }
}

/* Reads the next line that is an entry; its answer isn't read. False: there is none. */
static inline bool read_call(struct session_call *call)
{
    static const char *const with_bytes[] = { "scan", "write", "setfunc", "setdia", "setmap", "setpal" };
    char *word[NUMBERS + 4] = { NULL }, *end;
    size_t words = 0;
    memset(call, 0, sizeof *call);
    do {
        if (!fgets(line, LINE, stdin))
            return false;
        end = strstr(line, " = ");
    } while (line[0] == '%' || !end);
    *end = 0;
    for (char *at = strtok(line, " "); at && words < NUMBERS + 3; at = strtok(NULL, " "))
        word[words++] = at;
    if (words < 3 || strlen(word[2]) >= sizeof call->name)
        exit(1);
    call->caller = caller_of(word[0]);
    strcpy(call->name, word[2]);
    for (size_t i = 0; i < sizeof with_bytes / sizeof *with_bytes; i++)
        if (strcmp(word[2], with_bytes[i]) == 0)
            read_bytes(call, word[--words]);
    for (size_t i = 3; i < words; i++)
        call->numbers[call->count++] = (uint16_t)atol(word[i]);
    return true;
}

static inline void make_call(const struct session_call *call)
{
    static uint8_t bytes[BYTES];
    struct vt_reply reply;
    must(vt_machine_call(&m, call->caller, call->name, call->numbers, call->count, call->held, call->n, &reply, bytes,
                         BYTES), call->name);
}

#endif
