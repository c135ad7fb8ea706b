/* The session of a journal: JOURNAL.toml, as `vt check` reads it before the journal.
 *
 * Its processes have the scripts that their calls were, as long as no script is longer than a session allows. Else they
 * have none, and their calls are free. */
#include "typing.h"
#include "vtrun.h"
#include <stdlib.h>
#include <string.h>

enum { MOST_EVENTS = 1000000, MOST_CHARGE = 1 << 30, KEYBOARD = 0, NO_CHARACTER = 0xfffd };

static char *keymap_text;
static size_t keymap_length;

void keep_keymap(const char *text, size_t length)
{
    keymap_text = malloc(length + 1);
    if (!keymap_text)
        stop(126, "memory ran out");
    memcpy(keymap_text, text, length);
    keymap_length = length;
}

/* A text of TOML. A comment of a keymap may have bytes that aren't UTF-8: each is U+FFFD here. */
static void write_quoted(FILE *to, const char *text, size_t length)
{
    fputs("\"\"\"\n", to);
    for (size_t i = 0, n = 1; i < length; i += n) {
        unsigned c;
        n = read_character((const uint8_t *)text + i, length - i, &c);
        if (n == 0) {
            c = NO_CHARACTER;
            n = 1;
        }
        if (c == '\\' || c == '"')
            fprintf(to, "\\%c", c);
        else if (c == '\n' || c == '\t' || (c >= ' ' && c != 0x7f && c != NO_CHARACTER))
            fwrite(text + i, 1, n, to);
        else
            fprintf(to, "\\u%04x", c);
    }
    fputs("\"\"\"\n", to);
}

/* The words of a call, without its caller and its number; NULL if it is no item of a script. */
static char *item_of(char *line, unsigned *caller)
{
    char *call = strchr(line, ' ');
    char *end = strstr(line, " = ");
    if (!call || !end || (line[0] != 'p' && line[0] != 'k'))
        return NULL;
    *caller = line[0] == 'k' ? KEYBOARD : (unsigned)atoi(line + 1);
    call = strchr(call + 1, ' ');
    if (!call || *caller >= SEATS)
        return NULL;
    *end = '\0';
    call++;
    return strcmp(call, "signals") && strcmp(call, "waitend") && strcmp(call, "exit") ? call : NULL;
}

static _Noreturn void lose_items(void)
{
    stop(125, "the items of a session can't be kept: %s", strerror(errno));
}

/* Hands each item of the journal to the text of its caller. */
static void part_items(FILE *journal, FILE **texts)
{
    char *line = NULL, *call;
    size_t room = 0;
    while (getline(&line, &room, journal) > 0) {
        unsigned caller;
        call = item_of(line, &caller);
        if (!call)
            continue;
        if (!texts[caller])
            texts[caller] = tmpfile();
        if (!texts[caller])
            lose_items();
        if (caller == KEYBOARD)
            fprintf(texts[caller], "%s%s", ftell(texts[caller]) ? " " : "", call + strlen("scan "));
        else
            fprintf(texts[caller], "  \"%s\",\n", call);
        if (ferror(texts[caller]))
            lose_items();
    }
    if (ferror(journal))
        stop(125, "%s: the journal can't be read: %s", options.journal, strerror(errno));
    free(line);
}

/* Copies a caller's text, and closes it. */
static void copy_text(FILE *to, FILE *from)
{
    static char piece[65536];
    size_t n;
    if (!from)
        return;
    if (fflush(from))
        lose_items();
    rewind(from);
    while ((n = fread(piece, 1, sizeof piece, from)) > 0)
        fwrite(piece, 1, n, to);
    if (ferror(from))
        lose_items();
    fclose(from);
}

static void write_head(FILE *to)
{
    const char *comma = "";
    fprintf(to, "rows = %u\ncols = %u\nconsoles = [", options.rows, options.cols);
    for (unsigned n = 1; n < CONSOLES; n++)
        if (options.consoles >> n & 1) {
            fprintf(to, "%s%u", comma, n);
            comma = ", ";
        }
    fprintf(to, "]\nevents = %d\nbytes = %d\n", MOST_EVENTS, MOST_CHARGE);
    if (keymap_length) {
        fputs("keymap = ", to);
        write_quoted(to, keymap_text, keymap_length);
    }
}

/* The processes up to the last one that was used: the others made no call. */
static void write_processes(FILE *to, FILE **texts)
{
    unsigned count = SEATS;
    while (count > 1 && !seats[count - 1].is_used)
        count--;
    for (unsigned i = 1; i < count; i++) {
        fprintf(to, "\n[[process]]\nhome = %u\nprivileged = %s\n", seats[i].home,
                seats[i].is_privileged ? "true" : "false");
        if (!texts[i])
            continue;
        fputs("script = [\n", to);
        copy_text(to, texts[i]);
        fputs("]\n", to);
    }
}

void write_session(FILE *journal)
{
    char path[PATH_ROOM];
    FILE *texts[SEATS] = { NULL };
    if (snprintf(path, sizeof path, "%s.toml", options.journal) >= (int)sizeof path)
        stop(125, "%s.toml: the path is too long", options.journal);
    FILE *to = fopen(path, "we");
    if (!to)
        stop(125, "%s: %s", path, strerror(errno));
    if (has_scripts)
        part_items(journal, texts);
    write_head(to);
    if (texts[KEYBOARD]) {
        fputs("keys = \"", to);
        copy_text(to, texts[KEYBOARD]);
        fputs("\"\n", to);
    }
    write_processes(to, texts);
    if (fflush(to) || ferror(to) || fclose(to))
        stop(125, "%s: %s", path, strerror(errno));
}
