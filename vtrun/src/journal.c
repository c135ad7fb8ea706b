/* The journal: each call is written when it was made. Its session is in session.c. */
#include "vtrun.h"
#include <stdlib.h>
#include <string.h>

enum { MOST_LINE = 600000, MOST_KEYS = 100000 };

bool has_scripts;
static FILE *file;
static uint64_t entries, charge;
static uint32_t items[SEATS + 3]; /* of each caller */

/* The most bytes of the answer of a call. */
static uint64_t most_answer(const char *name, const uint16_t *numbers)
{
    static const struct {
        const char *name;
        uint64_t most;
    } rows[] = { { "getfunc", 255 }, { "getdia", 3072 }, { "getmap", 512 }, { "getpal", 48 } };
    static const uint64_t dumps[] = { 65025, 130054, 260100 };
    if (strcmp(name, "read") == 0)
        return numbers[1] < MOST_WRITE ? numbers[1] : MOST_WRITE;
    if (strcmp(name, "dump") == 0)
        return numbers[0] < 3 ? dumps[numbers[0]] : 0;
    for (size_t i = 0; i < sizeof rows / sizeof *rows; i++)
        if (strcmp(name, rows[i].name) == 0)
            return rows[i].most;
    return 0;
}

static void check_journal(bool is_written)
{
    if (!is_written)
        stop(125, "%s: the journal can't be written: %s", options.journal, strerror(errno));
}

void open_journal(void)
{
    if (!options.journal)
        return;
    file = fopen(options.journal, "w+e");
    if (!file)
        stop(2, "%s: %s", options.journal, strerror(errno));
    char *whole = realpath(options.journal, NULL);
    if (whole)
        options.journal = whole;
    check_journal(fputs("%journal 2\n", file) >= 0);
    has_scripts = true;
}

/* A script takes no more items than a session may have: then no process has a script any more. */
static void count_item(unsigned caller, const char *name)
{
    static const char *const others[] = { "signals", "waitend", "exit" };
    for (size_t i = 0; i < sizeof others / sizeof *others; i++)
        if (strcmp(name, others[i]) == 0)
            return;
    if (caller < SEATS && ++items[caller] > (caller ? MOST_ITEMS : MOST_KEYS))
        has_scripts = false;
}

void enter_call(unsigned caller, const char *name, const uint16_t *numbers, size_t n)
{
    static uint8_t line[MOST_LINE];
    size_t length = 0;
    if (!file)
        return;
    count_item(caller, name);
    entries++;
    charge += 64 + n + most_answer(name, numbers);
    unsigned code = vt_machine_entry(&machine, 0, line, sizeof line, &length);
    if (code != VT_OK)
        stop(125, "%s: an entry can't be written (code %u)", options.journal, code);
    check_journal(fwrite(line, 1, length, file) == length);
}

void flush_journal(void)
{
    if (file)
        check_journal(fflush(file) == 0);
}

void close_journal(void)
{
    if (!file)
        return;
    check_journal(fprintf(file, "%%end %llu %llu\n", (unsigned long long)entries, (unsigned long long)charge) > 0);
    check_journal(fflush(file) == 0);
    rewind(file);
    write_session(file);
    fclose(file);
    file = NULL;
}
