/* The words of vtrun's command line. */
#include "vtrun.h"
#include <stdarg.h>
#include <stdlib.h>
#include <string.h>
#include <unistd.h>

enum { MOST_SIDE = 255, ROWS = 25, COLS = 80, FIRST = 1, UNWRITTEN = 125 };

struct options options = { .consoles = 1 << FIRST, .rows = ROWS, .cols = COLS, .has_namespaces = true };

static const char usage[] =
    "usage: vtrun [-j JOURNAL] [--keymap FILE] [--size R C] [--consoles LIST] [--user NAME]\n"
    "             [--timeout S] [--on N] [--socket PATH] [--no-namespaces] -- COMMAND ..\n"
    "       vtrun [--socket PATH] attach | type TEXT | scan HH .. | front | wait front N [S] |\n"
    "             wait owner N [S] | wait text N TEXT [S] | snap [N] [--redraw | --svg] | row N R |\n"
    "             run N -- COMMAND .. | consoles | processes | journal | end\n";

void (*before_stop)(void);

_Noreturn void stop(int code, const char *form, ...)
{
    va_list values;
    if (before_stop)
        before_stop();
    va_start(values, form);
    fputs("vtrun: ", stderr);
    vfprintf(stderr, form, values);
    fputc('\n', stderr);
    va_end(values);
    exit(code);
}

void print(const char *bytes, size_t n, int code)
{
    if (fwrite(bytes, 1, n, stdout) != n || fflush(stdout))
        stop(code, "standard output can't be written: %s", strerror(errno));
}

unsigned number_of(const char *word, const char *what, unsigned least, unsigned most)
{
    char *end = "";
    unsigned long n = word && word[0] >= '0' && word[0] <= '9' ? strtoul(word, &end, 10) : most + 1UL;
    if (n > most || n < least || *end)
        stop(2, "%s %s: a number from %u to %u was wanted", what, word ? word : "", least, most);
    return (unsigned)n;
}

/* A console of a list, or 0. `end` is what follows it. */
static unsigned console_at(const char *word, const char **end)
{
    char *rest;
    unsigned long n = word[0] >= '0' && word[0] <= '9' ? strtoul(word, &rest, 10) : 0;
    if (n > 0)
        *end = rest;
    return n < CONSOLES ? (unsigned)n : 0;
}

/* The consoles of a list such as 1,2,4-6. */
static uint64_t consoles_of(const char *list)
{
    uint64_t found = 0;
    for (const char *at = list, *end = "";; at = end + 1) {
        unsigned first = console_at(at, &end), last = first && *end == '-' ? console_at(end + 1, &end) : first;
        if (!first || last < first || (*end && *end != ','))
            stop(2, "--consoles %s: numbers from 1 to 63 were wanted, as 1,2,4-6", list);
        for (unsigned n = first; n <= last; n++)
            found |= (uint64_t)1 << n;
        if (!*end)
            return found;
    }
}

static bool is_option(const char *word)
{
    static const char *const names[] = { "-j",        "--keymap", "--user", "--socket", "--consoles",
                                         "--timeout", "--on",     "--size", "--no-namespaces" };
    for (size_t i = 0; i < sizeof names / sizeof *names; i++)
        if (strcmp(word, names[i]) == 0)
            return true;
    return false;
}

/* Reads the option at words[at]. How many words it has. */
static int read_option(char **words, int at)
{
    const char *name = words[at], *value = words[at + 1];
    if (!is_option(name))
        stop(2, "%s: no such option\n%s", name, usage);
    if (strcmp(name, "--no-namespaces") == 0) {
        options.has_namespaces = false;
        return 1;
    }
    if (!value || strcmp(value, "--") == 0)
        stop(2, "%s: a word was wanted after it\n%s", name, usage);
    if (strcmp(name, "-j") == 0)
        options.journal = value;
    else if (strcmp(name, "--keymap") == 0)
        options.keymap = value;
    else if (strcmp(name, "--user") == 0)
        options.user = value;
    else if (strcmp(name, "--socket") == 0)
        options.socket = value;
    else if (strcmp(name, "--consoles") == 0)
        options.consoles = consoles_of(value);
    else if (strcmp(name, "--timeout") == 0)
        options.seconds = number_of(value, name, 1, 1000000);
    else if (strcmp(name, "--on") == 0)
        options.on = number_of(value, name, 1, CONSOLES - 1);
    else {
        options.rows = number_of(value, "--size", 1, MOST_SIDE);
        options.cols = number_of(words[at + 2], "--size", 1, MOST_SIDE);
        return 3;
    }
    return 2;
}

/* Reads the options up to the command, which stands after `--`. */
void read_options(int count, char **words)
{
    int at = 1;
    if (count == 2 && strcmp(words[1], "--help") == 0) {
        print(usage, sizeof usage - 1, UNWRITTEN);
        exit(0);
    }
    while (at < count && words[at][0] == '-' && strcmp(words[at], "--"))
        at += read_option(words, at);
    if (at < count && strcmp(words[at], "--"))
        stop(2, "%s: no such word\n%s", words[at], usage);
    if (at < count)
        options.command = words + at + 1;
    if (!options.command || !options.command[0])
        stop(2, "no command: it stands after --\n%s", usage);
}
