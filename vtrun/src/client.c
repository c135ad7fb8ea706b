/* The other side: `vtrun front`, `vtrun type ..`. Each word sends one request to the vtrun whose socket is in
 * VTRUN_SOCKET, or named by --socket, and prints its answer.
 *
 * Statuses: 0 done; 1 it isn't so, or didn't come in time; 2 the words aren't of the form; 3 no vtrun is there, or the
 * answer can't be written. `run` has that of its program. */
#include "vtrun.h"
#include <stdlib.h>
#include <string.h>
#include <sys/ioctl.h>
#include <sys/socket.h>
#include <sys/un.h>
#include <termios.h>
#include <unistd.h>

enum {
    DEFAULT_SECONDS = 10,
    MOST_SECONDS = 86400,
    MOST_LINE = 4096,
    MOST_BODY = 65536,
    MOST_ROW = 254,
    NO_CLIENT = -1,
    A_DAY = 86400000,
    UNWRITTEN = 3
};

static const char *socket_path; /* that was given, or NULL */
static int control_fd = -1;
static FILE *from;

static void connect_to(const char *path)
{
    struct sockaddr_un address = { .sun_family = AF_UNIX };
    path = path ? path : getenv("VTRUN_SOCKET");
    if (!path || !*path)
        stop(3, "no vtrun is there: VTRUN_SOCKET isn't set, and --socket PATH isn't given");
    if (strlen(path) >= sizeof address.sun_path)
        stop(2, "--socket %s: the path is too long", path);
    strcpy(address.sun_path, path);
    control_fd = socket(AF_UNIX, SOCK_STREAM | SOCK_CLOEXEC, 0);
    if (control_fd < 0 || connect(control_fd, (struct sockaddr *)&address, sizeof address))
        stop(3, "no vtrun is at %s: %s", path, strerror(errno));
    from = fdopen(control_fd, "r");
    if (!from)
        stop(3, "memory ran out");
}

/* (before it is known that the words are of the form, no vtrun is looked for) */
static void connect_once(void)
{
    if (control_fd < 0)
        connect_to(socket_path);
}

static void send_all(const char *bytes, size_t n)
{
    while (n > 0) {
        ssize_t sent = send(control_fd, bytes, n, MSG_NOSIGNAL);
        if (sent < 0)
            stop(3, "vtrun is gone");
        bytes += sent;
        n -= (size_t)sent;
    }
}

/* Asks, and gives the answer's bytes, with a null byte after them. Whether it was `ok`. */
static bool ask(const char *line, const char *body, size_t n, char **bytes, size_t *length)
{
    char word[8];
    connect_once();
    send_all(line, strlen(line));
    send_all("\n", 1);
    send_all(body, n);
    if (fscanf(from, "%7s %zu", word, length) != 2 || fgetc(from) != '\n')
        stop(3, "vtrun ended");
    *bytes = malloc(*length + 1);
    if (!*bytes || fread(*bytes, 1, *length, from) != *length)
        stop(3, "vtrun ended");
    (*bytes)[*length] = '\0';
    return strcmp(word, "ok") == 0;
}

/* Asks, and prints the answer. The status. */
static int show(const char *line, const char *body, size_t n)
{
    char *bytes;
    size_t length;
    bool is_ok = ask(line, body, n, &bytes, &length);
    if (is_ok)
        print(bytes, length, UNWRITTEN);
    else
        fprintf(stderr, "vtrun: %s\n", bytes);
    free(bytes);
    return is_ok ? 0 : 1;
}

static long seconds_of(const char *word)
{
    char *end;
    double n = word ? strtod(word, &end) : DEFAULT_SECONDS;
    if (word && (end == word || *end || !(n >= 0 && n <= MOST_SECONDS)))
        stop(2, "%s: seconds were wanted, up to 86400", word);
    return (long)(n * 1000);
}

/* A console by its number, from a least one on. */
static unsigned console_of(const char *word, unsigned least)
{
    return number_of(word, "console", least, CONSOLES - 1);
}

static int wait_for(char **words, int count)
{
    char line[256];
    if (count >= 3 && count <= 4 && (strcmp(words[1], "front") == 0 || strcmp(words[1], "owner") == 0)) {
        long ms = seconds_of(count > 3 ? words[3] : NULL);
        snprintf(line, sizeof line, "wait %s %u %ld", words[1], console_of(words[2], 1), ms);
        return show(line, NULL, 0);
    }
    if (count < 4 || count > 5 || strcmp(words[1], "text"))
        stop(2, "`vtrun wait front N [SECONDS]`, `wait owner N [SECONDS]` or `wait text N TEXT [SECONDS]` was wanted");
    size_t n = strlen(words[3]);
    long ms = seconds_of(count > 4 ? words[4] : NULL);
    snprintf(line, sizeof line, "wait text %u %ld %zu", console_of(words[2], 0), ms, n);
    return show(line, words[3], n);
}

static int type_words(char **words, int count)
{
    char line[64];
    if (count != 2)
        stop(2, "`vtrun type TEXT` was wanted");
    snprintf(line, sizeof line, "type %zu", strlen(words[1]));
    return show(line, words[1], strlen(words[1]));
}

static int snap(char **words, int count)
{
    const char *form = NULL, *console = NULL;
    char line[64];
    for (int i = 1; i < count; i++) {
        bool is_form = strcmp(words[i], "--redraw") == 0 || strcmp(words[i], "--svg") == 0;
        if (is_form ? form != NULL : console != NULL || words[i][0] == '-')
            stop(2, "`vtrun snap [N] [--redraw | --svg]` was wanted");
        if (is_form)
            form = words[i] + 2;
        else
            console = words[i];
    }
    snprintf(line, sizeof line, "%s %u", form ? form : "snap", console ? console_of(console, 0) : 0);
    return show(line, NULL, 0);
}

/* Starts a program, and waits for its end. */
static int run(char **words, int count)
{
    static char body[MOST_BODY];
    char line[64], *bytes;
    size_t n = 0, length;
    if (count < 4 || strcmp(words[2], "--"))
        stop(2, "`vtrun run N -- COMMAND ..` was wanted");
    for (int i = 3; i < count; i++) {
        size_t size = strlen(words[i]) + 1;
        if (size > sizeof body - n)
            stop(2, "the command is too long");
        memcpy(body + n, words[i], size);
        n += size;
    }
    if (strcmp(words[1], "-") == 0)
        snprintf(line, sizeof line, "run - %zu", n);
    else
        snprintf(line, sizeof line, "run %u %zu", console_of(words[1], 1), n);
    if (!ask(line, body, n, &bytes, &length))
        stop(1, "%s", bytes);
    snprintf(line, sizeof line, "wait program %.16s %d", strtok(bytes, "\n"), A_DAY);
    free(bytes);
    if (!ask(line, NULL, 0, &bytes, &length))
        stop(1, "%s", bytes);
    return atoi(bytes);
}

/* Tells a word that stands alone. */
static int tell(char **words, int count)
{
    if (count != 1)
        stop(2, "`vtrun %s` was wanted", words[0]);
    return show(words[0], NULL, 0);
}

static int show_row(char **words, int count)
{
    char line[64];
    if (count != 3)
        stop(2, "`vtrun row N R` was wanted");
    snprintf(line, sizeof line, "row %u %u", console_of(words[1], 0), number_of(words[2], "row", 0, MOST_ROW));
    return show(line, NULL, 0);
}

/* Scan bytes of two hexadecimal digits. */
static int scan_words(char **words, int count)
{
    char line[MOST_LINE];
    size_t n = (size_t)snprintf(line, sizeof line, "scan");
    if (count < 2)
        stop(2, "`vtrun scan HH ..` was wanted");
    for (int i = 1; i < count; i++) {
        if (strlen(words[i]) != 2 || strspn(words[i], "0123456789abcdefABCDEF") != 2)
            stop(2, "%s: a byte of two hexadecimal digits was wanted", words[i]);
        if (n + 4 > sizeof line)
            stop(2, "at most %d scan bytes were wanted", (MOST_LINE - 5) / 3);
        n += (size_t)snprintf(line + n, sizeof line - n, " %s", words[i]);
    }
    return show(line, NULL, 0);
}

static int attach(char **words, int count)
{
    char line[64], *bytes;
    size_t length;
    (void)words;
    if (count != 1)
        stop(2, "`vtrun attach` was wanted");
    if (!isatty(STDIN_FILENO) || !isatty(STDOUT_FILENO))
        stop(2, "standard input and output have to be a terminal");
    connect_once();
    take_terminal();
    do {
        struct winsize size = { .ws_row = 25, .ws_col = 80 };
        ioctl(STDOUT_FILENO, TIOCGWINSZ, &size);
        setvbuf(from, NULL, _IONBF, 0);
        snprintf(line, sizeof line, "attach %u %u", size.ws_row ? size.ws_row : 25, size.ws_col ? size.ws_col : 80);
        if (!ask(line, NULL, 0, &bytes, &length))
            stop(1, "%s", bytes);
        free(bytes);
    } while (show_consoles(control_fd) && (fclose(from), connect_to(socket_path), true));
    return 0;
}

/* If the words are those of a request, sends it: its status. Else NO_CLIENT. */
int be_client(int count, char **words)
{
    static const struct {
        const char *name;
        int (*serve)(char **, int);
    } rows[] = {
        { "attach", attach }, { "type", type_words }, { "scan", scan_words }, { "front", tell },
        { "wait", wait_for }, { "snap", snap },       { "run", run },         { "row", show_row },
        { "consoles", tell }, { "processes", tell },  { "journal", tell },    { "end", tell },
    };
    int at = 1;
    if (count > 3 && strcmp(words[1], "--socket") == 0) {
        socket_path = words[2];
        at = 3;
    }
    for (size_t i = 0; at < count && i < sizeof rows / sizeof *rows; i++)
        if (strcmp(words[at], rows[i].name) == 0)
            return rows[i].serve(words + at, count - at);
    return NO_CLIENT;
}
