/* A console: a program on a pseudo-terminal, whose output a screen draws. */
#define _GNU_SOURCE
#include "console.h"
#include <errno.h>
#include <fcntl.h>
#include <signal.h>
#include <stdlib.h>
#include <string.h>
#include <termios.h>
#include <unistd.h>

enum { PIECE = 65536, OUTS = 64, ROOM = 16 * MOST_COLS };

/* The program's side: a session of its own, with the pseudo-terminal as its terminal. */
static void run(const char *name, char **command, const struct winsize *size)
{
    struct termios modes;
    sigset_t none;
    int terminal;
    sigemptyset(&none);
    sigprocmask(SIG_SETMASK, &none, NULL);
    signal(SIGPIPE, SIG_DFL);
    if (setsid() < 0 || (terminal = open(name, O_RDWR)) < 0 || ioctl(terminal, TIOCSCTTY, 0) < 0)
        _exit(126);
    if (tcgetattr(terminal, &modes) == 0) {
        modes.c_iflag |= IUTF8;
        tcsetattr(terminal, TCSANOW, &modes);
    }
    ioctl(terminal, TIOCSWINSZ, size);
    for (int i = 0; i < 3; i++)
        dup2(terminal, i);
    if (terminal > 2)
        close(terminal);
    setenv("TERM", "linux", 1);
    static const char *const others[] = { "TERMCAP", "COLORTERM", "LINES", "COLUMNS", "TMUX", "STY" };
    for (size_t i = 0; i < sizeof others / sizeof *others; i++)
        unsetenv(others[i]);
    execvp(command[0], command);
    int error = errno;
    dprintf(2, "term: %s: %s\r\n", command[0], strerror(error));
    _exit(error == ENOENT ? 127 : 126);
}

int start_console(struct console *c, char **command, const struct winsize *size)
{
    static const struct vt_key_state start = VT_KEY_STATE_START;
    c->kept = malloc(KEPT * sizeof *c->kept);
    if (!c->kept || vt_screen_new(&c->screen, size->ws_row, size->ws_col) != VT_OK) {
        free(c->kept);
        c->kept = NULL;
        errno = ENOMEM;
        return 4;
    }
    c->keys = start;
    c->input_length = c->asked = 0;
    c->child = -1;
    c->master = posix_openpt(O_RDWR | O_NOCTTY | O_CLOEXEC);
    const char *name = c->master < 0 || grantpt(c->master) || unlockpt(c->master) ? NULL : ptsname(c->master);
    if (name)
        c->child = fork();
    if (c->child == 0)
        run(name, command, size);
    if (c->child < 0) {
        int error = errno;
        close_console(c);
        errno = error;
        return 126;
    }
    fcntl(c->master, F_SETFL, O_NONBLOCK);
    c->is_open = true;
    return 0;
}

void close_console(struct console *c)
{
    vt_screen_free(&c->screen);
    free(c->kept);
    c->kept = NULL;
    c->fallen = c->back = 0;
    if (c->master >= 0)
        close(c->master);
    c->master = -1;
    c->child = 0;
    c->is_open = false;
}

void send_to(struct console *c, const void *bytes, size_t length)
{
    if (length > INPUT - c->input_length)
        length = INPUT - c->input_length;
    memcpy(c->input + c->input_length, bytes, length);
    c->input_length += length;
}

void write_input(struct console *c)
{
    ssize_t count = write(c->master, c->input, c->input_length);
    if (count <= 0)
        return;
    c->input_length -= (size_t)count;
    memmove(c->input, c->input + count, c->input_length);
}

/* What a text asks for besides being drawn. */
static void answer(struct console *c, const struct vt_out *out)
{
    switch (out->kind) {
    case VT_REPORT: send_to(c, out->text, out->length); break;
    case VT_BELL: putchar('\a'); break;
    case VT_SWITCH_TO: c->asked = out->number; break;
    case VT_SWITCH_LAST: c->asked = LAST_CONSOLE; break;
    default: break;
    }
}

/* Keeps a row that fell out, with blanks behind its cells; what is shown above the screen stays where it is. */
static void keep(struct console *c, const struct vt_cell *cells, size_t cols)
{
    static const struct vt_cell blank = { .code = ' ', .attr = 7 };
    struct vt_cell *row = c->kept[c->fallen++ % KEPT];
    for (size_t x = 0; x < MOST_COLS; x++)
        row[x] = x < cols ? cells[x] : blank;
    scroll_console(c, c->back > 0 ? 1 : 0);
}

static void feed(struct console *c, const uint8_t *bytes, size_t length)
{
    static struct vt_cell cells[ROOM];
    struct vt_out outs[OUTS];
    struct vt_fed fed;
    struct vt_state state;
    vt_screen_state(&c->screen, &state);
    for (size_t at = 0; at < length; at += fed.taken) {
        if (vt_screen_feed_rows(&c->screen, bytes + at, length - at, outs, OUTS, cells, ROOM, &fed) != VT_OK)
            return;
        for (size_t i = 0; i < fed.outs; i++)
            answer(c, &outs[i]);
        for (size_t i = 0; i < fed.rows; i++)
            keep(c, cells + i * state.cols, state.cols);
    }
}

void scroll_console(struct console *c, long rows)
{
    size_t most = c->fallen < KEPT ? c->fallen : KEPT;
    if (rows < 0)
        c->back -= c->back < (size_t)-rows ? c->back : (size_t)-rows;
    else
        c->back = most - c->back < (size_t)rows ? most : c->back + (size_t)rows;
}

const struct vt_cell *kept_row(const struct console *c, size_t above)
{
    return c->kept[(c->fallen - above) % KEPT];
}

ssize_t read_output(struct console *c, FILE *record)
{
    static uint8_t piece[PIECE];
    ssize_t count = read(c->master, piece, sizeof piece);
    if (count < 0 && (errno == EAGAIN || errno == EINTR))
        return 0;
    if (count <= 0) {
        c->is_open = false;
        return -1;
    }
    if (record)
        fwrite(piece, 1, (size_t)count, record);
    feed(c, piece, (size_t)count);
    return count;
}

bool resize_console(struct console *c, const struct winsize *size)
{
    if (vt_screen_resize(&c->screen, size->ws_row, size->ws_col) != VT_OK)
        return false;
    ioctl(c->master, TIOCSWINSZ, size);
    return true;
}
