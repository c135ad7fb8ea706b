/* A terminal with six consoles: runs programs on pseudo-terminals with TERM=linux, draws what the one in front writes
 * into the terminal that one sits at, and hands keys on.
 *
 *     cc -o term term.c console.c typed.c draw.c picture.c $(pkg-config --cflags --libs vt)
 *     ./term [--status] [--record FILE] [--picture FILE] [COMMAND ..]
 *
 * Console 1 runs the command, or $SHELL. Alt+F1 to Alt+F6 bring a console to the front, Alt+Left and Alt+Right the one
 * before and the next one; a console that isn't there yet gets a shell. Shift+PageUp and Shift+PageDown go through the
 * rows that fell out at the top, half a screen at a time; another key shows the screen again. A console is closed with
 * its program, and the terminal ends with the last one, with the status of console 1's. --status shows the consoles in
 * the last row.
 * --record keeps what the command wrote, as `vt screen` reads it; --picture writes console 1's last screen in SVG.
 *
 * Status 1: other words, or no terminal on standard input and output; 2: a file can't be written; 3: the terminal
 * can't be written; 4: memory ran out; 126, 127: the command can't be run; 128 and a signal: that signal ended it. */
#define _GNU_SOURCE
#include "cells.h"
#include "console.h"
#include "draw.h"
#include "picture.h"
#include "typed.h"
#include <errno.h>
#include <poll.h>
#include <signal.h>
#include <stdio.h>
#include <stdlib.h>
#include <string.h>
#include <sys/ioctl.h>
#include <sys/signalfd.h>
#include <sys/wait.h>
#include <termios.h>
#include <time.h>
#include <unistd.h>

enum { CONSOLES = 6, COMMAND = 1, TYPED = 4096, QUIET_MS = 4, FRAME_MS = 30, REST = 64 };

static struct termios before;
static bool is_taken;
static int signals;
static struct vt_keys keyboard;
static struct console consoles[CONSOLES + 1]; /* by their numbers, from 1 */
static unsigned front = COMMAND, last = COMMAND;
static char *shell[2];
static FILE *record, *picture;
static bool has_status;
static bool is_whole = true; /* whether all rows have to be drawn */
static int status_of_command, ending = -1; /* the status if the terminal ends before its consoles */

static void restore(void)
{
    if (!is_taken)
        return;
    is_taken = false;
    end_drawing();
    tcsetattr(STDIN_FILENO, TCSADRAIN, &before);
}

static void fail(int status, const char *what)
{
    int error = errno;
    restore();
    fprintf(stderr, "term: %s%s%s\n", what, status == 1 ? "" : ": ", status == 1 ? "" : strerror(error));
    exit(status);
}

static void take_terminal(void)
{
    struct termios raw = before;
    cfmakeraw(&raw);
    if (tcsetattr(STDIN_FILENO, TCSADRAIN, &raw))
        fail(1, "the terminal can't be set");
    is_taken = true;
    begin_drawing(&consoles[front].screen);
}

/* The size of each console: that of the terminal, less the row of the status. */
static struct winsize size_of_consoles(void)
{
    struct winsize size = { .ws_row = 25, .ws_col = 80 };
    ioctl(STDOUT_FILENO, TIOCGWINSZ, &size);
    if (has_status && size.ws_row > 1)
        size.ws_row--;
    size.ws_row = size.ws_row < 1 ? 25 : size.ws_row > MOST_ROWS ? MOST_ROWS : size.ws_row;
    size.ws_col = size.ws_col < 1 ? 80 : size.ws_col > MOST_COLS ? MOST_COLS : size.ws_col;
    return size;
}

/* Brings a console to the front, with a shell if it isn't there yet. */
static void bring(unsigned n)
{
    struct winsize size = size_of_consoles();
    if (n < 1 || n > CONSOLES || n == front)
        return;
    if (!is_there(&consoles[n]) && start_console(&consoles[n], shell, &size) != 0) {
        putchar('\a');
        return;
    }
    last = front;
    front = n;
    is_whole = true;
}

/* The next console that is there, or the one before: `step` is 1 or CONSOLES - 1. */
static unsigned neighbour(unsigned step)
{
    unsigned n = front;
    do
        n = (n - 1 + step) % CONSOLES + 1;
    while (n != front && !is_there(&consoles[n]));
    return n;
}

static void act(const struct vt_key *key)
{
    switch (key->kind) {
    case VT_KEY_BYTES: send_to(&consoles[front], key->bytes, key->length); break;
    case VT_KEY_SWITCH: bring(key->number); break;
    case VT_KEY_NEXT: bring(neighbour(1)); break;
    case VT_KEY_PREV: bring(neighbour(CONSOLES - 1)); break;
    default: break;
    }
}

/* Shows rows above the screen, or below them, if the bytes begin with Shift+PageUp or Shift+PageDown; how many bytes
 * that takes. */
static size_t scroll(struct console *c, const char *bytes, size_t length, long rows)
{
    static const char up[] = "\033[5;2~", down[] = "\033[6;2~";
    size_t count = sizeof up - 1;
    bool is_up = length >= count && memcmp(bytes, up, count) == 0;
    bool is_down = length >= count && memcmp(bytes, down, count) == 0;
    scroll_console(c, is_up ? rows : is_down ? -rows : -KEPT);
    return is_up || is_down ? count : 0;
}

/* Types what came from the terminal, each key into the console that is in front then. */
static void type(const char *bytes, size_t length)
{
    for (size_t at = 0; at < length;) {
        struct console *c = &consoles[front];
        struct vt_state state = { 0 };
        struct vt_key key;
        vt_screen_state(&c->screen, &state);
        size_t back = c->back, taken = scroll(c, bytes + at, length - at, (state.rows + 1) / 2);
        is_whole = is_whole || c->back != back;
        at += taken;
        if (taken > 0)
            continue;
        at += take_key(&keyboard, bytes + at, length - at, &state.modes, &c->keys, &key);
        act(&key);
    }
}

/* Reads a console's output, and brings the console to the front that its program asked for. */
static ssize_t read_console(unsigned n)
{
    struct console *c = &consoles[n];
    ssize_t count = read_output(c, n == COMMAND ? record : NULL);
    if (record && ferror(record))
        fail(2, "the recording can't be written");
    unsigned asked = c->asked != LAST_CONSOLE ? c->asked : is_there(&consoles[last]) ? last : 0;
    c->asked = 0;
    bring(asked);
    return count;
}

static void resize(void)
{
    struct winsize size = size_of_consoles();
    for (unsigned n = 1; n <= CONSOLES; n++)
        if (is_there(&consoles[n]))
            resize_console(&consoles[n], &size);
    fputs("\033[0m\033[2J", stdout);
    is_whole = true;
}

/* Draws the screen, or the rows above it that one went back to. */
static bool draw_front(struct console *c)
{
    const struct vt_cell *rows[MOST_ROWS];
    int count = 0;
    if (c->back == 0)
        return draw_screen(&c->screen, is_whole);
    for (size_t above = c->back; above > 0 && count < MOST_ROWS; above--)
        rows[count++] = kept_row(c, above);
    return draw_back(&c->screen, rows, count);
}

static void draw(void)
{
    struct winsize size = size_of_consoles();
    char text[8 * CONSOLES] = "", *end = text;
    for (unsigned n = 1; n <= CONSOLES; n++)
        if (is_there(&consoles[n]))
            end += sprintf(end, n == front ? "[%u]" : " %u ", n);
    if (has_status && is_whole)
        draw_status(size.ws_row, size.ws_col, text);
    if (!draw_front(&consoles[front]))
        fail(3, "the terminal can't be written");
    is_whole = false;
}

/* Draws what a program that ended had written, and closes its console. */
static void finish(unsigned n)
{
    struct console *c = &consoles[n];
    for (int i = 0; i < REST && c->is_open && read_console(n) > 0; i++)
        ;
    if (n == front)
        draw();
    if (n == COMMAND && picture && !write_picture(picture, &c->screen))
        fail(4, "no memory for the picture");
    close_console(c);
    if (n == front)
        bring(neighbour(1));
    is_whole = true;
}

static bool is_any_there(void)
{
    for (unsigned n = 1; n <= CONSOLES; n++)
        if (is_there(&consoles[n]))
            return true;
    return false;
}

/* Closes the consoles whose programs ended. */
static void take_ends(void)
{
    for (unsigned n = 1; n <= CONSOLES; n++) {
        int ended;
        if (!is_there(&consoles[n]) || waitpid(consoles[n].child, &ended, WNOHANG) != consoles[n].child)
            continue;
        if (n == COMMAND)
            status_of_command = WIFEXITED(ended) ? WEXITSTATUS(ended) : 128 + WTERMSIG(ended);
        finish(n);
    }
}

/* Ends the terminal with this status. */
static void hang_up(int status)
{
    ending = status;
    for (unsigned n = 1; n <= CONSOLES; n++)
        if (is_there(&consoles[n]))
            kill(consoles[n].child, SIGHUP);
}

static void take_signals(void)
{
    struct signalfd_siginfo one;
    while (read(signals, &one, sizeof one) == sizeof one) {
        switch (one.ssi_signo) {
        case SIGCHLD: take_ends(); break;
        case SIGWINCH: resize(); break;
        case SIGTSTP:
            restore();
            raise(SIGSTOP);
            break;
        case SIGCONT:
            take_terminal();
            is_whole = true;
            break;
        default: hang_up(128 + (int)one.ssi_signo);
        }
    }
}

static void block_signals(void)
{
    sigset_t caught;
    static const int numbers[] = { SIGCHLD, SIGWINCH, SIGTERM, SIGHUP, SIGINT, SIGQUIT, SIGTSTP, SIGCONT };
    sigemptyset(&caught);
    for (size_t i = 0; i < sizeof numbers / sizeof *numbers; i++)
        sigaddset(&caught, numbers[i]);
    sigprocmask(SIG_BLOCK, &caught, NULL);
    signal(SIGPIPE, SIG_IGN);
    signals = signalfd(-1, &caught, SFD_CLOEXEC | SFD_NONBLOCK);
    if (signals < 0)
        fail(126, "no signals");
}

static long now_ms(void)
{
    struct timespec now;
    clock_gettime(CLOCK_MONOTONIC, &now);
    return now.tv_sec * 1000 + now.tv_nsec / 1000000;
}

/* Waits for keys, for output and room of the consoles, and for signals, at the places 0, their numbers, and the last. */
static int wait_for(struct pollfd waits[CONSOLES + 2], int most_ms)
{
    bool has_room = INPUT - consoles[front].input_length >= 2 * TYPED;
    waits[0] = (struct pollfd){ STDIN_FILENO, has_room ? POLLIN : 0, 0 };
    for (unsigned n = 1; n <= CONSOLES; n++) {
        short events = (short)(POLLIN | (consoles[n].input_length > 0 ? POLLOUT : 0));
        waits[n] = (struct pollfd){ consoles[n].is_open ? consoles[n].master : -1, events, 0 };
    }
    waits[CONSOLES + 1] = (struct pollfd){ signals, POLLIN, 0 };
    return poll(waits, CONSOLES + 2, most_ms);
}

/* Hands on what came; whether the console in front has output to draw. */
static bool hand_on(const struct pollfd waits[CONSOLES + 2])
{
    static char typed[TYPED];
    bool has_output = false;
    if (waits[0].revents) {
        ssize_t length = read(STDIN_FILENO, typed, sizeof typed);
        if (length <= 0)
            hang_up(128 + SIGHUP);
        else
            type(typed, (size_t)length);
    }
    for (unsigned n = 1; n <= CONSOLES; n++) {
        if (waits[n].revents & POLLOUT)
            write_input(&consoles[n]);
        if (waits[n].revents & (POLLIN | POLLHUP | POLLERR)) {
            read_console(n);
            has_output = has_output || n == front;
        }
    }
    if (waits[CONSOLES + 1].revents)
        take_signals();
    return has_output;
}

/* Hands keys and output on until every console is closed, and draws when it is quiet or a frame is over. */
static void serve(void)
{
    bool is_stale = true;
    long since = now_ms();
    while (ending < 0 && is_any_there()) {
        struct pollfd waits[CONSOLES + 2];
        int count = wait_for(waits, is_stale ? QUIET_MS : -1);
        if (count > 0 && hand_on(waits)) {
            since = is_stale ? since : now_ms();
            is_stale = true;
        }
        is_stale = is_stale || is_whole;
        if (is_stale && is_there(&consoles[front]) && (count == 0 || now_ms() - since >= FRAME_MS)) {
            draw();
            is_stale = false;
        }
    }
}

/* Opens the file that a word names, or ends with status 2. */
static FILE *opened(const char *name)
{
    FILE *file = fopen(name, "wbe");
    if (!file)
        fail(2, name);
    return file;
}

static void close_file(FILE *file, const char *what)
{
    if (file && (ferror(file) | fclose(file)))
        fail(2, what);
}

/* Reads the words before the command; the place of the command. */
static int read_options(int count, char **words)
{
    int at = 1;
    while (at < count && words[at][0] == '-' && strcmp(words[at], "--") != 0) {
        FILE **file = strcmp(words[at], "--record") == 0    ? &record
                      : strcmp(words[at], "--picture") == 0 ? &picture
                                                            : NULL;
        if (strcmp(words[at], "--status") == 0) {
            has_status = true;
            at++;
        } else if (file && at + 1 < count) {
            *file = opened(words[at + 1]);
            at += 2;
        } else {
            fail(1, "usage: term [--status] [--record FILE] [--picture FILE] [COMMAND ..]");
        }
    }
    return at < count && strcmp(words[at], "--") == 0 ? at + 1 : at;
}

int main(int count, char **words)
{
    int at = read_options(count, words);
    shell[0] = getenv("SHELL");
    if (!shell[0])
        shell[0] = "/bin/sh";
    if (!isatty(STDOUT_FILENO) || tcgetattr(STDIN_FILENO, &before))
        fail(1, "standard input and output have to be a terminal");
    block_signals();
    if (!make_keyboard(&keyboard)) {
        errno = ENOMEM;
        fail(4, "no keyboard");
    }
    struct winsize size = size_of_consoles();
    int status = start_console(&consoles[COMMAND], at < count ? words + at : shell, &size);
    if (status != 0)
        fail(status, "no console");
    atexit(restore);
    take_terminal();
    serve();
    for (unsigned n = 1; n <= CONSOLES; n++)
        if (is_there(&consoles[n]))
            finish(n);
    restore();
    vt_keys_free(&keyboard);
    close_file(picture, "the picture can't be written");
    close_file(record, "the recording can't be written");
    return ending < 0 ? status_of_command : ending;
}
