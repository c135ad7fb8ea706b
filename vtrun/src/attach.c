/* Shows the console in front in one's own terminal, and types one's keys. Ctrl+] leaves. */
#include "vtrun.h"
#include <poll.h>
#include <signal.h>
#include <stdlib.h>
#include <string.h>
#include <sys/socket.h>
#include <termios.h>
#include <unistd.h>

enum { LEAVE = 0x1d, PIECE = 65536 };

static struct termios before;
static volatile sig_atomic_t is_taken;
static sigset_t while_polling;
static volatile sig_atomic_t is_resized; /* (a signal comes in a poll alone: so no poll begins after one was missed) */

static void write_all(int fd, const char *bytes, size_t n)
{
    while (n > 0) {
        ssize_t count = write(fd, bytes, n);
        if (count < 0 && errno != EINTR)
            return;
        if (count > 0) {
            bytes += count;
            n -= (size_t)count;
        }
    }
}

static void restore(void)
{
    static const char end[] = "\033[0m\033[2J\033[H\033[?25h\033[?1049l";
    if (!is_taken)
        return;
    is_taken = 0;
    write_all(STDOUT_FILENO, end, sizeof end - 1);
    tcsetattr(STDIN_FILENO, TCSADRAIN, &before);
}

static void on_signal(int number)
{
    restore();
    _exit(128 + number);
}

static void on_resize(int number)
{
    (void)number;
    is_resized = 1;
}

/* Makes the terminal one that hands on each key. */
void take_terminal(void)
{
    static const char begin[] = "\033[?1049h\033[2J";
    static const int ends[] = { SIGINT, SIGQUIT, SIGTERM, SIGHUP };
    struct sigaction action = { .sa_handler = on_resize };
    struct termios raw;
    sigset_t resize;
    if (tcgetattr(STDIN_FILENO, &before))
        stop(2, "standard input has to be a terminal");
    raw = before;
    cfmakeraw(&raw);
    tcsetattr(STDIN_FILENO, TCSADRAIN, &raw);
    for (size_t i = 0; i < sizeof ends / sizeof *ends; i++)
        signal(ends[i], on_signal);
    /* (a key that vtrun doesn't take any more must not end this before the terminal is as it was) */
    signal(SIGPIPE, SIG_IGN);
    sigaction(SIGWINCH, &action, NULL);
    sigemptyset(&resize);
    sigaddset(&resize, SIGWINCH);
    sigprocmask(SIG_BLOCK, &resize, &while_polling);
    sigdelset(&while_polling, SIGWINCH);
    write_all(STDOUT_FILENO, begin, sizeof begin - 1);
    is_taken = 1;
    atexit(restore);
    before_stop = restore;
}

/* Hands on what is typed. False if it was Ctrl+], or the terminal is gone. */
static bool hand_on_keys(int fd)
{
    static char typed[4096];
    ssize_t n = read(STDIN_FILENO, typed, sizeof typed);
    const char *leave = n > 0 ? memchr(typed, LEAVE, (size_t)n) : NULL;
    if (n <= 0)
        return false;
    write_all(fd, typed, leave ? (size_t)(leave - typed) : (size_t)n);
    return !leave;
}

/* Shows what is drawn and hands on what is typed. True if the terminal has another size, and has to be shown anew. */
bool show_consoles(int fd)
{
    static char drawn[PIECE];
    struct pollfd both[2] = { { STDIN_FILENO, POLLIN, 0 }, { fd, POLLIN, 0 } };
    is_resized = 0;
    for (;;) {
        int count = ppoll(both, 2, NULL, &while_polling);
        if (is_resized)
            return true;
        if (count < 0)
            continue;
        if (both[0].revents && !hand_on_keys(fd))
            return false;
        if (!both[1].revents)
            continue;
        ssize_t n = read(fd, drawn, sizeof drawn);
        if (n <= 0)
            return false;
        write_all(STDOUT_FILENO, drawn, (size_t)n);
    }
}
