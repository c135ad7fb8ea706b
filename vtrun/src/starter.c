/* The starter: the process that all programs come from. It stands in their namespace and under their filter, starts
 * what vtrun asks for, tells how each ended, and lets all end when vtrun does, however that is. */
#include "starter.h"
#include "vtrun.h"
#include <dirent.h>
#include <fcntl.h>
#include <grp.h>
#include <poll.h>
#include <pwd.h>
#include <signal.h>
#include <stdlib.h>
#include <string.h>
#include <sys/ioctl.h>
#include <sys/prctl.h>
#include <sys/signalfd.h>
#include <sys/socket.h>
#include <sys/wait.h>
#include <unistd.h>

enum { MOST_WORDS = 1024, MOST_PROGRAMS = 1024, GRACE_MS = 500, STEP_MS = 20 };

static int children = -1; /* the list of its children, in /proc: opened before the filter is there */

static void take_console(unsigned n)
{
    char path[32];
    snprintf(path, sizeof path, "/dev/tty%u", n);
    int fd = open(path, O_RDWR);
    if (fd < 0 || (ioctl(fd, TIOCSCTTY, 0) && errno != EPERM)) {
        dprintf(2, "vtrun: %s: %s\n", path, strerror(errno));
        _exit(126);
    }
    if (options.on == n)
        for (int i = 0; i < 3; i++)
            dup2(fd, i);
    if (fd > 2)
        close(fd);
}

static void become_user(void)
{
    const struct passwd *it = options.user ? getpwnam(options.user) : NULL;
    if (!options.user || geteuid())
        return;
    if (!it || initgroups(it->pw_name, it->pw_gid) || setgid(it->pw_gid) || setuid(it->pw_uid)) {
        dprintf(2, "vtrun: %s: %s\n", options.user, it ? strerror(errno) : "no such user");
        _exit(126);
    }
    setenv("HOME", it->pw_dir, 1);
    setenv("USER", it->pw_name, 1);
    setenv("LOGNAME", it->pw_name, 1);
}

static _Noreturn void become(const struct order *order, char *const *words)
{
    static const char *const others[] = { "TERMCAP", "COLORTERM", "LINES", "COLUMNS", "TMUX", "STY", "DISPLAY" };
    sigset_t none;
    sigemptyset(&none);
    sigprocmask(SIG_SETMASK, &none, NULL);
    /* (a caller in the background may have ignored some: a login ignores none) */
    for (int number = 1; number < NSIG; number++)
        signal(number, SIG_DFL);
    setsid();
    options.on = order->console;
    take_console(order->console ? order->console : 1);
    setenv("TERM", "linux", 1);
    for (size_t i = 0; i < sizeof others / sizeof *others; i++)
        unsetenv(others[i]);
    become_user();
    execvp(words[0], words);
    int error = errno;
    dprintf(2, "vtrun: %s: %s\n", words[0], strerror(error));
    _exit(error == ENOENT ? 127 : 126);
}

static struct {
    pid_t pid;
    uint32_t number;
} programs[MOST_PROGRAMS];

static void report(int to, uint32_t number, int how)
{
    struct report it = { number, WIFEXITED(how) ? WEXITSTATUS(how) : 128 + WTERMSIG(how) };
    send(to, &it, sizeof it, MSG_NOSIGNAL);
}

static void start_program(int from, char *text, size_t length)
{
    struct order order;
    char *words[MOST_WORDS] = { NULL };
    size_t count = 0, slot = 0;
    memcpy(&order, text, sizeof order);
    for (size_t at = sizeof order; at < length && count < MOST_WORDS - 1; at += strlen(text + at) + 1)
        words[count++] = text + at;
    while (slot < MOST_PROGRAMS && programs[slot].pid)
        slot++;
    pid_t pid = slot < MOST_PROGRAMS ? fork() : -1;
    if (pid == 0)
        become(&order, count ? words : options.command);
    if (pid < 0) {
        report(from, order.number, 126 << 8);
        return;
    }
    programs[slot].pid = pid;
    programs[slot].number = order.number;
}

static void reap(int to)
{
    int how;
    pid_t pid;
    while ((pid = waitpid(-1, &how, WNOHANG)) > 0)
        for (size_t i = 0; i < MOST_PROGRAMS; i++)
            if (programs[i].pid == pid) {
                report(to, programs[i].number, how);
                programs[i].pid = 0;
            }
}

/* Sends a signal to each child; children of an ended one are children of the starter. Whether there are any. */
static bool signal_children(int number)
{
    char text[4096];
    ssize_t count = pread(children, text, sizeof text - 1, 0);
    if (count <= 0)
        return false;
    text[count] = '\0';
    for (char *at = text, *end; (void)strtol(at, &end, 10), end != at; at = end)
        kill((pid_t)strtol(at, NULL, 10), number);
    return true;
}

/* Ends all programs: by a hang-up, and after a while by force. */
static _Noreturn void end_programs(void)
{
    signal_children(SIGHUP);
    signal_children(SIGCONT);
    int64_t end = now_ms() + GRACE_MS;
    while (signal_children(0)) {
        if (now_ms() >= end)
            signal_children(SIGKILL);
        poll(NULL, 0, STEP_MS);
        while (waitpid(-1, NULL, WNOHANG) > 0)
            ;
    }
    _exit(0);
}

_Noreturn void run_starter(int socket, int signals, int list)
{
    static char text[MOST_ORDER + 1];
    struct pollfd both[2] = { { socket, POLLIN, 0 }, { signals, POLLIN, 0 } };
    struct signalfd_siginfo one;
    children = list;
    for (;;) {
        if (poll(both, 2, -1) < 0)
            continue;
        if (both[1].revents && read(signals, &one, sizeof one) > 0)
            reap(socket);
        if (!both[0].revents)
            continue;
        ssize_t length = recv(socket, text, MOST_ORDER, 0);
        if (length < (ssize_t)sizeof(struct order))
            end_programs();
        text[length] = '\0';
        start_program(socket, text, (size_t)length);
    }
}
