/* Notifications: the system calls that the kernel stopped, and their answers (seccomp_unotify(2)).
 *
 * A request for a console, VT_*, KD* or TIOCLINUX, is never passed on to the kernel: whatever its descriptor is, no
 * console of the real machine gets it. */
#include "vtrun.h"
#include <linux/seccomp.h>
#include <string.h>
#include <sys/ioctl.h>
#include <sys/stat.h>
#include <sys/syscall.h>
#include <sys/sysmacros.h>

enum { LOST = 16, REPEATED_MS = 1000 };

int listener = -1;

/* Answers that no one took, since a signal came meanwhile (before Linux 5.19). The kernel makes such a call again, or
 * the program does, from the same place and soon, and it gets the same answer: it must not be done twice. */
static struct {
    pid_t thread;
    uint64_t place, words[3];
    int64_t at;
    int64_t value;
    int error;
} lost[LOST];
static unsigned next_lost;

bool is_valid(uint64_t id)
{
    return ioctl(listener, SECCOMP_IOCTL_NOTIF_ID_VALID, &id) == 0;
}

static bool send_answer(uint64_t id, int64_t value, int error, uint32_t flags)
{
    struct seccomp_notif_resp it = { .id = id, .val = error ? 0 : value, .error = -error, .flags = flags };
    return ioctl(listener, SECCOMP_IOCTL_NOTIF_SEND, &it) == 0;
}

void answer(uint64_t id, int64_t value, int error)
{
    send_answer(id, value, error, 0);
}

void pass_on(uint64_t id)
{
    send_answer(id, 0, 0, SECCOMP_USER_NOTIF_FLAG_CONTINUE);
}

static void answer_once(const struct seccomp_notif *it, int64_t value, int error)
{
    if (send_answer(it->id, value, error, 0) || error == ECANCELED)
        return; /* (after ECANCELED nothing was done: the process went away before) */
    lost[next_lost].thread = (pid_t)it->pid;
    lost[next_lost].place = it->data.instruction_pointer;
    lost[next_lost].at = now_ms();
    memcpy(lost[next_lost].words, it->data.args, sizeof lost->words);
    lost[next_lost].value = value;
    lost[next_lost].error = error;
    next_lost = (next_lost + 1) % LOST;
}

/* Whether this is a call that was answered already, and its answer was lost. Any call forgets its thread's answers. */
static bool answer_again(const struct seccomp_notif *it)
{
    int known = -1;
    for (int i = 0; i < LOST; i++) {
        if (lost[i].thread != (pid_t)it->pid)
            continue;
        lost[i].thread = 0;
        if (lost[i].place == it->data.instruction_pointer && now_ms() - lost[i].at < REPEATED_MS &&
            memcmp(lost[i].words, it->data.args, sizeof lost->words) == 0)
            known = i;
    }
    if (known < 0)
        return false;
    answer_once(it, lost[known].value, lost[known].error);
    return true;
}

static bool stat_descriptor(pid_t thread, int fd, struct stat *found)
{
    char path[48];
    snprintf(path, sizeof path, "/proc/%d/fd/%d", thread, fd);
    return stat(path, found) == 0;
}

static bool is_real_console(const struct stat *found)
{
    unsigned kind = major(found->st_rdev), n = minor(found->st_rdev);
    return S_ISCHR(found->st_mode) && ((kind == 4 && n < CONSOLES) || (kind == 5 && n < 2));
}

static void serve_request_of(const struct seccomp_notif *it, unsigned console)
{
    struct asked asked = { .id = it->id,
                           .pid = (pid_t)it->pid,
                           .console = console,
                           .number = (uint32_t)it->data.args[1],
                           .argument = it->data.args[2] };
    asked.seat = seat_of(asked.pid);
    if (!asked.seat) {
        answer(it->id, 0, errno);
        return;
    }
    read_output(console);
    int fd = descriptor_on(asked.seat, console);
    asked.descriptor = (uint16_t)(fd < 0 ? 0 : fd);
    int error = fd < 0 ? -fd : serve_request(&asked);
    if (error != HELD)
        answer_once(it, asked.value, error);
    settle_waits();
}

/* TIOCSWINSZ resizes the console's screen, as on Linux. */
static void serve_window(const struct seccomp_notif *it, unsigned console)
{
    struct winsize size;
    struct asked asked = { .id = it->id, .pid = (pid_t)it->pid, .argument = it->data.args[2] };
    int error = fetch(&asked, &size, sizeof size);
    unsigned seat = error ? 0 : seat_of(asked.pid);
    if (!error && !seat)
        error = errno;
    if (!error) {
        read_output(console);
        int fd = descriptor_on(seat, console);
        error = fd < 0 ? -fd : ACT(seat, "resize", (uint16_t)fd, size.ws_row, size.ws_col);
    }
    if (!error)
        set_size(console);
    answer_once(it, 0, error);
}

static void serve_ioctl(const struct seccomp_notif *it)
{
    struct stat found;
    if (answer_again(it))
        return;
    if (!stat_descriptor((pid_t)it->pid, (int)it->data.args[0], &found)) {
        answer(it->id, 0, EBADF);
        return;
    }
    unsigned console = console_of_descriptor((pid_t)it->pid, &found);
    bool is_window = (uint32_t)it->data.args[1] == TIOCSWINSZ;
    if (console && is_window)
        serve_window(it, console);
    else if (console)
        serve_request_of(it, console);
    else if (is_window && !is_real_console(&found))
        pass_on(it->id);
    else
        answer(it->id, 0, ENOTTY);
}

void receive(void)
{
    struct seccomp_notif it;
    memset(&it, 0, sizeof it);
    if (ioctl(listener, SECCOMP_IOCTL_NOTIF_RECV, &it))
        return;
    if (are_held())
        look_at_held();
    if (it.data.nr == SYS_ioctl)
        serve_ioctl(&it);
    else
        serve_file(&it);
    send_signals();
}
