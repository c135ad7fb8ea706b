/* The programs, as vtrun sees them: what it asks the starter for, and how each ended. */
#include "starter.h"
#include "vtrun.h"
#include <fcntl.h>
#include <linux/seccomp.h>
#include <stdlib.h>
#include <string.h>
#include <sys/epoll.h>
#include <sys/ioctl.h>
#include <sys/socket.h>
#include <sys/wait.h>
#include <unistd.h>

#ifndef SECCOMP_IOCTL_NOTIF_SET_FLAGS
#define SECCOMP_IOCTL_NOTIF_SET_FLAGS SECCOMP_IOW(4, __u64)
#define SECCOMP_USER_NOTIF_FD_SYNC_WAKE_UP 1
#endif

enum { COMMAND = 0 };

int starter = -1;
pid_t starter_pid;

/* Takes the starter's first message: the consoles that are bound, the listener, and the nodes. */
static bool receive_start(void)
{
    uint64_t bound = 0;
    char room[CMSG_SPACE(CONSOLES * sizeof(int))] = { 0 };
    int fds[CONSOLES], at = 1;
    struct iovec part = { &bound, sizeof bound };
    struct msghdr message = { .msg_iov = &part, .msg_iovlen = 1, .msg_control = room, .msg_controllen = sizeof room };
    if (recvmsg(starter, &message, MSG_CMSG_CLOEXEC) != sizeof bound)
        return false;
    if (message.msg_flags & MSG_CTRUNC || !CMSG_FIRSTHDR(&message))
        stop(126, "the consoles can't be taken: %s", strerror(EMFILE));
    size_t length = CMSG_FIRSTHDR(&message)->cmsg_len - CMSG_LEN(0);
    memcpy(fds, CMSG_DATA(CMSG_FIRSTHDR(&message)), length);
    listener = fds[0];
    for (unsigned n = 1; n < CONSOLES; n++)
        if (bound >> n & 1) {
            close(consoles[n].node);
            consoles[n].node = fds[at++];
            consoles[n].is_bound = true;
        }
    return true;
}

void start_starter(void)
{
    int pair[2];
    if (socketpair(AF_UNIX, SOCK_SEQPACKET | SOCK_CLOEXEC, 0, pair))
        stop(126, "no socket: %s", strerror(errno));
    fflush(NULL);
    starter_pid = fork();
    if (starter_pid == 0)
        be_starter(pair[1]);
    if (starter_pid < 0)
        stop(126, "no process can be started: %s", strerror(errno));
    close(pair[1]);
    starter = pair[0];
    if (!receive_start())
        stop(126, "the programs can't be started"); /* (the starter has said why) */
    uint64_t flags = SECCOMP_USER_NOTIF_FD_SYNC_WAKE_UP;
    ioctl(listener, SECCOMP_IOCTL_NOTIF_SET_FLAGS, flags);
    watch(listener, OF_LISTENER, 0, EPOLLIN);
    watch(starter, OF_STARTER, 0, EPOLLIN);
}

/* Starts a program on a console, or the command if it has no words. */
bool run_program(unsigned console, char *const *words, unsigned number)
{
    static char text[MOST_ORDER];
    struct order order = { console, number };
    size_t length = sizeof order;
    memcpy(text, &order, sizeof order);
    for (size_t i = 0; words && words[i]; i++) {
        size_t n = strlen(words[i]) + 1;
        if (n > sizeof text - length) {
            errno = E2BIG;
            return false;
        }
        memcpy(text + length, words[i], n);
        length += n;
    }
    return send(starter, text, length, MSG_NOSIGNAL) == (ssize_t)length;
}

void read_starter(void)
{
    struct report report;
    ssize_t n = recv(starter, &report, sizeof report, MSG_DONTWAIT);
    if (n == sizeof report) {
        if (report.number == COMMAND && status < 0) {
            status = report.status;
            hang_up();
        } else if (report.number != COMMAND) {
            program_ended(report.number, report.status);
        }
        return;
    }
    if (n < 0 && (errno == EAGAIN || errno == EINTR))
        return;
    is_ending = true;
    if (status < 0)
        status = 126;
}

/* Lets all programs end. The loop goes on until they have. */
void hang_up(void)
{
    shutdown(starter, SHUT_WR);
}
