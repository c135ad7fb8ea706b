/* How the starter begins: its namespace, its descriptors, its filter. */
#include "starter.h"
#include "vtrun.h"
#include <dirent.h>
#include <fcntl.h>
#include <signal.h>
#include <stdlib.h>
#include <string.h>
#include <sys/prctl.h>
#include <sys/signalfd.h>
#include <sys/socket.h>
#include <sys/stat.h>
#include <sys/sysmacros.h>
#include <unistd.h>

/* Opens the nodes of the consoles that are bound, and returns how many. One that can't be opened is bound no more. */
static int open_nodes(uint64_t *bound, int *fds)
{
    char path[32];
    int count = 0;
    for (unsigned n = 1; n < CONSOLES; n++) {
        if (!(*bound >> n & 1))
            continue;
        snprintf(path, sizeof path, "/dev/tty%u", n);
        fds[count] = open(path, O_PATH | O_CLOEXEC);
        if (fds[count] >= 0)
            count++;
        else
            *bound &= ~((uint64_t)1 << n);
    }
    return count;
}

/* Sends the consoles that are bound, with the listener and the nodes as descriptors. */
static void send_start(int to, uint64_t bound, const int *fds, int count)
{
    char room[CMSG_SPACE(CONSOLES * sizeof(int))] = { 0 };
    struct iovec part = { &bound, sizeof bound };
    struct msghdr message = { .msg_iov = &part,
                              .msg_iovlen = 1,
                              .msg_control = room,
                              .msg_controllen = CMSG_SPACE((size_t)count * sizeof(int)) };
    struct cmsghdr *head = CMSG_FIRSTHDR(&message);
    head->cmsg_level = SOL_SOCKET;
    head->cmsg_type = SCM_RIGHTS;
    head->cmsg_len = CMSG_LEN((size_t)count * sizeof(int));
    memcpy(CMSG_DATA(head), fds, (size_t)count * sizeof(int));
    if (sendmsg(to, &message, MSG_NOSIGNAL) < 0) {
        dprintf(2, "vtrun: the consoles can't be handed over: %s\n", strerror(errno));
        _exit(126);
    }
    for (int i = 0; i < count; i++)
        close(fds[i]);
}

/* Closes what is vtrun's: a hang-up has to come when vtrun ends, so nobody else may hold a pty's master. */
static void close_others(const int *kept, size_t count)
{
    DIR *folder = opendir("/proc/self/fd");
    struct dirent *entry;
    while (folder && (entry = readdir(folder))) {
        int fd = atoi(entry->d_name), flags = fcntl(fd, F_GETFD);
        bool is_kept = fd == dirfd(folder) || flags < 0 || !(flags & FD_CLOEXEC);
        for (size_t i = 0; i < count; i++)
            is_kept = is_kept || fd == kept[i];
        if (!is_kept)
            close(fd);
    }
    if (folder)
        closedir(folder);
}

/* Whether a descriptor that the caller left open is a console of the real machine. */
static bool is_real_console(int fd)
{
    struct stat found;
    if (fstat(fd, &found) || !S_ISCHR(found.st_mode))
        return false;
    unsigned kind = major(found.st_rdev);
    return (kind == 4 && minor(found.st_rdev) < CONSOLES) || kind == 7 || (kind == 5 && minor(found.st_rdev) < 2);
}

_Noreturn void be_starter(int socket)
{
    sigset_t ended;
    uint64_t bound = 0;
    setsid();
    prctl(PR_SET_NAME, "vtrun-starter");
    prctl(PR_SET_CHILD_SUBREAPER, 1);
    sigemptyset(&ended);
    sigaddset(&ended, SIGCHLD);
    sigprocmask(SIG_SETMASK, &ended, NULL);
    int children = open("/proc/thread-self/children", O_RDONLY | O_CLOEXEC);
    int kept[] = { socket, children, signalfd(-1, &ended, SFD_CLOEXEC) };
    if (options.has_namespaces)
        bind_consoles(&bound);
    close_others(kept, sizeof kept / sizeof *kept);
    for (int fd = 3; fd < 1024; fd++)
        if (is_real_console(fd))
            close(fd);
    int fds[CONSOLES], count = 1 + open_nodes(&bound, fds + 1);
    fds[0] = install_filter();
    if (fds[0] < 0) {
        dprintf(2, "vtrun: the kernel takes no filter of system calls: %s\n", strerror(errno));
        _exit(126);
    }
    send_start(socket, bound, fds, count);
    run_starter(socket, kept[2], kept[1]);
}
