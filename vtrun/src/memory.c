/* What is read of a process: its memory, its status, its descriptors. Everything is read once, and checked after. */
#include "vtrun.h"
#include <fcntl.h>
#include <stdlib.h>
#include <string.h>
#include <sys/stat.h>
#include <sys/sysmacros.h>
#include <sys/uio.h>
#include <unistd.h>

enum { PAGE = 4096, MAJOR_OF_PTS = 136, STATUS_ROOM = 16384 };

/* As many bytes as can be read, or -1. */
ssize_t read_memory(pid_t pid, uint64_t at, void *to, size_t n)
{
    struct iovec here = { to, n }, there = { (void *)(uintptr_t)at, n };
    return process_vm_readv(pid, &here, 1, &there, 1, 0);
}

bool write_memory(pid_t pid, uint64_t at, const void *from, size_t n)
{
    struct iovec here = { (void *)(uintptr_t)from, n }, there = { (void *)(uintptr_t)at, n };
    return process_vm_writev(pid, &here, 1, &there, 1, 0) == (ssize_t)n;
}

/* A text up to its null byte, page by page, since the page after its last one may not be there. */
bool read_text(pid_t pid, uint64_t at, char *to, size_t room)
{
    for (size_t length = 0; length < room;) {
        size_t piece = PAGE - (at + length) % PAGE;
        if (piece > room - length)
            piece = room - length;
        ssize_t count = read_memory(pid, at + length, to + length, piece);
        if (count <= 0)
            return false;
        if (memchr(to + length, '\0', (size_t)count))
            return true;
        length += (size_t)count;
    }
    return false;
}

/* Reads a small file of /proc into a text. */
static bool read_small(const char *path, char *text, size_t room)
{
    int fd = open(path, O_RDONLY | O_CLOEXEC);
    ssize_t count = fd < 0 ? -1 : read(fd, text, room - 1);
    if (fd >= 0)
        close(fd);
    if (count <= 0)
        return false;
    text[count] = '\0';
    return true;
}

/* The process of a thread and its effective user, or 0. */
pid_t process_of(pid_t thread, uid_t *user)
{
    char path[32], text[2048];
    int pid = 0;
    snprintf(path, sizeof path, "/proc/%d/status", thread);
    if (!read_small(path, text, sizeof text))
        return 0;
    const char *line = strstr(text, "\nTgid:");
    const char *users = strstr(text, "\nUid:");
    if (!line || !users || sscanf(line, "\nTgid: %d", &pid) != 1 || sscanf(users, "\nUid: %*u %u", user) != 1)
        return 0;
    return pid;
}

/* Whether a thread has a signal to take: one that is pending, for it or for its process, and that it doesn't block. */
bool has_signal(pid_t thread)
{
    static char text[STATUS_ROOM];
    static const char *const names[] = { "\nSigPnd:", "\nShdPnd:", "\nSigBlk:" };
    unsigned long long sets[3];
    char path[32];
    snprintf(path, sizeof path, "/proc/%d/status", thread);
    if (!read_small(path, text, sizeof text))
        return false;
    for (size_t i = 0; i < 3; i++) {
        const char *line = strstr(text, names[i]);
        if (!line)
            return false;
        sets[i] = strtoull(line + strlen(names[i]), NULL, 16);
    }
    return (sets[0] | sets[1]) & ~sets[2];
}

/* The session of a process and the device of its controlling terminal, 0 if it has none. */
bool stat_fields(pid_t pid, int *session, unsigned *terminal)
{
    char path[32], text[1024];
    snprintf(path, sizeof path, "/proc/%d/stat", pid);
    if (!read_small(path, text, sizeof text))
        return false;
    const char *end = strrchr(text, ')');
    return end && sscanf(end + 2, "%*c %*d %*d %d %u", session, terminal) == 2;
}

unsigned console_of_terminal(unsigned terminal)
{
    char path[32];
    if (major(terminal) != MAJOR_OF_PTS)
        return 0;
    snprintf(path, sizeof path, "/dev/pts/%u", minor(terminal));
    for (unsigned n = 1; n < CONSOLES; n++)
        if (strcmp(consoles[n].path, path) == 0)
            return n;
    return 0;
}

/* The console whose pty's slave an inode is, or 0. */
unsigned console_of_stat(dev_t device, ino_t inode)
{
    for (unsigned n = 1; n < CONSOLES; n++)
        if (consoles[n].inode == inode && consoles[n].device == device)
            return n;
    return 0;
}

/* The console of a descriptor, or 0. /dev/tty is the process's controlling terminal. */
unsigned console_of_descriptor(pid_t thread, const struct stat *found)
{
    unsigned terminal;
    int session;
    if (!S_ISCHR(found->st_mode))
        return 0;
    if (found->st_rdev != makedev(5, 0))
        return console_of_stat(found->st_dev, found->st_ino);
    return stat_fields(thread, &session, &terminal) ? console_of_terminal(terminal) : 0;
}
