/* Opens, and other calls with paths, of consoles and their screens.
 *
 * What a path leads to is looked up here, as its process sees it, so that other names of a console's node are found
 * too. An open that concerns no console is passed on to the kernel. */
#include "vtrun.h"
#include <fcntl.h>
#include <linux/openat2.h>
#include <linux/seccomp.h>
#include <stdlib.h>
#include <string.h>
#include <sys/ioctl.h>
#include <sys/mman.h>
#include <sys/stat.h>
#include <sys/syscall.h>
#include <sys/sysmacros.h>
#include <unistd.h>

enum {
    FCHMODAT2 = 452,
    NOTHING = -1,
    SCREENS = 64,
    CELLS = 128,
    MAJOR_OF_CONSOLES = 4,
    MAJOR_OF_SCREENS = 7,
    INODES = 1000
};

/* What a path names: a console (0 is the one in front), or the screen of one. */
struct named {
    int console; /* or NOTHING */
    int dump;    /* the kind of `dump` of a screen, or NOTHING */
};

/* A number after a prefix: NOTHING if the text is another; 0 if nothing follows. */
static int number_after(const char *text, const char *prefix, bool may_be_empty)
{
    size_t n = strlen(prefix);
    char *end;
    if (strncmp(text, prefix, n))
        return NOTHING;
    if (text[n] == '\0')
        return may_be_empty ? 0 : NOTHING;
    if (text[n] < '0' || text[n] > '9')
        return NOTHING;
    long number = strtol(text + n, &end, 10);
    return *end || number >= CONSOLES ? NOTHING : (int)number;
}

static struct named named_by(const char *name)
{
    static const char *const fronts[] = { "console", "systty", "vc/0" };
    struct named it = { NOTHING, NOTHING };
    for (size_t i = 0; i < sizeof fronts / sizeof *fronts; i++)
        if (strcmp(name, fronts[i]) == 0)
            it.console = 0;
    if (it.console == NOTHING)
        it.console = number_after(name, "tty", false);
    if (it.console != NOTHING)
        return it;
    static const char *const screens[] = { "vcs", "vcsa", "vcsu" };
    for (int i = 0; i < 3 && it.console == NOTHING; i++) {
        it.console = number_after(name, screens[i], true);
        it.dump = i;
    }
    return it;
}

/* What a node of a device is. */
static struct named named_by_device(const struct stat *found)
{
    struct named it = { NOTHING, NOTHING };
    unsigned n = minor(found->st_rdev);
    if (!S_ISCHR(found->st_mode))
        return it;
    unsigned own = console_of_stat(found->st_dev, found->st_ino);
    if (own)
        it.console = (int)own;
    else if (major(found->st_rdev) == MAJOR_OF_CONSOLES && n < CONSOLES)
        it.console = (int)n;
    else if (found->st_rdev == makedev(5, 1))
        it.console = 0;
    else if (major(found->st_rdev) == MAJOR_OF_SCREENS) {
        it.console = (int)(n % SCREENS);
        it.dump = n < SCREENS ? 0 : n < CELLS ? 2 : 1;
    }
    return it;
}

/* The folder that a relative path begins at, as a path of /proc. */
static void folder_of(pid_t pid, int at, char *path, size_t room)
{
    if (at == AT_FDCWD)
        snprintf(path, room, "/proc/%d/cwd", pid);
    else
        snprintf(path, room, "/proc/%d/fd/%d", pid, at);
}

/* Opens what a path leads to, as a process sees it, without opening a device. -1 with ELOOP if it goes through one of
 * the links of /proc that lead to a file itself. */
static int open_path(pid_t pid, int at, const char *text)
{
    char base[64];
    struct open_how how = { .flags = O_PATH | O_CLOEXEC, .resolve = RESOLVE_NO_MAGICLINKS };
    if (text[0] == '/') {
        snprintf(base, sizeof base, "/proc/%d/root", pid);
        how.resolve |= RESOLVE_IN_ROOT;
    } else {
        folder_of(pid, at, base, sizeof base);
    }
    int folder = open(base, O_PATH | O_DIRECTORY | O_CLOEXEC);
    if (folder < 0)
        return -1;
    int fd = (int)syscall(SYS_openat2, folder, text, &how, sizeof how), error = errno;
    close(folder);
    errno = error;
    return fd;
}

/* Opens a path through the links of /proc. Those of the process itself are named by its number. */
static int open_by_link(pid_t pid, const char *text)
{
    static const char *const own[][2] = {
        { "/proc/self/", "" },    { "/proc/thread-self/", "" }, { "/dev/fd/", "fd/" },
        { "/dev/stdin", "fd/0" }, { "/dev/stdout", "fd/1" },    { "/dev/stderr", "fd/2" },
    };
    char path[PATH_ROOM + 32];
    for (size_t i = 0; i < sizeof own / sizeof *own; i++)
        if (strncmp(text, own[i][0], strlen(own[i][0])) == 0) {
            snprintf(path, sizeof path, "/proc/%d/%s%s", pid, own[i][1], text + strlen(own[i][0]));
            return open(path, O_PATH | O_CLOEXEC);
        }
    return strncmp(text, "/proc/", 6) == 0 ? open(text, O_PATH | O_CLOEXEC) : -1;
}

/* Looks up what a path leads to. */
static struct named look_up(pid_t pid, int at, const char *text)
{
    struct stat found;
    struct named nothing = { NOTHING, NOTHING };
    int fd = open_path(pid, at, text);
    if (fd < 0 && errno == ELOOP)
        fd = open_by_link(pid, text);
    bool is_found = fd >= 0 && fstat(fd, &found) == 0;
    if (fd >= 0)
        close(fd);
    return is_found ? named_by_device(&found) : nothing;
}

/* What a path names by its words: /dev/tty2, or tty2 in /dev. */
static struct named by_words(pid_t pid, int at, const char *text)
{
    char base[64], folder[16];
    struct named nothing = { NOTHING, NOTHING };
    if (strncmp(text, "/dev/", 5) == 0)
        return named_by(text + 5);
    if (text[0] != 't' && text[0] != 'v' && text[0] != 'c')
        return nothing;
    struct named it = named_by(text);
    if (it.console == NOTHING)
        return it;
    folder_of(pid, at, base, sizeof base);
    ssize_t n = readlink(base, folder, sizeof folder);
    return n == 4 && memcmp(folder, "/dev", 4) == 0 ? it : nothing;
}

/* A session leader without a terminal gets one by an open without O_NOCTTY: only the kernel can do that. */
static bool wants_terminal(pid_t thread, int flags)
{
    unsigned terminal;
    int session;
    return !(flags & (O_NOCTTY | O_PATH)) && stat_fields(thread, &session, &terminal) && session == thread &&
           terminal == 0;
}

/* Gives a file to the process as the answer of its open. */
static void give_file(uint64_t id, int fd, bool is_close_on_exec)
{
    struct seccomp_notif_addfd it = { .id = id,
                                      .srcfd = (uint32_t)fd,
                                      .flags = SECCOMP_ADDFD_FLAG_SEND,
                                      .newfd_flags = is_close_on_exec ? O_CLOEXEC : 0 };
    if (ioctl(listener, SECCOMP_IOCTL_NOTIF_ADDFD, &it) < 0 && errno != ENOENT)
        answer(id, 0, errno);
    close(fd);
}

/* The screen of a console as vcs(4) has it, at this moment. */
static void open_screen(const struct seccomp_notif *it, unsigned seat, const struct named *named, int flags)
{
    read_all_outputs();
    int error = ACT(seat, "dump", (uint16_t)named->dump, (uint16_t)named->console);
    int fd = error ? -1 : memfd_create("vcs", MFD_CLOEXEC);
    if (!error && (fd < 0 || write(fd, answer_bytes, reply.length) != (ssize_t)reply.length))
        error = errno;
    if (!error)
        lseek(fd, 0, SEEK_SET);
    if (error) {
        answer(it->id, 0, error);
        if (fd >= 0)
            close(fd);
    } else {
        give_file(it->id, fd, flags & O_CLOEXEC);
    }
}

static void open_console(const struct seccomp_notif *it, const struct named *named, int flags)
{
    unsigned seat = seat_of((pid_t)it->pid);
    unsigned n = named->console ? (unsigned)named->console : front;
    if (!seat) {
        answer(it->id, 0, errno);
        return;
    }
    if (named->dump == NOTHING && !may_open(seat, (unsigned)named->console, how_opened(flags))) {
        answer(it->id, 0, EACCES);
        return;
    }
    if (named->dump != NOTHING) {
        open_screen(it, seat, named, flags);
        return;
    }
    int held = descriptor_on(seat, n);
    int fd = held < 0 ? -1 : open_slave(n, flags);
    if (fd < 0) {
        answer(it->id, 0, held < 0 ? -held : errno);
    } else if (named->console && consoles[n].is_bound && wants_terminal((pid_t)it->pid, flags)) {
        close(fd);
        consoles[n].is_open = true;
        unsure |= (uint64_t)1 << n;
        pass_on(it->id);
    } else {
        consoles[n].is_open = true;
        give_file(it->id, fd, flags & O_CLOEXEC);
    }
}

/* stat(2) and its kin of a console that isn't bound: a node as that of a real console. */
static void answer_stat(const struct seccomp_notif *it, const struct named *named)
{
    static const unsigned minors[] = { 0, CELLS, SCREENS };
    dev_t device = named->dump == NOTHING ? makedev(MAJOR_OF_CONSOLES, (unsigned)named->console)
                                          : makedev(MAJOR_OF_SCREENS, minors[named->dump] + (unsigned)named->console);
    struct asked asked = { .id = it->id, .pid = (pid_t)it->pid };
    struct stat found;
    struct statx wide;
    if (it->data.nr != SYS_statx) {
        if (stat(consoles[1].path, &found)) {
            answer(it->id, 0, ENOENT);
            return;
        }
        found.st_rdev = device;
        found.st_ino = INODES + (ino_t)minor(device) + (named->dump == NOTHING ? 0 : INODES);
        asked.argument = it->data.args[it->data.nr == SYS_newfstatat ? 2 : 1];
        answer(it->id, 0, store(&asked, &found, sizeof found));
        return;
    }
    if (statx(AT_FDCWD, consoles[1].path, 0, STATX_BASIC_STATS, &wide)) {
        answer(it->id, 0, ENOENT);
        return;
    }
    wide.stx_rdev_major = major(device);
    wide.stx_rdev_minor = minor(device);
    wide.stx_ino = INODES + minor(device) + (named->dump == NOTHING ? 0 : INODES);
    asked.argument = it->data.args[4];
    answer(it->id, 0, store(&asked, &wide, sizeof wide));
}

/* The place of the path among the arguments, and the flags of an open, or -1. */
static bool path_place(const struct seccomp_notif *it, unsigned *place, int *flags)
{
    *flags = NOTHING;
    *place = 0;
    switch (it->data.nr) {
    case SYS_open: *flags = (int)it->data.args[1]; return true;
    case SYS_creat: *flags = O_WRONLY | O_CREAT | O_TRUNC; return true;
    case SYS_openat: *flags = (int)it->data.args[2]; break;
    case SYS_openat2: {
        uint64_t wide = 0;
        struct asked asked = { .id = it->id, .pid = (pid_t)it->pid, .argument = it->data.args[2] };
        if (fetch(&asked, &wide, sizeof wide))
            return false;
        *flags = (int)wide;
        break;
    }
    case SYS_access:
    case SYS_stat:
    case SYS_lstat:
    case SYS_chown:
    case SYS_lchown:
    case SYS_chmod: return true;
    }
    *place = 1;
    return true;
}

/* A call with a path. Its text is read once; what the kernel is passed leads to no real console, since in the
 * namespace none is there. */
void serve_file(const struct seccomp_notif *it)
{
    char text[PATH_ROOM];
    unsigned place;
    int flags;
    if (!path_place(it, &place, &flags) || !read_text((pid_t)it->pid, it->data.args[place], text, sizeof text) ||
        !is_valid(it->id)) {
        pass_on(it->id);
        return;
    }
    int at = place ? (int)it->data.args[0] : AT_FDCWD;
    struct named named = by_words((pid_t)it->pid, at, text);
    if (named.console == NOTHING && flags != NOTHING)
        named = look_up((pid_t)it->pid, at, text);
    bool is_bound = named.console > 0 && named.dump == NOTHING && consoles[named.console].is_bound;
    if (named.console == NOTHING || (flags == NOTHING && is_bound))
        pass_on(it->id);
    else if (flags != NOTHING)
        open_console(it, &named, flags);
    else if (it->data.nr == SYS_stat || it->data.nr == SYS_lstat || it->data.nr == SYS_newfstatat ||
             it->data.nr == SYS_statx)
        answer_stat(it, &named);
    else if (named.dump == NOTHING)
        serve_node(it, (unsigned)named.console);
    else
        answer(it->id, 0, 0);
}
