/* The namespace of the programs: in it each pty lies over its console's node, so that names, stat, and controlling
 * terminals by a plain open are right, and no path leads to a console of the real machine. Nothing of it is seen
 * outside, and nothing stays. */
#include "vtrun.h"
#include <dirent.h>
#include <fcntl.h>
#include <sched.h>
#include <stdlib.h>
#include <string.h>
#include <sys/mount.h>
#include <sys/stat.h>
#include <sys/wait.h>
#include <unistd.h>

enum { NAME_ROOM = 300 };

static bool write_text(const char *path, const char *text)
{
    int fd = open(path, O_WRONLY | O_CLOEXEC);
    bool is_written = fd >= 0 && write(fd, text, strlen(text)) == (ssize_t)strlen(text);
    if (fd >= 0)
        close(fd);
    return is_written;
}

/* A mount namespace of one's own: in a user namespace, with the same user, for one who isn't root. */
static bool enter_space(void)
{
    char line[64];
    uid_t user = geteuid();
    gid_t group = getegid();
    if (unshare(CLONE_NEWNS | (user ? CLONE_NEWUSER : 0)))
        return false;
    if (user) {
        write_text("/proc/self/setgroups", "deny");
        snprintf(line, sizeof line, "%u %u 1", user, user);
        if (!write_text("/proc/self/uid_map", line))
            return false;
        snprintf(line, sizeof line, "%u %u 1", group, group);
        if (!write_text("/proc/self/gid_map", line))
            return false;
    }
    return mount("none", "/", NULL, MS_REC | MS_PRIVATE, NULL) == 0;
}

/* Whether a name of /dev is that of a console or of its screen. */
static bool is_console_name(const char *name)
{
    return strncmp(name, "vcs", 3) == 0 || strcmp(name, "console") == 0 ||
           (strncmp(name, "tty", 3) == 0 && name[3] >= '0' && name[3] <= '9');
}

static bool make_file(const char *path)
{
    int fd = open(path, O_CREAT | O_WRONLY | O_CLOEXEC | O_NOFOLLOW, 0600);
    if (fd >= 0)
        close(fd);
    return fd >= 0;
}

/* Puts an entry of the old /dev into the new one. */
static bool copy_entry(int old, const char *stage, const char *name)
{
    char from[NAME_ROOM], to[NAME_ROOM], link[PATH_ROOM];
    struct stat found;
    snprintf(from, sizeof from, "/proc/self/fd/%d/%.200s", old, name);
    snprintf(to, sizeof to, "%.60s/%.200s", stage, name);
    if (fstatat(old, name, &found, AT_SYMLINK_NOFOLLOW))
        return true;
    if (S_ISLNK(found.st_mode)) {
        ssize_t n = readlinkat(old, name, link, sizeof link - 1);
        if (n < 0)
            return false;
        link[n] = '\0';
        return symlink(link, to) == 0;
    }
    if (S_ISDIR(found.st_mode) ? mkdir(to, 0755) != 0 : !make_file(to))
        return false;
    return mount(from, to, NULL, MS_BIND | MS_REC, NULL) == 0;
}

/* Makes a /dev with all that the old one has, except for consoles, and with files for these. */
static bool fill_stage(int old, const char *stage)
{
    char path[NAME_ROOM];
    DIR *folder = fdopendir(dup(old));
    struct dirent *entry;
    bool is_right = folder != NULL;
    while (is_right && (entry = readdir(folder)))
        if (strcmp(entry->d_name, ".") && strcmp(entry->d_name, "..") && !is_console_name(entry->d_name))
            is_right = copy_entry(old, stage, entry->d_name);
    if (folder)
        closedir(folder);
    for (unsigned n = 0; is_right && n < CONSOLES; n++) {
        snprintf(path, sizeof path, "%.60s/tty%u", stage, n);
        is_right = make_file(path);
    }
    snprintf(path, sizeof path, "%.60s/console", stage);
    return is_right && make_file(path);
}

static bool replace_dev(void)
{
    char stage[] = "/tmp/vtrun-dev.XXXXXX";
    int old = open("/dev", O_RDONLY | O_DIRECTORY | O_CLOEXEC);
    bool is_right = old >= 0 && mkdtemp(stage) && mount("vtrun", stage, "tmpfs", MS_NOSUID, "mode=755") == 0;
    if (is_right && (!fill_stage(old, stage) || mount(stage, "/dev", NULL, MS_MOVE, NULL))) {
        umount2(stage, MNT_DETACH);
        is_right = false;
    }
    rmdir(stage);
    if (old >= 0)
        close(old);
    return is_right;
}

/* Whether /dev has a node for each console. */
static bool has_nodes(void)
{
    char path[32];
    bool has = access("/dev/console", F_OK) == 0;
    for (unsigned n = 0; has && n < CONSOLES; n++) {
        snprintf(path, sizeof path, "/dev/tty%u", n);
        has = access(path, F_OK) == 0;
    }
    return has;
}

/* The nodes of screens (vcs(4)) can't be read past vtrun. */
static void cover_screens(void)
{
    char path[NAME_ROOM];
    DIR *folder = opendir("/dev");
    struct dirent *entry;
    while (folder && (entry = readdir(folder)))
        if (strncmp(entry->d_name, "vcs", 3) == 0) {
            snprintf(path, sizeof path, "/dev/%.200s", entry->d_name);
            mount("/dev/null", path, NULL, MS_BIND, NULL);
        }
    if (folder)
        closedir(folder);
}

/* Whether a user may make a namespace and mount there. A child tries it: a user namespace in which nothing can be mounted
 * ends with the child. */
static bool may_enter(void)
{
    int how;
    if (geteuid() == 0)
        return true;
    pid_t child = fork();
    if (child == 0)
        _exit(enter_space() && (has_nodes() || replace_dev()) ? 0 : 1);
    return child > 0 && waitpid(child, &how, 0) == child && WIFEXITED(how) && WEXITSTATUS(how) == 0;
}

/* Makes the namespace. `bound` gets the consoles whose ptys lie over their nodes. False if none may be made: then
 * nothing is mounted, and users are who they were. */
bool bind_consoles(uint64_t *bound)
{
    char path[32];
    *bound = 0;
    if (!may_enter() || !enter_space() || (!has_nodes() && !replace_dev()))
        return false;
    cover_screens();
    mount(consoles[1].path, "/dev/tty0", NULL, MS_BIND, NULL);
    mount(consoles[1].path, "/dev/console", NULL, MS_BIND, NULL);
    for (unsigned n = 1; n < CONSOLES; n++) {
        snprintf(path, sizeof path, "/dev/tty%u", n);
        if (mount(consoles[n].path, path, NULL, MS_BIND, NULL) == 0)
            *bound |= (uint64_t)1 << n;
    }
    return true;
}
