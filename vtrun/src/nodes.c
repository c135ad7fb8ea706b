/* Nodes: who may open a console. Each belongs to root, or to the user who started vtrun; that of the command's terminal
 * to the user who runs the command; and a login gives its own to its user, as on Linux. */
#include "vtrun.h"
#include <fcntl.h>
#include <linux/seccomp.h>
#include <string.h>
#include <sys/stat.h>
#include <sys/syscall.h>
#include <unistd.h>

enum { OWNER = 6, OTHERS = 0, ALLOWED = 07777, FCHMODAT2 = 452 };

/* Gives a user the console of the command. */
void give_console(unsigned n, uid_t user)
{
    if (chown(consoles[n].path, user, (gid_t)-1))
        stop(126, "%s: %s", consoles[n].path, strerror(errno));
}

/* Whether a process may open a console to read (4), to write (2), or both. 0 is the node of the one in front, which is
 * root's. */
bool may_open(unsigned seat, unsigned console, unsigned how)
{
    struct stat node;
    if (seats[seat].is_privileged)
        return true;
    if (console == 0 || fstat(consoles[console].node, &node))
        return false;
    unsigned bits = node.st_uid == seats[seat].user ? node.st_mode >> OWNER : node.st_mode >> OTHERS;
    return (bits & how) == how;
}

/* What the flags of an open ask for. */
unsigned how_opened(int flags)
{
    if (flags & O_PATH)
        return 0;
    return (flags & O_ACCMODE) == O_RDONLY ? 4 : (flags & O_ACCMODE) == O_WRONLY ? 2 : 6;
}

/* access(2), chown(2), chmod(2) and their kin, of a console that isn't bound. */
void serve_node(const struct seccomp_notif *it, unsigned console)
{
    const __u64 *words = it->data.args;
    unsigned seat = seat_of((pid_t)it->pid);
    int error = seat ? 0 : errno;
    bool is_own = seat && console > 0 && seats[seat].is_privileged;
    switch (it->data.nr) {
    case SYS_access: error = error || may_open(seat, console, words[1] & 6) ? error : EACCES; break;
    case SYS_faccessat:
    case SYS_faccessat2: error = error || may_open(seat, console, words[2] & 6) ? error : EACCES; break;
    case SYS_chown:
    case SYS_lchown:
        error = !is_own || !chown(consoles[console].path, (uid_t)words[1], (gid_t)words[2]) ? error : errno;
        break;
    case SYS_fchownat:
        error = !is_own || !chown(consoles[console].path, (uid_t)words[2], (gid_t)words[3]) ? error : errno;
        break;
    case SYS_chmod: error = !is_own || !chmod(consoles[console].path, words[1] & ALLOWED) ? error : errno; break;
    case SYS_fchmodat:
    case FCHMODAT2: error = !is_own || !chmod(consoles[console].path, words[2] & ALLOWED) ? error : errno; break;
    }
    answer(it->id, 0, error);
}
