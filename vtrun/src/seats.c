/* Seats: which process of the machine stands for which program.
 *
 * A program gets a seat at its first request or open of a console. When it ends, its seat is free for another of the
 * same home and privilege, if it left nothing behind; a seat that owned a console or accepted the key signal ends in
 * the machine too, and is used up. */
#include "vtrun.h"
#include <dirent.h>
#include <fcntl.h>
#include <poll.h>
#include <signal.h>
#include <stdlib.h>
#include <string.h>
#include <sys/epoll.h>
#include <sys/stat.h>
#include <sys/syscall.h>
#include <unistd.h>

enum { A_PUMP = -1, MOST_RAISED = 256 };

struct seat seats[SEATS];

void start_seats(void)
{
    for (unsigned i = 1; i < SEATS; i++) {
        seats[i].pidfd = seats[i].folder = -1;
        seats[i].is_privileged = true;
        memset(seats[i].descriptors, -1, sizeof seats[i].descriptors);
    }
}

/* A seat for these rights, or 0 if all are taken. */
static unsigned free_seat(uint8_t home, bool is_privileged)
{
    struct vt_seat rights = { .home = home, .privileged = is_privileged };
    for (unsigned i = 1; i < SEATS; i++) {
        struct seat *it = &seats[i];
        if (it->pid == 0 && it->is_used && !it->is_spent && it->home == home && it->is_privileged == is_privileged)
            return i;
    }
    for (unsigned i = 1; i < SEATS; i++) {
        struct seat *it = &seats[i];
        if (it->pid || it->is_used || vt_machine_admit(&machine, i, &rights) != VT_OK)
            continue;
        it->is_used = true;
        it->home = home;
        it->is_privileged = is_privileged;
        return i;
    }
    return 0;
}

unsigned new_pump(void)
{
    unsigned i = free_seat(0, true);
    if (!i)
        stop(125, "no process of the machine is left to write for the consoles");
    seats[i].pid = A_PUMP;
    return i;
}

static bool is_alive(const struct seat *seat)
{
    struct pollfd it = { seat->pidfd, POLLIN, 0 };
    return poll(&it, 1, 0) == 0;
}

static bool has_privilege(uid_t user)
{
    return user == 0 || (!options.user && user == geteuid());
}

/* The console that is a process's controlling terminal, or 0. */
static uint8_t home_of(pid_t pid)
{
    unsigned terminal;
    int session;
    return stat_fields(pid, &session, &terminal) ? (uint8_t)console_of_terminal(terminal) : 0;
}

/* Names a refusal, once for a process. */
static void tell_refusal(pid_t pid)
{
    static pid_t last;
    if (pid != last)
        fprintf(stderr, "vtrun: process %d gets no seat: all 64 processes of the machine are taken (EUSERS)\n", pid);
    last = pid;
}

static unsigned take_seat(pid_t pid, uid_t user, uint8_t home)
{
    char path[32];
    int pidfd = (int)syscall(SYS_pidfd_open, pid, 0);
    snprintf(path, sizeof path, "/proc/%d", pid);
    int folder = pidfd < 0 ? -1 : open(path, O_PATH | O_DIRECTORY | O_CLOEXEC);
    unsigned i = folder < 0 ? 0 : free_seat(home, has_privilege(user));
    if (!i) {
        int error = folder < 0 ? errno : EUSERS;
        if (pidfd >= 0)
            close(pidfd);
        if (folder >= 0)
            close(folder);
        if (error == EUSERS)
            tell_refusal(pid);
        errno = error;
        return 0;
    }
    seats[i].pid = pid;
    seats[i].user = user;
    seats[i].pidfd = pidfd;
    seats[i].folder = folder;
    watch(pidfd, OF_PROCESS, i, EPOLLIN);
    return i;
}

static bool owns_console(unsigned seat)
{
    struct vt_console seen;
    for (unsigned n = 1; n < CONSOLES; n++)
        if (vt_machine_console(&machine, n, &seen) == VT_OK && seen.owner == seat)
            return true;
    return false;
}

/* The seat that a process has, if its rights are still those of the seat, or if it owns a console there: a server that
 * gives up its rights keeps its console. SEATS with errno if it was ended in the machine. */
static unsigned kept_seat(pid_t pid, uid_t user, uint8_t home)
{
    for (unsigned i = 1; i < SEATS; i++)
        if (seats[i].pid == pid) {
            if (seats[i].is_spent) {
                errno = ESRCH;
                return SEATS;
            }
            bool is_same = seats[i].user == user && seats[i].home == home;
            if (is_alive(&seats[i]) && (is_same || seats[i].accepts || owns_console(i)))
                return i;
            end_seat(i);
            return 0;
        }
    return 0;
}

/* A main thread whose process has a seat with all rights needs no second look, if its user is still the same. */
static unsigned known_seat(pid_t thread)
{
    struct stat found;
    for (unsigned i = 1; i < SEATS; i++)
        if (seats[i].pid == thread)
            return seats[i].is_privileged && !seats[i].is_spent && fstat(seats[i].folder, &found) == 0 &&
                           found.st_uid == seats[i].user && is_alive(&seats[i])
                       ? i
                       : 0;
    return 0;
}

unsigned seat_of(pid_t thread)
{
    unsigned i = known_seat(thread);
    uid_t user;
    if (i)
        return i;
    pid_t pid = process_of(thread, &user);
    if (pid <= 0) {
        errno = ESRCH;
        return 0;
    }
    uint8_t home = has_privilege(user) ? 0 : home_of(pid);
    i = kept_seat(pid, user, home);
    if (i == SEATS)
        return 0;
    return i ? i : take_seat(pid, user, home);
}

/* Whether one of a process's descriptors is a console. */
static bool has_console(const struct seat *seat, unsigned console)
{
    int fd = openat(seat->folder, "fd", O_RDONLY | O_DIRECTORY | O_CLOEXEC);
    DIR *folder = fd < 0 ? NULL : fdopendir(fd);
    struct dirent *entry;
    struct stat found;
    bool has = false;
    if (!folder)
        return false;
    while (!has && (entry = readdir(folder)))
        has = fstatat(fd, entry->d_name, &found, 0) == 0 && console_of_descriptor(seat->pid, &found) == console;
    closedir(folder);
    return has;
}

static void close_on(unsigned seat, unsigned console)
{
    ACT(seat, "close", (uint16_t)seats[seat].descriptors[console]);
    seats[seat].descriptors[console] = -1;
}

/* Closes in the machine what processes have closed. */
void close_unused(void)
{
    for (unsigned i = 1; i < SEATS; i++)
        for (unsigned n = 1; n < CONSOLES; n++)
            if (seats[i].pid > 0 && !seats[i].waits && seats[i].descriptors[n] >= 0 && !has_console(&seats[i], n))
                close_on(i, n);
}

/* The machine's descriptor of a process on a console, which is opened if need be; or an errno, negative. */
int descriptor_on(unsigned seat, unsigned console)
{
    struct seat *it = &seats[seat];
    if (it->descriptors[console] >= 0)
        return it->descriptors[console];
    int error = ACT(seat, "open", (uint16_t)console);
    if (error == EBUSY) {
        close_unused();
        error = ACT(seat, "open", (uint16_t)console);
    }
    if (error)
        return -error;
    it->descriptors[console] = (int8_t)reply.number;
    return it->descriptors[console];
}

/* Lets a process of the machine end, or leaves it for another program. */
static void leave_machine(unsigned seat)
{
    struct seat *it = &seats[seat];
    if (owns_console(seat) || it->accepts) {
        if (it->waits)
            break_wait(seat);
        it->is_spent = true;
        call_machine(seat, "exit", NULL, 0, NULL, 0);
        return;
    }
    if (it->waits)
        break_wait(seat);
    for (unsigned n = 1; n < CONSOLES; n++)
        if (it->descriptors[n] >= 0)
            close_on(seat, n);
    if (it->is_raised)
        take_signals(seat);
}

void end_seat(unsigned seat)
{
    struct seat *it = &seats[seat];
    if (it->pid <= 0)
        return;
    close(it->pidfd);
    close(it->folder);
    it->pidfd = it->folder = -1;
    if (!it->is_spent)
        leave_machine(seat);
    it->pid = 0;
    it->accepts = it->is_raised = it->waits = false;
    memset(it->descriptors, -1, sizeof it->descriptors);
    settle_waits();
}

/* At the end every process of the machine that was used exits, and the keyboard. One that was ended makes a call more,
 * which is refused: so its program is over. */
void end_all_seats(void)
{
    for (unsigned i = 1; i < SEATS; i++) {
        bool is_waiting = seats[i].waits && seats[i].is_killed;
        end_seat(i);
        if (!seats[i].is_used || (seats[i].is_spent && !seats[i].is_killed))
            continue;
        seats[i].is_spent = true;
        seats[i].is_killed = false;
        call_machine(i, is_waiting ? "waitend" : "exit", NULL, 0, NULL, 0);
    }
    call_machine(0, "exit", NULL, 0, NULL, 0);
}

/* Signals go out when the request that raised them is answered: one that came before would make the kernel begin that
 * request again. */
static struct {
    unsigned seat;
    pid_t pid;
    int number;
} raised[MOST_RAISED];
static unsigned raised_count;

void send_signals(void)
{
    for (unsigned i = 0; i < raised_count; i++) {
        const struct seat *it = &seats[raised[i].seat];
        if (it->pid == raised[i].pid)
            syscall(SYS_pidfd_send_signal, it->pidfd, raised[i].number, NULL, 0);
    }
    raised_count = 0;
}

void raise_signal(unsigned seat, int number)
{
    struct seat *it = &seats[seat];
    it->is_raised = true;
    if (it->pid <= 0 || is_breaking_wait())
        return;
    if (raised_count == MOST_RAISED)
        send_signals();
    raised[raised_count].seat = seat;
    raised[raised_count].pid = it->pid;
    raised[raised_count++].number = number;
}

/* A process of the machine ended by the attention key: so does its program. */
void seat_ended(unsigned seat)
{
    struct seat *it = &seats[seat];
    if (it->is_spent)
        return;
    it->is_spent = it->is_killed = true;
    if (it->pid > 0)
        raise_signal(seat, SIGKILL);
}

/* Reads the name of a process, with ? in place of what isn't printable ASCII: a process chooses its name. */
static void read_name(pid_t pid, char *name, size_t room)
{
    char path[48];
    snprintf(path, sizeof path, "/proc/%d/comm", pid);
    FILE *file = fopen(path, "re");
    if (!file || !fgets(name, (int)room, file))
        strcpy(name, "-");
    if (file)
        fclose(file);
    size_t n = strlen(name);
    if (n > 1 && name[n - 1] == '\n')
        name[--n] = '\0';
    for (size_t i = 0; i < n; i++)
        if (name[i] < ' ' || name[i] > '~')
            name[i] = '?';
}

void list_processes(FILE *to)
{
    char name[64];
    for (unsigned i = 1; i < SEATS; i++) {
        const struct seat *it = &seats[i];
        if (it->pid <= 0)
            continue;
        read_name(it->pid, name, sizeof name);
        fprintf(to, "%d p%u %s %u", it->pid, i, it->is_privileged ? "privileged" : "plain", it->home);
        const char *before = " ";
        for (unsigned n = 1; n < CONSOLES; n++)
            if (it->descriptors[n] >= 0) {
                fprintf(to, "%s%u", before, n);
                before = ",";
            }
        fprintf(to, "%s %s\n", before[0] == ' ' ? " -" : "", name);
    }
}
