/* Consoles: each has a pty. What programs write to it goes to the machine's console, and the bytes of the console's
 * input queue go back.
 *
 * A pump, a process of the machine without a program, does these writes and reads. It has a console open as long as
 * some program has the pty's slave open, so that the machine knows of programs that never make a request. */
#include "vtrun.h"
#include <fcntl.h>
#include <poll.h>
#include <pty.h>
#include <string.h>
#include <sys/epoll.h>
#include <sys/ioctl.h>
#include <sys/stat.h>
#include <termios.h>
#include <unistd.h>

enum { PUMPS = 4, READS = 16, FLOOD = 16 };

struct console consoles[CONSOLES];
uint64_t unsure;
static unsigned pumps[PUMPS];

unsigned pump_of(unsigned n)
{
    unsigned i = (n - 1) / DESCRIPTORS;
    if (!pumps[i])
        pumps[i] = new_pump();
    return pumps[i];
}

/* The attention key ends pumps too: another takes its place, and its consoles are opened again. */
void pump_ended(unsigned caller)
{
    for (unsigned i = 0; i < PUMPS; i++)
        if (pumps[i] == caller) {
            pumps[i] = 0;
            for (unsigned n = i * DESCRIPTORS + 1; n < CONSOLES && n <= (i + 1) * DESCRIPTORS; n++)
                consoles[n].descriptor = -1;
        }
}

static void make_console(unsigned n)
{
    struct console *it = &consoles[n];
    struct winsize size = { .ws_row = (unsigned short)options.rows, .ws_col = (unsigned short)options.cols };
    struct termios modes;
    struct stat found;
    int slave;
    if (openpty(&it->master, &slave, it->path, NULL, &size) || fstat(slave, &found) || tcgetattr(slave, &modes))
        stop(126, "no pseudo-terminal: %s", strerror(errno));
    modes.c_iflag |= IUTF8;
    tcsetattr(slave, TCSANOW, &modes);
    it->device = found.st_dev;
    it->inode = found.st_ino;
    it->node = open(it->path, O_PATH | O_CLOEXEC);
    it->descriptor = -1;
    fcntl(it->master, F_SETFD, FD_CLOEXEC);
    fcntl(it->master, F_SETFL, O_NONBLOCK);
    close(slave);
    watch(it->master, OF_MASTER, n, EPOLLIN | EPOLLOUT | EPOLLET);
}

void make_consoles(void)
{
    for (unsigned n = 1; n < CONSOLES; n++)
        make_console(n);
}

/* Opens a console's slave anew, by the name that programs see. */
int open_slave(unsigned n, int flags)
{
    char path[32];
    snprintf(path, sizeof path, "/proc/self/fd/%d", consoles[n].node);
    return open(path, (flags & (O_ACCMODE | O_NONBLOCK | O_PATH)) | O_NOCTTY | O_CLOEXEC);
}

/* The pump has the console open, so that the machine counts it as open. */
static void hold_console(unsigned n)
{
    if (consoles[n].descriptor >= 0)
        return;
    if (ACT(pump_of(n), "open", (uint16_t)n) == 0)
        consoles[n].descriptor = (int)reply.number;
}

static void let_console(unsigned n)
{
    if (consoles[n].descriptor < 0)
        return;
    ACT(pump_of(n), "close", (uint16_t)consoles[n].descriptor);
    consoles[n].descriptor = -1;
}

/* Looks whether a program has a console open: the kernel tells by a hang-up that none has. */
void look_at_console(unsigned n)
{
    struct pollfd it = { consoles[n].master, POLLIN, 0 };
    poll(&it, 1, 0);
    if (it.revents & POLLIN)
        read_output(n);
    consoles[n].is_open = !(it.revents & POLLHUP);
    if (consoles[n].is_open) {
        unsure &= ~((uint64_t)1 << n);
        hold_console(n);
    } else {
        let_console(n);
    }
}

/* Bytes of the console's queue go to the pty, as far as it has room. */
void write_input(unsigned n)
{
    struct console *it = &consoles[n];
    struct vt_console seen;
    for (;;) {
        if (it->input_length) {
            ssize_t count = write(it->master, it->input, it->input_length);
            if (count <= 0)
                return;
            it->is_given = true;
            it->input_length -= (size_t)count;
            memmove(it->input, it->input + count, it->input_length);
            continue;
        }
        if (vt_machine_console(&machine, n, &seen) != VT_OK || seen.queued == 0)
            return;
        hold_console(n);
        if (it->descriptor < 0 || ACT(pump_of(n), "read", (uint16_t)it->descriptor, MOST_WRITE))
            return;
        memcpy(it->input, answer_bytes, reply.length);
        it->input_length = reply.length;
    }
}

void write_all_input(void)
{
    struct vt_console seen;
    for (unsigned n = 1; n < CONSOLES; n++)
        if (vt_machine_console(&machine, n, &seen) == VT_OK && seen.queued)
            write_input(n);
}

/* The kernel hands on what a pty got when it has time. A poll of its slave waits for that: then programs have it. */
void hand_over(void)
{
    for (unsigned n = 1; n < CONSOLES; n++) {
        int fd = consoles[n].is_given && consoles[n].is_open ? open_slave(n, O_RDONLY | O_NONBLOCK) : -1;
        struct pollfd it = { fd, POLLIN, 0 };
        consoles[n].is_given = false;
        if (fd < 0)
            continue;
        poll(&it, 1, 0);
        close(fd);
    }
}

/* What programs wrote goes to the machine's console. Whether there may be more to read. */
bool read_output(unsigned n)
{
    struct console *it = &consoles[n];
    static uint8_t piece[MOST_WRITE];
    it->has_more = false;
    for (unsigned i = 0; i < READS; i++) {
        ssize_t count = read(it->master, piece, sizeof piece);
        if (count <= 0)
            return false;
        hold_console(n);
        if (it->descriptor >= 0)
            act(pump_of(n), "write", (const uint16_t[]){ (uint16_t)it->descriptor }, 1, piece, (size_t)count);
        changes[n]++;
        write_input(n);
        settle_waits();
    }
    it->has_more = true;
    return true;
}

/* Reads what all programs have written until now, as far as it is no flood, and looks who has a console open. */
void read_all_outputs(void)
{
    struct pollfd all[CONSOLES];
    for (unsigned n = 1; n < CONSOLES; n++)
        all[n] = (struct pollfd){ consoles[n].master, POLLIN, 0 };
    poll(all + 1, CONSOLES - 1, 0);
    for (unsigned n = 1; n < CONSOLES; n++) {
        bool is_open = !(all[n].revents & POLLHUP);
        if (all[n].revents & POLLIN || is_open != consoles[n].is_open)
            look_at_console(n);
        for (unsigned i = 0; i < FLOOD && consoles[n].has_more; i++)
            read_output(n);
    }
}

/* The pty gets the size of the machine's console; the kernel tells its programs. */
void set_size(unsigned n)
{
    struct vt_console seen;
    if (vt_machine_console(&machine, n, &seen) != VT_OK)
        return;
    struct winsize size = { .ws_row = seen.rows, .ws_col = seen.cols };
    ioctl(consoles[n].master, TIOCSWINSZ, &size);
    changes[n]++;
}
