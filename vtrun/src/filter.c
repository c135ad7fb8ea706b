/* The filter of system calls: which of them the kernel stops for vtrun to answer (seccomp(2), "user notification").
 *
 * Three kinds are refused outright: those of other instruction sets (x32 and i386), whose numbers differ, rings of
 * io_uring(7), whose opens no filter sees, and opens by a handle in place of a path. */
#include "vtrun.h"
#include <fcntl.h>
#include <linux/audit.h>
#include <linux/filter.h>
#include <linux/seccomp.h>
#include <sys/ioctl.h>
#include <sys/prctl.h>
#include <sys/syscall.h>
#include <unistd.h>

#ifndef SECCOMP_FILTER_FLAG_WAIT_KILLABLE_RECV
#define SECCOMP_FILTER_FLAG_WAIT_KILLABLE_RECV (1UL << 5)
#endif

enum { MOST_STEPS = 128, X32 = 0x40000000, FCHMODAT2 = 452 };

/* The system calls with paths that may name a console. */
static const uint16_t calls[] = {
    SYS_open,  SYS_openat, SYS_creat,  SYS_openat2,  SYS_access, SYS_faccessat, SYS_faccessat2, SYS_stat,
    SYS_lstat, SYS_chown,  SYS_lchown, SYS_fchownat, SYS_chmod,  SYS_fchmodat,  FCHMODAT2,
};

static struct sock_filter steps[MOST_STEPS];
static unsigned length;

static void add(uint16_t code, uint32_t k, uint8_t if_true, uint8_t if_false)
{
    steps[length++] = (struct sock_filter){ code, if_true, if_false, k };
}

static void load(size_t place)
{
    add(BPF_LD | BPF_W | BPF_ABS, (uint32_t)place, 0, 0);
}

static void give(uint32_t what)
{
    add(BPF_RET | BPF_K, what, 0, 0);
}

/* Gives `what` if the loaded word is `k`, and goes on otherwise. */
static void give_if(uint32_t k, uint32_t what)
{
    add(BPF_JMP | BPF_JEQ | BPF_K, k, 0, 1);
    give(what);
}

/* A call that may name a file by its descriptor alone: then it has no path. */
static void pass_descriptors(uint32_t call, size_t flags)
{
    add(BPF_JMP | BPF_JEQ | BPF_K, call, 0, 4);
    load(flags);
    add(BPF_JMP | BPF_JSET | BPF_K, AT_EMPTY_PATH, 0, 1);
    give(SECCOMP_RET_ALLOW);
    give(SECCOMP_RET_USER_NOTIF);
}

static void make_filter(void)
{
    load(offsetof(struct seccomp_data, arch));
    add(BPF_JMP | BPF_JEQ | BPF_K, AUDIT_ARCH_X86_64, 1, 0);
    give(SECCOMP_RET_ERRNO | ENOSYS);
    load(offsetof(struct seccomp_data, nr));
    add(BPF_JMP | BPF_JGE | BPF_K, X32, 0, 1);
    give(SECCOMP_RET_ERRNO | ENOSYS);
    give_if(SYS_io_uring_setup, SECCOMP_RET_ERRNO | ENOSYS);
    give_if(SYS_open_by_handle_at, SECCOMP_RET_ERRNO | EPERM);
    pass_descriptors(SYS_newfstatat, offsetof(struct seccomp_data, args[3]));
    pass_descriptors(SYS_statx, offsetof(struct seccomp_data, args[2]));
    for (size_t i = 0; i < sizeof calls / sizeof *calls; i++)
        give_if(calls[i], SECCOMP_RET_USER_NOTIF);
    add(BPF_JMP | BPF_JEQ | BPF_K, SYS_ioctl, 1, 0);
    give(SECCOMP_RET_ALLOW);
    load(offsetof(struct seccomp_data, args[1]));
    give_if(TIOCLINUX, SECCOMP_RET_USER_NOTIF);
    give_if(TIOCSWINSZ, SECCOMP_RET_USER_NOTIF);
    add(BPF_ALU | BPF_AND | BPF_K, 0xffffff00, 0, 0);
    give_if(0x4b00, SECCOMP_RET_USER_NOTIF);
    give_if(0x5600, SECCOMP_RET_USER_NOTIF);
    give(SECCOMP_RET_ALLOW);
}

static int put_filter(unsigned long flags)
{
    struct sock_fprog program = { (unsigned short)length, steps };
    return (int)syscall(SYS_seccomp, SECCOMP_SET_MODE_FILTER, SECCOMP_FILTER_FLAG_NEW_LISTENER | flags, &program);
}

/* Puts the filter on this process and all that come from it. Its listener, or -1.
 *
 * From Linux 5.19 on no signal except SIGKILL ends a call that was received: so each answer reaches its process, and no
 * call is made twice. */
int install_filter(void)
{
    unsigned long flags = SECCOMP_FILTER_FLAG_WAIT_KILLABLE_RECV;
    make_filter();
    int fd = put_filter(flags);
    if (fd < 0 && errno == EINVAL)
        fd = put_filter(flags = 0);
    if (fd < 0 && errno == EACCES && prctl(PR_SET_NO_NEW_PRIVS, 1, 0, 0, 0) == 0)
        fd = put_filter(flags);
    return fd;
}
