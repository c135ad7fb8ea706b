/* vtrun: runs a command on consoles that a machine of vt answers, with no console hardware (vtrun(1)). */
#include "vtrun.h"
#include <fcntl.h>
#include <pwd.h>
#include <signal.h>
#include <stdlib.h>
#include <string.h>
#include <sys/resource.h>
#include <unistd.h>

/* 63 ptys, two descriptors each, and those of 64 processes. */
enum { DESCRIPTORS_WANTED = 1024 };

static void raise_limits(void)
{
    struct rlimit limit;
    if (getrlimit(RLIMIT_NOFILE, &limit) || limit.rlim_cur >= DESCRIPTORS_WANTED)
        return;
    limit.rlim_cur = limit.rlim_max < DESCRIPTORS_WANTED ? limit.rlim_max : DESCRIPTORS_WANTED;
    setrlimit(RLIMIT_NOFILE, &limit);
}

/* Standard streams that are closed would be taken by files of vtrun. A read or write of one fails all the same. */
static void open_streams(void)
{
    for (int fd = 0; fd < 3; fd++)
        if (fcntl(fd, F_GETFD) < 0 && open("/dev/null", fd ? O_RDONLY : O_WRONLY) != fd)
            stop(126, "/dev/null can't be opened");
}

/* The user who is to run the command is there: the user's number, or that of the caller. */
static uid_t find_user(void)
{
    const struct passwd *user = options.user ? getpwnam(options.user) : NULL;
    if (options.user && !user)
        stop(2, "--user %s: no such user", options.user);
    if (user && geteuid() && user->pw_uid != geteuid())
        stop(2, "--user %s: only root may run a command as another user", options.user);
    return user ? user->pw_uid : geteuid();
}

int main(int count, char **words)
{
    open_streams();
    int client = be_client(count, words);
    if (client >= 0)
        return client;
    read_options(count, words);
    signal(SIGPIPE, SIG_IGN);
    signal(SIGXFSZ, SIG_IGN); /* (a journal that may grow no more is one that can't be written) */
    raise_limits();
    start_seats();
    uid_t user = find_user();
    make_machine();
    open_journal(); /* (a file that is there is emptied, but not if the words aren't of the form) */
    make_consoles();
    if (options.user && geteuid() == 0)
        give_console(options.on ? options.on : 1, user);
    open_control();
    start_starter();
    /* Console 1 is the command's terminal, so it stays open as long as the command runs. */
    int first = open_slave(1, O_RDWR);
    look_at_console(1);
    if (!run_program(options.on, NULL, 0))
        stop(126, "the command can't be started");
    int result = serve();
    read_all_outputs();
    close(first);
    end_all_seats();
    close_journal();
    vt_machine_free(&machine);
    return result;
}
