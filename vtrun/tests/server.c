/* A display server on a console, as real ones are: VT_PROCESS, KD_GRAPHICS, and an answer to each signal.
 *
 * usage: server N [refuse | hang | die K] [quiet]
 *
 * It releases its console when it is asked to, and acknowledges it when it gets it. `refuse` keeps the console, `hang`
 * answers nothing, and `die K` ends it by signal 9 after its K-th request. It prints a line for each step, unless
 * `quiet` is said, and ends at SIGTERM. */
#include <errno.h>
#include <fcntl.h>
#include <linux/kd.h>
#include <linux/vt.h>
#include <signal.h>
#include <stdio.h>
#include <stdlib.h>
#include <string.h>
#include <sys/ioctl.h>
#include <unistd.h>

static int console, requests, last = -1;
static const char *number, *how = "";
static int is_quiet;
static volatile sig_atomic_t releases, acquires, is_over;

static void on_signal(int signal)
{
    if (signal == SIGUSR1)
        releases++;
    else if (signal == SIGUSR2)
        acquires++;
    else
        is_over = 1;
}

static void say(const char *what, int result)
{
    if (is_quiet)
        return;
    printf("server %s: %s%s%s\n", number, what, result ? ": " : "", result ? strerror(errno) : "");
    fflush(stdout);
}

static int request(unsigned long what, void *argument)
{
    int result = ioctl(console, what, argument);
    if (++requests == last)
        raise(SIGKILL);
    return result;
}

static void begin(void)
{
    struct vt_mode mode = { .mode = VT_PROCESS, .relsig = SIGUSR1, .acqsig = SIGUSR2 };
    char path[32];
    snprintf(path, sizeof path, "/dev/tty%s", number);
    console = open(path, O_RDWR | O_NOCTTY | O_CLOEXEC);
    if (console < 0 || request(VT_SETMODE, &mode) || request(KDSETMODE, (void *)KD_GRAPHICS)) {
        say("no console", -1);
        exit(1);
    }
    say("ready", 0);
}

static void answer(void)
{
    while (acquires) {
        acquires--;
        say("acquired", request(VT_RELDISP, (void *)VT_ACKACQ));
    }
    while (releases) {
        releases--;
        if (strcmp(how, "hang") == 0)
            say("asked", 0);
        else if (strcmp(how, "refuse") == 0)
            say("refused", request(VT_RELDISP, (void *)0));
        else
            say("released", request(VT_RELDISP, (void *)1));
    }
}

int main(int count, char **words)
{
    struct sigaction action = { .sa_handler = on_signal };
    sigset_t mine, before;
    if (count < 2)
        return 2;
    number = words[1];
    how = count > 2 ? words[2] : "";
    if (count > 3 && strcmp(how, "die") == 0)
        last = atoi(words[3]);
    is_quiet = strcmp(words[count - 1], "quiet") == 0;
    sigemptyset(&mine);
    sigaddset(&mine, SIGUSR1);
    sigaddset(&mine, SIGUSR2);
    sigaddset(&mine, SIGTERM);
    sigprocmask(SIG_BLOCK, &mine, &before);
    sigaction(SIGUSR1, &action, NULL);
    sigaction(SIGUSR2, &action, NULL);
    sigaction(SIGTERM, &action, NULL);
    begin();
    while (!is_over) {
        sigsuspend(&before);
        answer();
    }
    request(KDSETMODE, (void *)KD_TEXT);
    struct vt_mode mode = { .mode = VT_AUTO };
    request(VT_SETMODE, &mode);
    say("over", 0);
    return 0;
}
