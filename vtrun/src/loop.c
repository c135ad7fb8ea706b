/* The loop: one thing at a time. What programs wrote comes first, then the ends of programs, then requests: one that
 * waits for an answer hasn't ended, and one that asks may have seen another end. The control socket comes last. */
#include "vtrun.h"
#include <signal.h>
#include <stdlib.h>
#include <string.h>
#include <sys/epoll.h>
#include <sys/signalfd.h>
#include <sys/wait.h>
#include <time.h>
#include <unistd.h>

enum { EVENTS = 256, LOOK_MS = 20, HELD_MS = 20, END_MS = 3000, TIMED_OUT = 124, LAST_TURN = 3 };

int status = -1;
bool is_ending;

static int poller = -1, signals = -1;
static int64_t deadline = INT64_MAX; /* of the command, or of the end */

int64_t now_ms(void)
{
    struct timespec now;
    clock_gettime(CLOCK_MONOTONIC, &now);
    return (int64_t)now.tv_sec * 1000 + now.tv_nsec / 1000000;
}

static void control_watch(int how, int fd, enum source source, unsigned i, uint32_t events)
{
    struct epoll_event it = { .events = events, .data.u64 = (uint64_t)source << 32 | i };
    if (poller < 0)
        poller = epoll_create1(EPOLL_CLOEXEC);
    if (poller < 0 || epoll_ctl(poller, how, fd, &it))
        stop(126, "a descriptor can't be watched: %s", strerror(errno));
}

void watch(int fd, enum source source, unsigned i, uint32_t events)
{
    control_watch(EPOLL_CTL_ADD, fd, source, i, events);
}

void watch_again(int fd, enum source source, unsigned i, uint32_t events)
{
    control_watch(EPOLL_CTL_MOD, fd, source, i, events);
}

static void take_signal(void)
{
    struct signalfd_siginfo it;
    if (read(signals, &it, sizeof it) != sizeof it)
        return;
    if (status < 0)
        status = 128 + (int)it.ssi_signo;
    hang_up();
}

static void handle(const struct epoll_event *it)
{
    unsigned i = (uint32_t)it->data.u64;
    switch ((enum source)(it->data.u64 >> 32)) {
    case OF_MASTER:
        if (it->events & EPOLLOUT)
            write_input(i);
        if (it->events & (EPOLLIN | EPOLLHUP))
            look_at_console(i);
        break;
    case OF_LISTENER: receive(); break;
    case OF_PROCESS: end_seat(i); break;
    case OF_CONTROL: accept_client(); break;
    case OF_CLIENT: serve_client(i, it->events); break;
    case OF_STARTER: read_starter(); break;
    case OF_SIGNALS: take_signal(); break;
    }
    send_signals();
}

/* When an event of those that came together is handled. */
static int turn_of(const struct epoll_event *it)
{
    switch ((enum source)(it->data.u64 >> 32)) {
    case OF_MASTER: return 0;
    case OF_PROCESS: return 1;
    case OF_LISTENER: return 2;
    default: return LAST_TURN;
    }
}

/* How long the loop may sleep. */
static int sleep_ms(bool has_more)
{
    int64_t at = next_deadline(), now;
    if (has_more)
        return 0;
    at = deadline < at ? deadline : at;
    if (!unsure && !are_held() && at == INT64_MAX)
        return -1;
    now = now_ms();
    int64_t wait = at > now ? at - now : 0;
    if (are_held() && wait > HELD_MS)
        wait = HELD_MS;
    if (unsure && wait > LOOK_MS)
        wait = LOOK_MS;
    return wait > 60000 ? 60000 : (int)wait;
}

/* Consoles that have more to read, and those that a program may have opened. */
static bool look_at_consoles(void)
{
    bool has_more = false;
    for (unsigned n = 1; n < CONSOLES; n++) {
        if (unsure >> n & 1)
            look_at_console(n);
        if (consoles[n].has_more)
            has_more = read_output(n) || has_more;
    }
    return has_more;
}

/* Requests that are held: their processes may have been killed, or have signals to take. */
static void look_at_waits(void)
{
    static int64_t next;
    if (!are_held() || now_ms() < next)
        return;
    look_at_held();
    look_at_signals();
    next = now_ms() + HELD_MS;
}

static void look_at_time(void)
{
    if (deadline == INT64_MAX || now_ms() < deadline)
        return;
    if (status < 0) {
        status = TIMED_OUT;
        deadline = now_ms() + END_MS;
        hang_up();
    } else {
        is_ending = true;
    }
}

static void start_signals(void)
{
    static const int numbers[] = { SIGINT, SIGTERM, SIGHUP, SIGQUIT };
    sigset_t set;
    sigemptyset(&set);
    for (size_t i = 0; i < sizeof numbers / sizeof *numbers; i++)
        sigaddset(&set, numbers[i]);
    sigprocmask(SIG_BLOCK, &set, NULL);
    signals = signalfd(-1, &set, SFD_CLOEXEC | SFD_NONBLOCK);
    if (signals < 0)
        stop(126, "signals can't be received: %s", strerror(errno));
    watch(signals, OF_SIGNALS, 0, EPOLLIN);
}

/* Serves until the command and all other programs have ended. */
int serve(void)
{
    struct epoll_event events[EVENTS];
    bool has_more = false;
    start_signals();
    if (options.seconds)
        deadline = now_ms() + (int64_t)options.seconds * 1000;
    while (!is_ending) {
        int count = epoll_wait(poller, events, EVENTS, sleep_ms(has_more));
        if (count < 0 && errno != EINTR)
            stop(126, "events can't be received: %s", strerror(errno));
        for (int turn = 0; turn <= LAST_TURN; turn++)
            for (int i = 0; i < count; i++)
                if (turn_of(&events[i]) == turn)
                    handle(&events[i]);
        has_more = look_at_consoles();
        look_at_waits();
        look_at_clients();
        look_at_time();
        if (count == 0)
            flush_journal();
    }
    waitpid(starter_pid, NULL, 0);
    return status;
}
