/* Random requests with random arguments, from several processes at once.
 *
 * usage: fuzz SEED SECONDS PROCESSES
 *
 * Each process opens and closes consoles, makes requests of all numbers with good and bad pointers, gets signals,
 * forks, and dies. What is seen here is only that all of them end; vtrun must go on, and its journal be legal. */
#include <errno.h>
#include <fcntl.h>
#include <linux/kd.h>
#include <linux/vt.h>
#include <poll.h>
#include <signal.h>
#include <stdint.h>
#include <stdio.h>
#include <stdlib.h>
#include <string.h>
#include <sys/ioctl.h>
#include <sys/mman.h>
#include <sys/stat.h>
#include <sys/wait.h>
#include <time.h>
#include <unistd.h>

enum { MOST_FILES = 12, PAGE = 4096, WAIT_US = 20000 };

static uint64_t state;
static int files[MOST_FILES];
static unsigned char *page;

static unsigned next_random(unsigned below)
{
    state ^= state << 13;
    state ^= state >> 7;
    state ^= state << 17;
    return (unsigned)(state >> 33) % below;
}

static void on_signal(int number)
{
    (void)number;
}

static unsigned long random_number(void)
{
    static const unsigned long known[] = { 0, 1, 2, 3, 4, 5, 12, 63, 64, 255, 256, 65535, 65536, 0xffffffff, ~0UL };
    return next_random(3) ? next_random(8) : known[next_random(sizeof known / sizeof *known)];
}

/* A pointer to bytes: most are good, some end with the page, some point nowhere. */
static void *random_pointer(void)
{
    for (int i = 0; i < 16; i++)
        page[i] = (unsigned char)(next_random(2) ? next_random(5) : next_random(256));
    switch (next_random(8)) {
    case 0: return page + PAGE - next_random(64);
    case 1: return (void *)(uintptr_t)(random_number() * 4093);
    }
    return page;
}

static void make_request(void)
{
    static const unsigned heads[] = { 0x4b00, 0x5600 };
    unsigned long request = heads[next_random(2)] + next_random(next_random(2) ? 0x20 : 0x100);
    int fd = files[next_random(MOST_FILES)];
    switch (next_random(12)) {
    case 0: request = TIOCLINUX; break;
    case 1: request = TIOCSWINSZ; break;
    case 2: request = VT_RELDISP; break;
    case 3: request = VT_ACTIVATE; break;
    case 4: request = VT_SETMODE; break;
    }
    /* (a wait may last for ever: an alarm ends it) */
    ioctl(fd, request, next_random(2) ? random_pointer() : (void *)random_number());
}

static void open_something(void)
{
    static const char *const forms[] = { "/dev/tty%u", "/dev/vcsa%u", "/dev/vcsu%u",
                                         "/dev/vcs%u", "tty%u",       "/dev/../dev/tty%u" };
    char path[64];
    unsigned i = next_random(MOST_FILES);
    close(files[i]);
    snprintf(path, sizeof path, forms[next_random(40) ? 4 * next_random(2) : next_random(6)],
             next_random(8) ? next_random(6) : next_random(70));
    files[i] = open(path, (next_random(2) ? O_RDWR : O_RDONLY) | O_NONBLOCK | (next_random(4) ? O_NOCTTY : 0));
    if (next_random(16) == 0) {
        struct stat found;
        if (stat(path, &found) == 0 && access(path, R_OK) == 0 && lstat(path, &found) == 0)
            state ^= found.st_rdev & 0xff;
    }
}

static void write_something(void)
{
    static const char *const texts[] = { "hello\n", "\033[12;2]", "\033[15]", "\033c",
                                         "\a",      "\033[2q",    "\033[6n",  "\303\251" };
    int fd = files[next_random(MOST_FILES)];
    const char *text = texts[next_random(8)];
    char got[64];
    struct pollfd it = { fd, POLLOUT, 0 };
    if (poll(&it, 1, 0) == 1 && it.revents & POLLOUT && write(fd, text, strlen(text)) < 0)
        return;
    if (read(fd, got, sizeof got) < 0)
        return;
}

/* A process of random deeds, which ends in one of several ways. */
static void misbehave(uint64_t seed, time_t end)
{
    state = seed * 0x9e3779b97f4a7c15U + 1;
    unsigned steps = 50 + next_random(2000);
    struct sigaction action = { .sa_handler = on_signal, .sa_flags = next_random(2) ? SA_RESTART : 0 };
    for (int i = 1; i < 32; i++)
        if (i != SIGKILL && i != SIGSTOP && i != SIGCHLD && i != SIGSEGV && i != SIGTERM)
            sigaction(i, &action, NULL);
    action.sa_flags = 0;
    sigaction(SIGALRM, &action, NULL);
    if (next_random(4) == 0)
        setsid();
    if (chdir("/dev"))
        return;
    page = mmap(NULL, 2 * PAGE, PROT_READ | PROT_WRITE, MAP_PRIVATE | MAP_ANONYMOUS, -1, 0);
    munmap(page + PAGE, PAGE);
    memset(files, -1, sizeof files);
    for (unsigned i = 0; i < steps && time(NULL) < end; i++) {
        unsigned what = next_random(20);
        ualarm(WAIT_US, WAIT_US);
        if (what < 4)
            open_something();
        else if (what < 6)
            write_something();
        else
            make_request();
        if (next_random(500) == 0 && fork() == 0)
            steps = i + 20;
    }
    if (next_random(3) == 0)
        raise(SIGKILL);
    _exit(0);
}

int main(int count, char **words)
{
    uint64_t seed = count > 1 ? strtoull(words[1], NULL, 10) : 1;
    time_t end = time(NULL) + (count > 2 ? atoi(words[2]) : 5);
    int processes = count > 3 ? atoi(words[3]) : 4, running = 0, started = 0;
    while (time(NULL) < end || running > 0) {
        while (running < processes && time(NULL) < end) {
            if (fork() == 0)
                misbehave(seed * 1000003 + (uint64_t)started, end);
            started++;
            running++;
        }
        int how;
        pid_t child = waitpid(-1, &how, WUNTRACED);
        if (child > 0 && WIFSTOPPED(how))
            kill(child, SIGKILL); /* (SIGSTOP was the signal of a console) */
        else if (child > 0)
            running--;
    }
    printf("seed %llu: %d processes came and went\n", (unsigned long long)seed, started);
    return 0;
}
