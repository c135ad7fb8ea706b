/* Clients that behave badly, or come in numbers. Each prints what it saw, a line each, and ends with status 0.
 *
 * usage: clients many N      N processes that ask for the state, all alive at once: how many were answered
 *        clients bad         pointers that point nowhere, and to the end of a page
 *        clients closed N    a descriptor is closed while its wait for console N goes on
 *        clients alarm N     a wait for console N that a signal interrupts, and one that goes on after a signal
 *        clients storm N     N requests of each of two kinds, and signals at every moment of them
 *        clients paths P ..  the console in front, as each path has it
 *        clients threads     two threads that ask at once
 *        clients deaf N      a program that never reads, on console N
 *        clients around      ways around a filter of system calls, on x86-64 */
#include <errno.h>
#include <fcntl.h>
#include <linux/kd.h>
#include <linux/vt.h>
#include <pthread.h>
#include <signal.h>
#include <stdint.h>
#include <stdio.h>
#include <stdlib.h>
#include <string.h>
#include <sys/ioctl.h>
#include <sys/mman.h>
#include <sys/syscall.h>
#include <sys/time.h>
#include <sys/wait.h>
#include <unistd.h>

enum { PAGE = 4096, WAIT_MS = 200, MANY = 100, ALARMS = 3, MOST_DELAY_US = 40 };

static int opened(const char *path)
{
    int fd = open(path, O_RDWR | O_NOCTTY);
    if (fd < 0) {
        printf("%s: %s\n", path, strerror(errno));
        exit(1);
    }
    return fd;
}

static const char *word_of(int result)
{
    return result < 0 ? strerror(errno) : "ok";
}

static int many(int count)
{
    int answered = 0, refused = 0, other = 0, told[2], go[2];
    if (pipe(told) || pipe(go))
        return 1;
    for (int i = 0; i < count; i++)
        if (fork() == 0) {
            struct vt_stat state;
            int fd = open("/dev/tty1", O_RDWR | O_NOCTTY);
            char saw = fd >= 0 && ioctl(fd, VT_GETSTATE, &state) == 0 ? 'a' : errno == EUSERS ? 'r' : 'o', end;
            close(go[1]);
            if (write(told[1], &saw, 1) == 1 && read(go[0], &end, 1) == 0)
                _exit(0);
            _exit(1);
        }
    for (int i = 0; i < count; i++) {
        char saw = 0;
        if (read(told[0], &saw, 1) != 1)
            return 1;
        answered += saw == 'a';
        refused += saw == 'r';
        other += saw == 'o';
    }
    close(go[1]);
    while (wait(NULL) > 0)
        ;
    printf("answered %d refused %d other %d\n", answered, refused, other);
    return 0;
}

static int bad(void)
{
    int fd = opened("/dev/tty1");
    char *page = mmap(NULL, 2 * PAGE, PROT_READ | PROT_WRITE, MAP_PRIVATE | MAP_ANONYMOUS, -1, 0);
    munmap(page + PAGE, PAGE);
    struct vt_mode *at_end = (struct vt_mode *)(void *)(page + PAGE) - 1;
    printf("null %s\n", word_of(ioctl(fd, VT_GETMODE, NULL)));
    printf("high %s\n", word_of(ioctl(fd, VT_SETMODE, (void *)UINTPTR_MAX)));
    printf("across %s\n", word_of(ioctl(fd, VT_GETMODE, (char *)at_end + 1)));
    printf("end %s\n", word_of(ioctl(fd, VT_GETMODE, at_end)));
    printf("path at end %s\n", word_of(open(strcpy(page + PAGE - sizeof "/dev/tty1", "/dev/tty1"), O_RDWR | O_NOCTTY)));
    printf("path across %s\n", word_of(open(memset(page, 'a', PAGE), O_RDWR)));
    mprotect(page, PAGE, PROT_READ);
    printf("read only %s\n", word_of(ioctl(fd, VT_GETMODE, at_end)));
    printf("closed %s\n", word_of((close(fd), ioctl(fd, VT_GETMODE, at_end))));
    printf("no console %s\n", word_of(ioctl(open("/dev/null", O_RDWR), KDGETMODE, page)));
    return 0;
}

static int shared_fd, wanted;

/* Waits until a thread of this process is held in a wait: then its others are refused (docs/reference/vtrun.md). */
static void until_held(int fd)
{
    int mode;
    while (ioctl(fd, KDGETMODE, &mode) == 0)
        usleep(1000);
}

static void *wait_for_it(void *unused)
{
    (void)unused;
    printf("waited %s\n", word_of(ioctl(shared_fd, VT_WAITACTIVE, wanted)));
    return NULL;
}

static int closed(int n)
{
    pthread_t thread;
    shared_fd = opened("/dev/tty0");
    wanted = n;
    int other = opened("/dev/tty1");
    pthread_create(&thread, NULL, wait_for_it, NULL);
    until_held(other);
    close(shared_fd);
    if (fork() == 0) {
        printf("switched %s\n", word_of(ioctl(other, VT_ACTIVATE, n)));
        fflush(stdout);
        _exit(0);
    }
    wait(NULL);
    pthread_join(thread, NULL);
    return 0;
}

static volatile sig_atomic_t alarms, alarms_left, next_alarm;

static void on_alarm(int number)
{
    (void)number;
    alarms++;
}

static int told[2];

static void tell_alarm(int number)
{
    on_alarm(number);
    if (write(told[1], "", 1) != 1)
        _exit(1);
}

static void start_alarms(void (*on)(int), int flags)
{
    struct sigaction action = { .sa_handler = on, .sa_flags = flags };
    struct itimerval again = { .it_value = { 0, WAIT_MS * 1000 }, .it_interval = { 0, WAIT_MS * 1000 } };
    sigaction(SIGALRM, &action, NULL);
    setitimer(ITIMER_REAL, &again, NULL);
}

/* Alarms come until one interrupts the wait; then others, until a child has seen two of them and switches. */
static int interrupted(int n)
{
    int fd = opened("/dev/tty0"), result, status;
    if (pipe(told))
        return 1;
    start_alarms(on_alarm, 0);
    printf("interrupted %s\n", word_of(ioctl(fd, VT_WAITACTIVE, n)));
    fflush(stdout);
    alarms = 0;
    pid_t child = fork();
    if (child == 0) {
        char one;
        for (int i = 0; i < 2; i++)
            if (read(told[0], &one, 1) != 1)
                _exit(1);
        _exit(ioctl(fd, VT_ACTIVATE, n) ? 1 : 0);
    }
    start_alarms(tell_alarm, SA_RESTART);
    do
        result = ioctl(fd, VT_WAITACTIVE, n);
    while (result < 0 && errno == EINTR);
    printf("went on %s after %s signals\n", word_of(result), alarms >= 2 ? "several" : "few");
    waitpid(child, &status, 0);
    return 0;
}

static void strike(void)
{
    struct itimerval soon = { .it_value = { 0, next_alarm } };
    if (alarms_left-- > 0)
        setitimer(ITIMER_REAL, &soon, NULL);
}

static void on_strike(int number)
{
    on_alarm(number);
    strike();
}

/* A timer goes off up to three times during each request, sooner or later: each must be made exactly once all the same.
 * The journal has how often it was made. */
static int storm(int count)
{
    int fd = opened("/dev/tty1"), wrong = 0, failed = 0;
    struct sigaction action = { .sa_handler = on_strike, .sa_flags = SA_RESTART };
    sigaction(SIGALRM, &action, NULL);
    for (int i = 0; i < count; i++) {
        int mode = -1;
        next_alarm = 1 + i % MOST_DELAY_US;
        alarms_left = ALARMS;
        strike();
        failed += ioctl(fd, KDSETMODE, i & 1) != 0;
        failed += ioctl(fd, KDGETMODE, &mode) != 0;
        wrong += mode != (i & 1);
    }
    printf("wrong %d failed %d signals %s\n", wrong, failed, alarms >= MANY ? "many" : "few");
    return 0;
}

static int paths(char **words)
{
    for (; *words; words++) {
        struct vt_stat state = { 0, 0, 0 };
        int fd = open(*words, O_RDWR | O_NOCTTY);
        int result = fd < 0 ? -1 : ioctl(fd, VT_GETSTATE, &state);
        printf("%s %s %d\n", *words, word_of(result), state.v_active);
        close(fd);
    }
    return 0;
}

static void *ask_often(void *unused)
{
    int fd = opened("/dev/tty1"), mode;
    static int failed;
    for (int i = 0; i < 2000; i++)
        failed += ioctl(fd, KDGETMODE, &mode) != 0;
    return unused ? NULL : &failed;
}

static int threads(void)
{
    pthread_t both[2];
    void *failed;
    for (int i = 0; i < 2; i++)
        pthread_create(&both[i], NULL, ask_often, NULL);
    for (int i = 0; i < 2; i++)
        pthread_join(both[i], &failed);
    printf("failed %d\n", *(int *)failed);
    return 0;
}

/* The system call 20 by the numbers of i386 (getpid), the same by those of x32, a ring, and an open by a handle. */
static int around(void)
{
    long result = 20;
    struct {
        unsigned bytes;
        int type;
        char handle[64];
    } handle = { 8, 1, { 0 } };
#ifdef __x86_64__
    __asm__ volatile("int $0x80" : "+a"(result) : : "memory");
#endif
    printf("i386 %s\n", result < 0 ? strerror((int)-result) : "ok");
    printf("x32 %s\n", word_of((int)syscall(0x40000000 + SYS_getpid)));
    printf("ring %s\n", word_of((int)syscall(SYS_io_uring_setup, 1, NULL)));
    printf("handle %s\n", word_of((int)syscall(SYS_open_by_handle_at, AT_FDCWD, &handle, O_RDONLY)));
    return 0;
}

static int deaf(const char *n)
{
    char path[32];
    snprintf(path, sizeof path, "/dev/tty%s", n);
    opened(path);
    puts("ready");
    fflush(stdout);
    pause();
    return 0;
}

int main(int count, char **words)
{
    const char *what = count > 1 ? words[1] : "", *number = count > 2 ? words[2] : "0";
    if (strcmp(what, "many") == 0)
        return many(atoi(number));
    if (strcmp(what, "bad") == 0)
        return bad();
    if (strcmp(what, "closed") == 0)
        return closed(atoi(number));
    if (strcmp(what, "alarm") == 0)
        return interrupted(atoi(number));
    if (strcmp(what, "storm") == 0)
        return storm(atoi(number));
    if (strcmp(what, "paths") == 0)
        return paths(words + 2);
    if (strcmp(what, "threads") == 0)
        return threads();
    if (strcmp(what, "around") == 0)
        return around();
    return strcmp(what, "deaf") == 0 ? deaf(number) : 2;
}
