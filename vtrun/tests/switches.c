/* Measures switches and requests.
 *
 * usage: switches A B COUNT   COUNT switches between consoles A and B, each with its wait
 *        switches COUNT       COUNT requests that change nothing (KDGETMODE)
 *        switches CONSOLE MB output   so many megabytes of text, written to that console
 *
 * Prints the median and the extremes in microseconds, or a rate. */
#include <fcntl.h>
#include <linux/kd.h>
#include <linux/vt.h>
#include <stdio.h>
#include <stdlib.h>
#include <string.h>
#include <sys/ioctl.h>
#include <termios.h>
#include <time.h>
#include <unistd.h>

enum { LINE = 80, LINES = 800 };

static double now(void)
{
    struct timespec it;
    clock_gettime(CLOCK_MONOTONIC, &it);
    return it.tv_sec * 1e6 + it.tv_nsec / 1e3;
}

static int compare(const void *a, const void *b)
{
    double x = *(const double *)a, y = *(const double *)b;
    return (x > y) - (x < y);
}

static int open_console(const char *path)
{
    int fd = open(path, O_RDWR | O_NOCTTY);
    if (fd < 0) {
        perror(path);
        exit(1);
    }
    return fd;
}

static int measure_requests(int count)
{
    int fd = open_console("/dev/tty0"), mode;
    double from = now();
    for (int i = 0; i < count; i++)
        if (ioctl(fd, KDGETMODE, &mode))
            return 1;
    double took = now() - from;
    printf("%d requests: %.0f a second\n", count, count * 1e6 / took);
    return 0;
}

static int measure_switches(int a, int b, int count)
{
    int fd = open_console("/dev/tty0");
    double *times = malloc((size_t)count * sizeof *times);
    for (int i = 0; i < count; i++) {
        int to = i & 1 ? a : b;
        double from = now();
        if (ioctl(fd, VT_ACTIVATE, to) || ioctl(fd, VT_WAITACTIVE, to)) {
            perror("a switch");
            return 1;
        }
        times[i] = now() - from;
    }
    qsort(times, (size_t)count, sizeof *times, compare);
    printf("%d switches: median %.1f us, least %.1f, 99 of 100 within %.1f, most %.1f\n", count, times[count / 2],
           times[0], times[count - 1 - count / 100], times[count - 1]);
    return 0;
}

static int measure_output(const char *console, int megabytes)
{
    static char text[LINE * LINES];
    char path[64];
    snprintf(path, sizeof path, console[0] == '/' ? "%s" : "/dev/tty%s", console);
    int fd = open_console(path);
    for (int i = 0; i < LINES; i++)
        snprintf(text + i * LINE, LINE + 1, "%*d\n", LINE - 1, i);
    long left = megabytes * 1000000L, whole = left;
    double from = now();
    while (left > 0) {
        ssize_t n = write(fd, text, left < (long)sizeof text ? (size_t)left : sizeof text);
        if (n < 0)
            return 1;
        left -= n;
    }
    tcdrain(fd);
    printf("%.1f MB/s\n", whole / (now() - from));
    return 0;
}

int main(int count, char **words)
{
    if (count == 2)
        return measure_requests(atoi(words[1]));
    if (count == 4 && strcmp(words[3], "output") == 0)
        return measure_output(words[1], atoi(words[2]));
    return count == 4 ? measure_switches(atoi(words[1]), atoi(words[2]), atoi(words[3])) : 2;
}
