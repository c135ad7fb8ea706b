/* A client of libseat: it opens the seat, prints a line for each change, and acknowledges each.
 *
 * usage: seat_client SECONDS COUNT   it ends after so many seconds, or when it was enabled so many times */
#include <errno.h>
#include <libseat.h>
#include <poll.h>
#include <stdio.h>
#include <stdlib.h>
#include <string.h>
#include <time.h>

static int left;

static void say(const char *what)
{
    printf("%s\n", what);
    fflush(stdout);
}

static void enable(struct libseat *seat, void *data)
{
    (void)seat, (void)data;
    say("enabled");
    left--;
}

static void disable(struct libseat *seat, void *data)
{
    (void)data;
    say("disabled");
    libseat_disable_seat(seat);
}

int main(int count, char **words)
{
    static const struct libseat_seat_listener listener = { enable, disable };
    if (count < 3)
        return 2;
    time_t end = time(NULL) + atoi(words[1]);
    left = atoi(words[2]);
    struct libseat *seat = libseat_open_seat(&listener, NULL);
    if (!seat) {
        printf("no seat: %s\n", strerror(errno));
        return 1;
    }
    while (time(NULL) < end && left > 0) {
        struct pollfd it = { libseat_get_fd(seat), POLLIN, 0 };
        poll(&it, 1, 100);
        if (libseat_dispatch(seat, 0) < 0)
            return 1;
    }
    libseat_close_seat(seat);
    say("closed");
    return 0;
}
