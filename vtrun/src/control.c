/* The control socket: connections, their requests in order, and answers that never make vtrun wait. */
#include "control.h"
#include <fcntl.h>
#include <pwd.h>
#include <stdarg.h>
#include <stdlib.h>
#include <string.h>
#include <sys/epoll.h>
#include <sys/socket.h>
#include <sys/stat.h>
#include <sys/un.h>
#include <unistd.h>

enum { CLIENTS = 64, ROOM = MOST_LINE + MOST_BODY + 2, FRAME_MS = 20 };

int control = -1;
static struct client clients[CLIENTS];
static char folder[] = "/tmp/vtrun.XXXXXX";
static char path[sizeof(((struct sockaddr_un *)NULL)->sun_path)];
static int64_t frame_at;
static bool has_folder, is_bound;

static void name_socket(void)
{
    const char *wanted = options.socket;
    const struct passwd *user = options.user ? getpwnam(options.user) : NULL;
    if (!wanted && !mkdtemp(folder))
        stop(126, "%s: %s", folder, strerror(errno));
    has_folder = !wanted;
    if (!wanted && user && chown(folder, user->pw_uid, user->pw_gid))
        stop(126, "%s: %s", folder, strerror(errno));
    int n = wanted ? snprintf(path, sizeof path, "%s", wanted) : snprintf(path, sizeof path, "%s/control", folder);
    if (n >= (int)sizeof path)
        stop(2, "--socket %s: a path of less than %zu bytes was wanted", wanted, sizeof path);
}

/* The socket is taken away when vtrun ends, but not if it is killed. */
static void close_control(void)
{
    if (is_bound)
        unlink(path);
    if (has_folder)
        rmdir(folder);
}

void open_control(void)
{
    struct sockaddr_un address = { .sun_family = AF_UNIX };
    for (unsigned i = 0; i < CLIENTS; i++)
        clients[i].fd = -1;
    atexit(close_control);
    name_socket();
    memcpy(address.sun_path, path, sizeof path);
    control = socket(AF_UNIX, SOCK_STREAM | SOCK_CLOEXEC | SOCK_NONBLOCK, 0);
    mode_t before = umask(0077);
    is_bound = control >= 0 && bind(control, (struct sockaddr *)&address, sizeof address) == 0;
    if (!is_bound || listen(control, CLIENTS))
        stop(126, "%s: %s", path, strerror(errno));
    umask(before);
    const struct passwd *user = options.user ? getpwnam(options.user) : NULL;
    if (user && chown(path, user->pw_uid, user->pw_gid))
        stop(126, "%s: %s", path, strerror(errno));
    setenv("VTRUN_SOCKET", path, 1);
    watch(control, OF_CONTROL, 0, EPOLLIN);
}

static void close_client(struct client *it)
{
    close(it->fd);
    free(it->in);
    free(it->out);
    free(it->text);
    free(it->shown.cells);
    memset(it, 0, sizeof *it);
    it->fd = -1;
}

void accept_client(void)
{
    int fd = accept4(control, NULL, NULL, SOCK_CLOEXEC | SOCK_NONBLOCK);
    unsigned i = 0;
    if (fd < 0)
        return;
    while (i < CLIENTS && clients[i].fd >= 0)
        i++;
    char *in = i < CLIENTS ? malloc(ROOM) : NULL;
    if (!in) {
        close(fd);
        return;
    }
    clients[i] = (struct client){ .fd = fd, .in = in, .watched = EPOLLIN };
    watch(fd, OF_CLIENT, i, EPOLLIN);
}

/* The loop tells when there is room for what isn't sent, or more to read, if it has a place. It always tells a hang-up. */
static void watch_client(struct client *it)
{
    uint32_t events = it->out_length ? EPOLLOUT : it->in_length < ROOM && !it->has_ended ? EPOLLIN : 0;
    if (events != it->watched)
        watch_again(it->fd, OF_CLIENT, (unsigned)(it - clients), events);
    it->watched = events;
}

/* Sends what can be sent. */
static void send_out(struct client *it)
{
    while (it->out_at < it->out_length) {
        ssize_t n = send(it->fd, it->out + it->out_at, it->out_length - it->out_at, MSG_NOSIGNAL | MSG_DONTWAIT);
        if (n < 0 && errno == EINTR)
            continue;
        if (n < 0) {
            it->is_over = errno != EAGAIN;
            return;
        }
        it->out_at += (size_t)n;
    }
    free(it->out);
    it->out = NULL;
    it->out_length = it->out_at = 0;
}

static void add_out(struct client *it, const void *bytes, size_t n)
{
    char *more = n ? realloc(it->out, it->out_length + n) : it->out;
    if (n && !more) {
        it->is_over = true;
        return;
    }
    it->out = more;
    if (n)
        memcpy(it->out + it->out_length, bytes, n);
    it->out_length += n;
}

static void reply_with(struct client *it, const char *word, const void *bytes, size_t n)
{
    char line[48];
    int length = snprintf(line, sizeof line, "%s %zu\n", word, n);
    add_out(it, line, (size_t)length);
    add_out(it, bytes, n);
    send_out(it);
}

void reply_ok(struct client *it, const void *bytes, size_t n)
{
    reply_with(it, "ok", bytes, n);
}

void reply_no(struct client *it, const char *form, ...)
{
    char text[512];
    va_list values;
    va_start(values, form);
    int n = vsnprintf(text, sizeof text, form, values);
    va_end(values);
    reply_with(it, "no", text, n < (int)sizeof text ? (size_t)n : sizeof text - 1);
}

/* Serves the request at the beginning of what came, if it is there as a whole. Whether it was. */
static bool serve_next(struct client *it)
{
    char *end = memchr(it->in, '\n', it->in_length);
    if (!end) {
        it->is_over = it->in_length > MOST_LINE;
        return false;
    }
    size_t line = (size_t)(end - it->in) + 1;
    *end = '\0';
    long body = body_length(it->in);
    if (body > MOST_BODY || line > MOST_LINE) {
        reply_no(it, "the request is too long");
        it->is_over = true;
        return false;
    }
    if (body > 0 && it->in_length - line < (size_t)body) {
        *end = '\n';
        return false;
    }
    size_t length = body > 0 ? (size_t)body : 0;
    if (strlen(it->in) == line - 1)
        serve_line(it, it->in, it->in + line, length);
    else
        reply_no(it, "a line without null bytes was wanted");
    it->in_length -= line + length;
    memmove(it->in, it->in + line + length, it->in_length);
    return true;
}

static bool is_ready(const struct client *it)
{
    return !it->is_over && it->awaited == NOT_WAITING && it->out_length == 0;
}

static void serve_all(struct client *it)
{
    while (is_ready(it) && !it->is_attached && it->in_length && serve_next(it))
        ;
    if (it->is_attached && it->in_length) {
        size_t typed = type_terminal((const uint8_t *)it->in, it->in_length);
        it->in_length -= typed;
        memmove(it->in, it->in + typed, it->in_length);
    }
}

/* Reads what came. */
static void read_in(struct client *it)
{
    ssize_t n = recv(it->fd, it->in + it->in_length, ROOM - it->in_length, MSG_DONTWAIT);
    if (n > 0)
        it->in_length += (size_t)n;
    else if (n == 0)
        it->has_ended = true;
    else
        it->is_over = errno != EAGAIN && errno != EINTR;
}

/* Serves what can be served now, and closes a connection that is over. */
static void settle(struct client *it)
{
    serve_all(it);
    if (it->is_over || (it->has_ended && it->awaited == NOT_WAITING && it->out_length == 0))
        close_client(it);
    else
        watch_client(it);
}

void serve_client(unsigned i, uint32_t events)
{
    struct client *it = &clients[i];
    if (it->fd < 0)
        return;
    if (events & EPOLLOUT)
        send_out(it);
    if (events & EPOLLIN && it->in_length < ROOM)
        read_in(it);
    else if (events & (EPOLLHUP | EPOLLERR))
        it->is_over = true;
    settle(it);
}

/* Whether a terminal shows what it should, or can't be sent more now. */
static bool is_drawn(const struct client *it)
{
    return it->out_length > 0 || (it->shown.front == front && it->shown.changes == changes[front]);
}

static void send_frame(struct client *it)
{
    size_t n;
    char *text = is_drawn(it) ? NULL : screen_frame(&it->shown, &n);
    if (!text)
        return;
    add_out(it, text, n);
    free(text);
    send_out(it);
}

/* Answers waits that are over, and draws for terminals. */
void look_at_clients(void)
{
    int64_t now = 0;
    for (unsigned i = 0; i < CLIENTS; i++) {
        struct client *it = &clients[i];
        if (it->fd < 0)
            continue;
        if (it->awaited != NOT_WAITING)
            look_at_wait(it);
        if (it->is_attached) {
            now = now ? now : now_ms();
            if (now >= frame_at)
                send_frame(it);
        }
        settle(it);
    }
    if (now >= frame_at && now)
        frame_at = now + FRAME_MS;
}

/* When something has to be looked at, or INT64_MAX. */
int64_t next_deadline(void)
{
    int64_t next = INT64_MAX;
    for (unsigned i = 0; i < CLIENTS; i++) {
        if (clients[i].fd < 0)
            continue;
        if (clients[i].awaited != NOT_WAITING && clients[i].deadline < next)
            next = clients[i].deadline;
        if (clients[i].is_attached && !is_drawn(&clients[i]) && frame_at < next)
            next = frame_at;
    }
    return next;
}
