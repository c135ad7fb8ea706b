/* A connection of the control socket. */
#ifndef CONTROL_H
#define CONTROL_H

#include "vtrun.h"

enum { MOST_LINE = 4096, MOST_BODY = 65536, MOST_TEXT = 300000 };

/* What a connection waits for. */
enum awaited { NOT_WAITING, FOR_FRONT, FOR_OWNER, FOR_TEXT, FOR_PROGRAM };

struct client {
    int fd;         /* or -1 */
    char *in, *out; /* what came and isn't served yet, and what isn't sent yet */
    size_t in_length, out_length, out_at;
    enum awaited awaited;
    unsigned console; /* that it waits for; or the program */
    int64_t deadline;
    char *text; /* that it waits for */
    size_t text_length;
    uint32_t changes; /* of the console, when its text was looked for */
    bool is_attached, is_over;
    bool has_ended;   /* nothing more comes: what it waits for is answered all the same */
    uint32_t watched; /* what the loop tells of it */
    struct shown shown;
};

void reply_ok(struct client *it, const void *bytes, size_t n);
void reply_no(struct client *it, const char *form, ...) __attribute__((format(printf, 2, 3)));
void serve_line(struct client *it, char *line, const char *body, size_t length);
/* The number of bytes that follow a line; -1 if the line is of no form. */
long body_length(const char *line);
void look_at_wait(struct client *it);

#endif
