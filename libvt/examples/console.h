/* A console: a screen, a key state, and a program on a pseudo-terminal of its own. */
#ifndef CONSOLE_H
#define CONSOLE_H

#include "cells.h"
#include <stdbool.h>
#include <stdint.h>
#include <stdio.h>
#include <sys/ioctl.h>
#include <sys/types.h>
#include <vt.h>

enum { INPUT = 65536, LAST_CONSOLE = 255, KEPT = 1000 };

struct console {
    struct vt_screen screen;
    struct vt_key_state keys;
    int master;              /* the pseudo-terminal, if the screen was made */
    pid_t child;             /* the program, or 0 once it ended */
    bool is_open;            /* whether the pseudo-terminal may still have output */
    uint32_t asked;          /* the console that the program asked for, LAST_CONSOLE, or 0 */
    uint8_t input[INPUT];    /* what its terminal hasn't taken yet */
    size_t input_length;
    struct vt_cell (*kept)[MOST_COLS]; /* the last rows that fell out at the top of the screen, by turns */
    size_t fallen;                     /* how many rows fell out */
    size_t back;                       /* how many of them stand above the rows that are shown, from below */
};

/* Whether a console was started and isn't closed. */
static inline bool is_there(const struct console *c)
{
    return c->screen.at != NULL;
}

/* Makes a console of this size, and runs the command in it with TERM=linux. 0, or the status to end with, with the
 * reason in errno: 4 for memory, 126 for a pseudo-terminal or a process. */
int start_console(struct console *c, char **command, const struct winsize *size);

/* Frees what the console has. */
void close_console(struct console *c);

/* Bytes for the program. What its input has no room for is lost, as on a console. */
void send_to(struct console *c, const void *bytes, size_t length);

/* Gives the program's terminal as much of the input as it takes. */
void write_input(struct console *c);

/* Reads what the program wrote, draws it on the screen, answers what it asks for, and writes it into the record if
 * there is one: how many bytes, 0 if there is nothing yet, -1 at the end. */
ssize_t read_output(struct console *c, FILE *record);

/* Goes back so many more rows of those that fell out, or forth if it is less than 0, as far as rows are kept. */
void scroll_console(struct console *c, long rows);

/* The kept row that is so many above the screen, from 1: MOST_COLS cells. */
const struct vt_cell *kept_row(const struct console *c, size_t above);

/* Gives the console another size; false: memory ran out, and it keeps its own. */
bool resize_console(struct console *c, const struct winsize *size);

#endif
