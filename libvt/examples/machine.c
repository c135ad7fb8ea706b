/* Two processes on one machine: a display server handles the switches of console 1, and a shell on console 2 asks for
 * the display. Prints each call with its answer, what it caused, and the journal, which is a legal history.
 *
 *     cc -o machine machine.c $(pkg-config --cflags --libs vt)
 *     ./machine
 *
 * Status 1: a call isn't made; 3: a write failed. */
#include <stdio.h>
#include <stdlib.h>
#include <string.h>
#include <vt.h>

enum { SERVER = 1, SHELL = 2, SIGNAL = 10, MARKS = 8, TEXT = 4096 };

#define NUMBERS(...) (const uint16_t[]){ __VA_ARGS__ }, sizeof((uint16_t[]){ __VA_ARGS__ }) / sizeof(uint16_t)

static struct vt_machine machine;

static void must(uint8_t code)
{
    if (code != VT_OK)
        exit(1);
}

/* Makes a call, and prints its line of the journal and what it caused. */
static void call(uint32_t caller, const char *name, const uint16_t *numbers, size_t count, const char *text)
{
    struct vt_mark marks[MARKS];
    struct vt_reply reply;
    struct vt_display display;
    uint8_t bytes[TEXT], line[TEXT];
    size_t length, found;
    must(vt_machine_call(&machine, caller, name, numbers, count, (const uint8_t *)text, text ? strlen(text) : 0, &reply,
                         bytes, sizeof bytes));
    must(vt_machine_display(&machine, &display));
    must(vt_machine_entry(&machine, display.entries - 1, line, sizeof line, &length));
    printf("%.*s", (int)length, (const char *)line);
    must(vt_machine_marks(&machine, marks, MARKS, &found));
    for (size_t i = 0; i < found && i < MARKS; i++) {
        if (marks[i].kind == VT_MARK_RAISED)
            printf("    signal %u to process %u\n", marks[i].b, marks[i].a);
        if (marks[i].kind == VT_MARK_HOPPED)
            printf("    the display goes from console %u to %u\n", marks[i].a, marks[i].b);
    }
}

int main(void)
{
    struct vt_start start = { .consoles = 1 << 1 | 1 << 2, .bytes = 1 << 20, .events = 1000, .rows = 25, .cols = 80,
                              .front = 1, .keyboards = 1 };
    struct vt_seat seats[] = { { .home = 1 }, { .home = 2 } };
    struct vt_fault fault;
    uint8_t journal[TEXT];
    size_t length;
    must(vt_machine_new(&machine, &start, seats, 2, NULL, 0, &fault));
    call(SERVER, "open", NUMBERS(1), NULL);
    call(SERVER, "setmode", NUMBERS(0, 1, 0, SIGNAL, SIGNAL, 0), NULL);
    call(SHELL, "open", NUMBERS(2), NULL);
    call(SHELL, "write", NUMBERS(0), "hello");
    call(SHELL, "activate", NUMBERS(0, 2), NULL);
    call(SERVER, "signals", NULL, 0, NULL);
    call(SERVER, "reldisp", NUMBERS(0, 1), NULL);
    must(vt_machine_journal(&machine, journal, sizeof journal, &length));
    printf("\n%.*s", (int)length, (const char *)journal);
    vt_machine_free(&machine);
    return fflush(stdout) == 0 ? 0 : 3;
}
