/* Makes the calls of a journal one by one on a machine, and prints the journal that the machine then has, its display,
 * its screens and how long its queues are, in the form of `vt play`.
 *
 * usage: machine_session [-l] ROWS COLS CONSOLES FRONT KEYBOARDS EVENTS KEYMAP [HOME,PRIVILEGED ..] < JOURNAL
 *
 * CONSOLES is a number with bit n for console n, KEYMAP a file. With -l each line is printed after its call, the journal
 * is emptied after every third call, and the first and the last line are left out. Of a line of JOURNAL the caller and
 * the words of its call are read; its answer isn't. Status 1: other words; 5: a call isn't made. */
#include "session_calls.h"

enum { JOURNAL = 1 << 26, FORGETS = 3 };

static uint8_t text[JOURNAL];

/* Prints the line of the last call, and empties the journal now and then. */
static void print_last(void)
{
    struct vt_display display;
    size_t length;
    must(vt_machine_display(&m, &display), "display");
    must(vt_machine_entry(&m, display.entries - 1, text, JOURNAL, &length), "entry");
    fwrite(text, 1, length, stdout);
    if (display.entries == FORGETS)
        must(vt_machine_forget(&m), "forget");
}

static void print_row(uint32_t console, uint32_t row, uint32_t cols)
{
    static struct vt_cell cells[255];
    must(vt_machine_row(&m, console, row, cells, 255), "row");
    printf("|");
    for (uint32_t x = 0; x < cols; x++) {
        uint32_t code = cells[x].code;
        if (code == VT_HALF)
            continue;
        if (code < 0x80)
            printf("%c", (int)code);
        else if (code < 0x800)
            printf("%c%c", (int)(0xC0 | code >> 6), (int)(0x80 | (code & 0x3F)));
        else if (code < 0x10000)
            printf("%c%c%c", (int)(0xE0 | code >> 12), (int)(0x80 | (code >> 6 & 0x3F)), (int)(0x80 | (code & 0x3F)));
        else
            printf("%c%c%c%c", (int)(0xF0 | code >> 18), (int)(0x80 | (code >> 12 & 0x3F)),
                   (int)(0x80 | (code >> 6 & 0x3F)), (int)(0x80 | (code & 0x3F)));
    }
    printf("|\n");
}

/* What `vt play` prints after the journal, with the length of a queue in place of its bytes. */
static void print_end(void)
{
    struct vt_display display;
    must(vt_machine_display(&m, &display), "display");
    printf("%%display %u\n", display.front);
    for (uint32_t n = 1; n <= 63; n++) {
        struct vt_console c;
        if (vt_machine_console(&m, n, &c) != VT_OK)
            continue;
        printf("%%screen %u %u %u %u %u %u\n", n, c.rows, c.cols, c.x, c.y, c.bells);
        for (uint32_t row = 0; row < c.rows; row++)
            print_row(n, row, c.cols);
        printf("%%queue %u %u\n", n, c.queued);
    }
}

int main(int count, char **words)
{
    bool is_by_lines = count > 1 && strcmp(words[1], "-l") == 0;
    struct session_call call;
    size_t length;
    make_machine(words + 1 + is_by_lines, (size_t)(count - 1 - is_by_lines));
    while (read_call(&call)) {
        make_call(&call);
        free(call.held);
        if (is_by_lines)
            print_last();
    }
    if (!is_by_lines) {
        must(vt_machine_journal(&m, text, JOURNAL, &length), "journal");
        fwrite(text, 1, length, stdout);
    }
    print_end();
    vt_machine_free(&m);
    return 0;
}
