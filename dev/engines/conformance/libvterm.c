/* The adapter of libvterm, an example of one in C: docs/guide/write-a-terminal.md describes the protocol of lines. */
#include "adapter.h"
#include <vterm.h>

static VTerm *terminal;

static void report(const char *bytes, size_t length, void *user)
{
    (void)user;
    keep_report(bytes, length);
}

static int ring(void *user)
{
    (void)user;
    bells++;
    return 1;
}

static const VTermScreenCallbacks callbacks = { .bell = ring };

static void write_piece(const char *bytes, size_t length)
{
    vterm_input_write(terminal, bytes, length);
}

static void print_row(VTermScreen *screen, int row, int columns)
{
    putchar('"');
    for (int column = 0; column < columns; column++) {
        VTermScreenCell cell;
        vterm_screen_get_cell(screen, (VTermPos){ .row = row, .col = column }, &cell);
        if (cell.chars[0] == (uint32_t)-1) /* a wide character's second cell */
            continue;
        print_code(cell.chars[0] ? cell.chars[0] : ' ');
        for (int n = 1; n < VTERM_MAX_CHARS_PER_CELL && cell.chars[n]; n++)
            print_code(cell.chars[n]);
    }
    putchar('"');
}

static void print_colour(const VTermColor *colour, int is_default)
{
    if (is_default)
        printf("null");
    else if (VTERM_COLOR_IS_INDEXED(colour))
        printf("%d", colour->indexed.idx);
    else
        printf("\"#%02x%02x%02x\"", colour->rgb.red, colour->rgb.green, colour->rgb.blue);
}

static void print_pen(VTermScreen *screen, int row, int column, int *count)
{
    VTermScreenCell cell;
    vterm_screen_get_cell(screen, (VTermPos){ .row = row, .col = column }, &cell);
    if (cell.chars[0] == (uint32_t)-1 && column) /* it has no pen of its own */
        vterm_screen_get_cell(screen, (VTermPos){ .row = row, .col = column - 1 }, &cell);
    int fg = VTERM_COLOR_IS_DEFAULT_FG(&cell.fg), bg = VTERM_COLOR_IS_DEFAULT_BG(&cell.bg);
    int plain = !cell.attrs.bold && !cell.attrs.italic && !cell.attrs.underline;
    plain = plain && !cell.attrs.blink && !cell.attrs.reverse;
    if (fg && bg && plain)
        return;
    printf("%s[%d, %d, 1, ", (*count)++ ? ", " : "", row, column);
    print_colour(&cell.fg, fg);
    printf(", ");
    print_colour(&cell.bg, bg);
    printf(", \"%s%s%s%s%s\"]", cell.attrs.bold ? "b" : "", cell.attrs.italic ? "i" : "",
           cell.attrs.underline ? "u" : "", cell.attrs.blink ? "k" : "", cell.attrs.reverse ? "r" : "");
}

static void answer(const char *line, int rows, int columns)
{
    int pens = 0;
    terminal = vterm_new(rows, columns);
    VTermScreen *screen = vterm_obtain_screen(terminal);
    vterm_set_utf8(terminal, 1);
    vterm_output_set_callback(terminal, report, NULL);
    vterm_screen_set_callbacks(screen, &callbacks, NULL);
    vterm_screen_reset(screen, 1);
    write_pieces(line, write_piece);
    VTermPos cursor;
    vterm_state_get_cursorpos(vterm_obtain_state(terminal), &cursor);
    printf("\"text\": [");
    for (int row = 0; row < rows; row++) {
        printf(row ? ", " : "");
        print_row(screen, row, columns);
    }
    printf("], \"cursor\": [%d, %d], \"pens\": [", cursor.row, cursor.col);
    for (int row = 0; row < rows; row++)
        for (int column = 0; column < columns; column++)
            print_pen(screen, row, column, &pens);
    printf("]");
    print_reports_and_bells();
    vterm_free(terminal);
}
