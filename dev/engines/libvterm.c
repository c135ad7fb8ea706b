/* The rows of libvterm's screen. */
#include "screen.h"
#include <vterm.h>

int main(int count, char **words)
{
    read_words(count, words);
    VTerm *terminal = vterm_new(rows, cols);
    VTermScreen *screen = vterm_obtain_screen(terminal);
    vterm_set_utf8(terminal, 1);
    vterm_screen_set_damage_merge(screen, VTERM_DAMAGE_SCROLL);
    vterm_screen_reset(screen, 1);
    for (size_t length; (length = next_piece()) > 0;)
        vterm_input_write(terminal, buffer, length);
    for (int y = 0; y < rows; y++) {
        putchar('|');
        for (int x = 0; x < cols; x++) {
            VTermScreenCell cell;
            vterm_screen_get_cell(screen, (VTermPos){ .row = y, .col = x }, &cell);
            if (cell.chars[0] != (uint32_t)-1) /* a wide character's second cell */
                print_code(cell.chars[0]);
        }
        puts("|");
    }
    return 0;
}
