/* The rows of the C library's screen, fed as a terminal feeds it. With -DCUT=N each call gets N bytes. */
#include "screen.h"
#include <vt.h>

#ifndef CUT
#define CUT PIECE
#endif

enum { OUTS = 64 };

int main(int count, char **words)
{
    struct vt_screen screen = { 0 };
    struct vt_cell cells[255];
    struct vt_out outs[OUTS];
    struct vt_fed fed;
    read_words(count, words);
    if (vt_screen_new(&screen, (uint32_t)rows, (uint32_t)cols) != VT_OK)
        return 4;
    for (size_t length; (length = next_piece()) > 0;)
        for (size_t at = 0; at < length; at += fed.taken)
            vt_screen_feed(&screen, (const uint8_t *)buffer + at, length - at < CUT ? length - at : CUT, outs, OUTS, &fed);
    for (int y = 0; y < rows; y++) {
        putchar('|');
        vt_screen_row(&screen, (uint32_t)y, cells, 255);
        for (int x = 0; x < cols; x++)
            if (cells[x].code != VT_HALF)
                print_code(cells[x].code);
        puts("|");
    }
    vt_screen_free(&screen);
    return 0;
}
