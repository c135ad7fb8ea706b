/* A screen as a picture in SVG, in a file. */
#include "picture.h"
#include <stdlib.h>

bool write_picture(FILE *file, const struct vt_screen *screen)
{
    size_t length = 0;
    vt_screen_picture(screen, NULL, 0, &length);
    uint8_t *text = malloc(length);
    bool is_there = text && vt_screen_picture(screen, text, length, &length) == VT_OK;
    if (is_there)
        fwrite(text, 1, length, file);
    free(text);
    return is_there;
}
