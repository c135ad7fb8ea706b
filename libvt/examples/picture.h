#ifndef PICTURE_H
#define PICTURE_H

#include <stdbool.h>
#include <stdio.h>
#include <vt.h>

/* Writes the screen as a picture in SVG. False: memory ran out. The caller looks whether the file has an error. */
bool write_picture(FILE *file, const struct vt_screen *screen);

#endif
