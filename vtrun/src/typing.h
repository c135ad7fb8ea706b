/* What the readers of texts and of terminals need of the keyboard. */
#ifndef TYPING_H
#define TYPING_H

#include <stdbool.h>
#include <stddef.h>
#include <stdint.h>

/* The weights of keymaps(5). */
enum { SHIFT = 1, ALTGR = 2, CONTROL = 4, ALT = 8 };

bool press(unsigned weight, unsigned code);
bool find_key(unsigned character, unsigned *weight, unsigned *code);
/* Reads a character of UTF-8: how many bytes it has, or 0 if they are none. */
size_t read_character(const uint8_t *bytes, size_t n, unsigned *character);

#endif
