/* The keys of the terminal that one sits at, typed by a keymap. */
#ifndef TYPED_H
#define TYPED_H

#include <stdbool.h>
#include <stddef.h>
#include <vt.h>

/* Makes the keyboard; false: memory ran out. */
bool make_keyboard(struct vt_keys *keys);

/* Types the first key of what the terminal sent into a console with this state and these modes. How many bytes it took,
 * 1 or more; *key is what the key does. A key's bytes come in one piece, so none is looked for across pieces. */
size_t take_key(struct vt_keys *keys, const char *bytes, size_t length, const struct vt_modes *modes,
                struct vt_key_state *state, struct vt_key *key);

#endif
