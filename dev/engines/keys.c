/* Types a key of the C library COUNT times, down and up: `a`, Shift, F1 with a string of four bytes, or twice the byte
 * E0, which begins a group of bytes and types no key. */
#include <stdlib.h>
#include <string.h>
#include <vt.h>

static const char keymap[] =
    "keymaps 0-1\nkeycode 30 = a\nkeycode 42 = Shift\nkeycode 59 = F1\nstring F1 = \"\\033[[A\"\n";

int main(int count, char **words)
{
    struct vt_keys keys = { 0 };
    struct vt_modes modes = VT_MODES_START;
    struct vt_key_state state = VT_KEY_STATE_START;
    struct vt_fault fault;
    struct vt_key key;
    if (count != 3)
        return 1;
    uint8_t down = !strcmp(words[1], "a") ? 30 : !strcmp(words[1], "Shift") ? 42 : !strcmp(words[1], "F1") ? 59 : 0xE0;
    if (vt_keys_new(&keys, (const uint8_t *)keymap, strlen(keymap), NULL, 0, &fault) != VT_OK)
        return 4;
    for (long n = atol(words[2]); n > 0; n--) {
        vt_keys_scan(&keys, down, &modes, &state, &key);
        vt_keys_scan(&keys, down | 0x80, &modes, &state, &key);
    }
    vt_keys_free(&keys);
    return 0;
}
