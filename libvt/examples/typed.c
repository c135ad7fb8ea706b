/* The keys of the terminal that one sits at, typed by a keymap.
 *
 * A terminal sends characters as they are, and other keys as sequences (terminfo's xterm and linux). A character goes on
 * unchanged. A sequence is a keycode with modifiers: these are pressed on a keyboard, which types them by the keymap
 * below, as the console does. A sequence that is no key of it goes on unchanged, too. */
#include "typed.h"
#include <ctype.h>
#include <string.h>

/* keymaps(5); the keys are those of linux/input-event-codes.h. */
static const char KEYMAP[] =
    "keymaps 0-1,4,8\nstrings as usual\n"
    "keycode 29 = Control\nkeycode 42 = Shift\nkeycode 56 = Alt\n"
    "keycode 15 = Tab\nshift keycode 15 = Meta_Tab\n"
    "keycode 59 = F1\nshift keycode 59 = F13\nalt keycode 59 = Console_1\n"
    "keycode 60 = F2\nshift keycode 60 = F14\nalt keycode 60 = Console_2\n"
    "keycode 61 = F3\nshift keycode 61 = F15\nalt keycode 61 = Console_3\n"
    "keycode 62 = F4\nshift keycode 62 = F16\nalt keycode 62 = Console_4\n"
    "keycode 63 = F5\nshift keycode 63 = F17\nalt keycode 63 = Console_5\n"
    "keycode 64 = F6\nshift keycode 64 = F18\nalt keycode 64 = Console_6\n"
    "keycode 65 = F7\nshift keycode 65 = F19\nkeycode 66 = F8\nshift keycode 66 = F20\n"
    "keycode 67 = F9\nkeycode 68 = F10\nkeycode 87 = F11\nkeycode 88 = F12\n"
    "keycode 102 = Home\nkeycode 103 = Up\nkeycode 104 = Prior\nkeycode 105 = Left\nkeycode 106 = Right\n"
    "keycode 107 = End\nkeycode 108 = Down\nkeycode 109 = Next\nkeycode 110 = Insert\nkeycode 111 = Remove\n"
    "alt keycode 105 = Decr_Console\nalt keycode 106 = Incr_Console\n";

enum { SHIFT = 1, ALT = 2, CONTROL = 4, TAB = 15 };

/* The keys that press modifiers, in the order of xterm's numbers. */
static const struct {
    unsigned modifier;
    uint32_t keycode;
} MODIFIERS[] = { { SHIFT, 42 }, { ALT, 56 }, { CONTROL, 29 } };

enum { MODIFIER_COUNT = sizeof MODIFIERS / sizeof *MODIFIERS };

struct pressed {
    uint32_t keycode;
    unsigned modifiers;
};

bool make_keyboard(struct vt_keys *keys)
{
    struct vt_fault fault;
    return vt_keys_new(keys, (const uint8_t *)KEYMAP, sizeof KEYMAP - 1, NULL, 0, &fault) == VT_OK;
}

/* The keycode of a sequence by its last byte and its first number, or 0. */
static uint32_t keycode_of(char last, unsigned number)
{
    static const struct {
        char last;
        uint8_t number, keycode;
    } rows[] = {
        { 'A', 1, 103 }, { 'B', 1, 108 },  { 'C', 1, 106 },  { 'D', 1, 105 },  { 'H', 1, 102 },  { 'F', 1, 107 },
        { 'P', 1, 59 },  { 'Q', 1, 60 },   { 'R', 1, 61 },   { 'S', 1, 62 },   { '~', 1, 102 },  { '~', 2, 110 },
        { '~', 3, 111 }, { '~', 4, 107 },  { '~', 5, 104 },  { '~', 6, 109 },  { '~', 11, 59 },  { '~', 12, 60 },
        { '~', 13, 61 }, { '~', 14, 62 },  { '~', 15, 63 },  { '~', 17, 64 },  { '~', 18, 65 },  { '~', 19, 66 },
        { '~', 20, 67 }, { '~', 21, 68 },  { '~', 23, 87 },  { '~', 24, 88 },  { 'Z', 1, TAB },
    };
    for (size_t i = 0; i < sizeof rows / sizeof *rows; i++)
        if (rows[i].last == last && rows[i].number == number)
            return rows[i].keycode;
    return 0;
}

/* A number of at most three digits; without digits it stays. */
static size_t read_number(const char *bytes, size_t length, size_t at, unsigned *number)
{
    size_t first = at;
    unsigned found = 0;
    while (at < length && at - first < 3 && isdigit((unsigned char)bytes[at]))
        found = 10 * found + (unsigned)(bytes[at++] - '0');
    if (at > first)
        *number = found;
    return at;
}

/* Reads ESC O X, ESC [ X, ESC [ N ~, ESC [ 1 ; M X or ESC [ N ; M ~, where M is 1 and the modifiers: its length, or 0 if
 * the bytes don't begin with a key. */
static size_t read_key(const char *bytes, size_t length, struct pressed *key)
{
    unsigned number = 1, modifiers = 1;
    if (length < 3 || bytes[0] != '\033' || (bytes[1] != '[' && bytes[1] != 'O'))
        return 0;
    bool is_ss3 = bytes[1] == 'O';
    size_t at = is_ss3 ? 2 : read_number(bytes, length, 2, &number);
    if (at < length && bytes[at] == ';')
        at = read_number(bytes, length, at + 1, &modifiers);
    if (at >= length || modifiers < 1 || modifiers > 8)
        return 0;
    /* (a console sends ESC [ P for Pause) */
    bool is_function = bytes[at] >= 'P' && bytes[at] <= 'S';
    if (is_function && !is_ss3 && at == 2)
        return 0;
    key->keycode = keycode_of(bytes[at], number);
    key->modifiers = modifiers - 1;
    if (bytes[at] == 'Z')
        key->modifiers |= SHIFT;
    return key->keycode != 0 ? at + 1 : 0;
}

/* Presses the modifiers and the key, and releases all of them; the result is that of the key. */
static void press(struct vt_keys *keys, const struct pressed *pressed, const struct vt_modes *modes,
                  struct vt_key_state *state, struct vt_key *key)
{
    struct vt_key ignored;
    for (int i = 0; i < MODIFIER_COUNT; i++)
        if (pressed->modifiers & MODIFIERS[i].modifier)
            vt_keys_key(keys, MODIFIERS[i].keycode, 1, modes, state, &ignored);
    vt_keys_key(keys, pressed->keycode, 1, modes, state, key);
    vt_keys_key(keys, pressed->keycode, 0, modes, state, &ignored);
    for (int i = 0; i < MODIFIER_COUNT; i++)
        if (pressed->modifiers & MODIFIERS[i].modifier)
            vt_keys_key(keys, MODIFIERS[i].keycode, 0, modes, state, &ignored);
}

size_t take_key(struct vt_keys *keys, const char *bytes, size_t length, const struct vt_modes *modes,
                struct vt_key_state *state, struct vt_key *key)
{
    struct pressed pressed;
    size_t taken = read_key(bytes, length, &pressed);
    key->kind = VT_KEY_NOTHING;
    if (taken > 0)
        press(keys, &pressed, modes, state, key);
    if (key->kind == VT_KEY_NOTHING) {
        taken = taken > 0 ? taken : 1;
        key->kind = VT_KEY_BYTES;
        key->length = (uint16_t)taken;
        memcpy(key->bytes, bytes, taken);
    }
    return taken;
}
