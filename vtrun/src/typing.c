/* Typing: which keys make a character, by the key tables as they are, and the scan bytes of these keys.
 *
 * The machine's tables are followed in a keyboard of the library, so that looking for a key makes no call. */
#include "vtrun.h"
#include "typing.h"
#include <string.h>

enum {
    CHARACTERS = 65536,
    CODES = 256,
    SCANS = 256,
    KINDS = 4,
    CHARACTER = 1,
    LETTER = 2,
    META = 3,
    MODIFIER = 8,
    SPECIAL = 12
};

static struct vt_keys keyboard;
static bool is_known;
static struct key {
    uint8_t weight, code;
} keys[CHARACTERS];
static uint8_t scans[CODES];     /* the scan number of each keycode, or 0 */
static uint8_t modifiers[KINDS]; /* the keycode of Shift, AltGr, Control and Alt, or 0 */

void learn_keys(const char *keymap, size_t n)
{
    struct vt_fault fault;
    vt_keys_free(&keyboard);
    if (vt_keys_new(&keyboard, (const uint8_t *)keymap, n, NULL, 0, &fault) != VT_OK)
        stop(126, "no keyboard");
    is_known = false;
}

void entry_was_set(unsigned table, unsigned code, unsigned kind, unsigned value)
{
    const struct vt_action action = { (uint16_t)kind, (uint16_t)value };
    vt_keys_set_entry(&keyboard, table, code, &action);
    is_known = false;
}

void code_was_set(unsigned number, unsigned code)
{
    vt_keys_set_keycode(&keyboard, number, code);
    is_known = false;
}

/* What a key types, or -1. */
static int character_of(const struct vt_action *action)
{
    if (action->kind == CHARACTER || action->kind == LETTER)
        return action->value;
    return action->kind == SPECIAL && action->value == 1 ? '\r' : -1;
}

static void learn_codes(void)
{
    memset(scans, 0, sizeof scans);
    for (unsigned number = SCANS - 1; number > 0; number--) {
        uint32_t code = 0;
        if (vt_keys_keycode(&keyboard, number, &code) == VT_OK && code > 0 && code < CODES)
            scans[code] = (uint8_t)number;
    }
}

/* Learns the keys anew, the plainest way to make a character last, so that it counts. */
static void learn(void)
{
    static const uint8_t weights[] = { 7, 6, 5, 3, 4, 2, 1, 0 };
    struct vt_action action;
    memset(keys, 0, sizeof keys);
    memset(modifiers, 0, sizeof modifiers);
    learn_codes();
    for (unsigned i = 0; i < sizeof weights; i++)
        for (unsigned code = CODES - 1; code > 0; code--) {
            if (!scans[code] || vt_keys_entry(&keyboard, weights[i], code, &action) != VT_OK)
                continue;
            int character = character_of(&action);
            if (character >= 0)
                keys[character] = (struct key){ weights[i], (uint8_t)code };
            if (weights[i] == 0 && action.kind == MODIFIER && action.value < KINDS)
                modifiers[action.value] = (uint8_t)code;
        }
    is_known = true;
}

static size_t put_code(uint8_t *to, unsigned code, bool is_up)
{
    size_t n = 0;
    unsigned number = scans[code];
    if (number & 0x80)
        to[n++] = 0xe0;
    to[n++] = (uint8_t)((number & 0x7f) | (is_up ? 0x80 : 0));
    return n;
}

/* Presses and releases a key while modifiers are held. False if the keyboard lacks one of them. */
bool press(unsigned weight, unsigned code)
{
    uint8_t bytes[4 * KINDS + 4];
    size_t n = 0;
    if (!is_known)
        learn();
    for (unsigned i = 0; i < KINDS; i++)
        if (weight >> i & 1 && !modifiers[i])
            return false;
    if (!scans[code])
        return false;
    for (unsigned i = 0; i < KINDS; i++)
        if (weight >> i & 1)
            n += put_code(bytes + n, modifiers[i], false);
    n += put_code(bytes + n, code, false);
    n += put_code(bytes + n, code, true);
    for (unsigned i = KINDS; i-- > 0;)
        if (weight >> i & 1)
            n += put_code(bytes + n, modifiers[i], true);
    scan(bytes, n);
    return true;
}

/* The key that makes a character, and the modifiers that it needs. */
bool find_key(unsigned character, unsigned *weight, unsigned *code)
{
    if (!is_known)
        learn();
    if (character == '\n')
        character = '\r';
    if (character >= CHARACTERS || !keys[character].code)
        return false;
    *weight = keys[character].weight;
    *code = keys[character].code;
    return true;
}
