/* Each code of each call on a keyboard, by the rules of vt.h. */
#include "want.h"

static const uint8_t KEYMAP[] = "keymaps 0-1,8\nkeycode 30 = +a +A\nkeycode 42 = Shift\nkeycode 59 = F1\n"
                                "keycode 56 = Alt\nalt keycode 30 = Meta_a\nkeycode 60 = F2\nkeycode 61 = F3\n"
                                "alt keycode 59 = Console_1\nalt keycode 60 = Console_2\nalt keycode 61 = Console_3\n"
                                "keycode 58 = Caps_Lock\nkeycode 103 = Up\nstring F1 = \"one\"\n";
static const struct vt_modes MODES = VT_MODES_START;
static const struct vt_key_state START = VT_KEY_STATE_START;

/* The key state of the console that is typed into. */
static struct vt_key_state state = VT_KEY_STATE_START;

static void try_no_keys(struct vt_keys *k)
{
    struct vt_key key = { .kind = 9 };
    struct vt_key_state own = { .mode = 9 };
    struct vt_action action = { 9, 9 };
    uint8_t text[4] = { 9 };
    size_t length = 9;
    uint32_t keycode = 9;
    WANT(vt_keys_scan(k, 30, &MODES, &own, &key) == VT_NOTHING && key.kind == 9 && own.mode == 9);
    WANT(vt_keys_key(k, 30, 1, &MODES, &own, &key) == VT_NOTHING && key.kind == 9 && own.mode == 9);
    WANT(vt_keys_release(k) == VT_NOTHING && vt_keys_set_string(k, 1, text, 1) == VT_NOTHING);
    WANT(vt_keys_string(k, 0, text, 4, &length) == VT_NOTHING && length == 9 && text[0] == 9);
    WANT(vt_keys_entry(k, 0, 30, &action) == VT_NOTHING && action.kind == 9 && action.value == 9);
    WANT(vt_keys_set_entry(k, 0, 30, &action) == VT_NOTHING);
    WANT(vt_keys_keycode(k, 30, &keycode) == VT_NOTHING && keycode == 9);
    WANT(vt_keys_set_keycode(k, 30, 31) == VT_NOTHING);
    vt_keys_free(k);
    WANT(k->at == NULL);
}

static struct vt_key scanned(struct vt_keys *k, uint8_t byte)
{
    struct vt_key key = { .kind = 99 };
    WANT(vt_keys_scan(k, byte, &MODES, &state, &key) == VT_OK && key.spare == 0);
    return key;
}

static bool has(const struct vt_key *key, const char *text)
{
    return key->kind == VT_KEY_BYTES && key->length == strlen(text) && memcmp(key->bytes, text, key->length) == 0;
}

static bool types(struct vt_keys *k, uint8_t byte, const char *text)
{
    struct vt_key key = scanned(k, byte);
    return has(&key, text);
}

static bool switches(struct vt_keys *k, uint8_t byte, uint32_t number)
{
    struct vt_key key = scanned(k, byte);
    return key.kind == VT_KEY_SWITCH && key.number == number;
}

static void try_making_keys(void)
{
    static const uint8_t bad[] = "keymaps 0-1\nkeycode 30 = aogonek\n", includes[] = "include \"one\"\n";
    static const uint8_t one[] = "keycode 30 = b\n", other[] = "keycode 30 = c\n", name[] = "one";
    const struct vt_text texts[] = { { name, 3, one, sizeof one - 1 }, { name, 3, other, sizeof other - 1 } };
    struct vt_keys k = { 0 };
    struct vt_fault fault = { 9, 9, 9, 9 };
    try_no_keys(&k);
    WANT(vt_keys_new(&k, bad, sizeof bad - 1, NULL, 0, &fault) == VT_FAULT && k.at == NULL);
    WANT(fault.kind == 2 && fault.line == 2 && fault.column == 14 && fault.spare == 0);
    WANT(vt_keys_new(&k, includes, sizeof includes - 1, texts, 0, &fault) == VT_FAULT && k.at == NULL);
    WANT(fault.kind == 7 && fault.line == 1 && fault.column == 9);
    fault = (struct vt_fault){ 9, 9, 9, 9 };
    WANT(vt_keys_new(&k, includes, sizeof includes - 1, texts, 2, &fault) == VT_OK && fault.kind == 9);
    WANT(types(&k, 30, "b"));
    WANT(vt_keys_new(&k, bad, sizeof bad - 1, texts, 0, &fault) == VT_MADE && fault.kind == 9);
    WANT(scanned(&k, 30 | 0x80).kind == VT_KEY_NOTHING);
    WANT(types(&k, 30, "b"));
    vt_keys_free(&k);
    vt_keys_free(&k);
    try_no_keys(&k);
    WANT(vt_keys_new(&k, NULL, 0, NULL, 0, &fault) == VT_OK); /* a keymap without lines */
    WANT(scanned(&k, 30).kind == VT_KEY_NOTHING);
    vt_keys_free(&k);
}

/* A comment of 1 MiB. */
static uint8_t megabyte[1 << 20];

/* Compiles a keymap that may include four texts: of 1 MiB, of 24 bytes less, of 24 bytes, and an empty one. */
static uint8_t included(struct vt_keys *k, const char *text, struct vt_fault *fault)
{
    static const uint8_t twice[] = "include \"m\"\ninclude \"m\"\n";
    const struct vt_text texts[] = { { (const uint8_t *)"m", 1, megabyte, sizeof megabyte },
                                     { (const uint8_t *)"less", 4, megabyte, sizeof megabyte - 24 },
                                     { (const uint8_t *)"twice", 5, twice, 24 },
                                     { (const uint8_t *)"empty", 5, twice, 0 } };
    return vt_keys_new(k, (const uint8_t *)text, strlen(text), texts, 4, fault);
}

/* The included texts have at most 4 MiB together, each as often as it is included, also within another one. */
static void try_included_bytes(void)
{
    static const char *const fine[] = {
        "include \"m\"\ninclude \"m\"\ninclude \"m\"\ninclude \"m\"\ninclude \"empty\"\n",
        "include \"m\"\ninclude \"less\"\ninclude \"twice\"\n",
    };
    static const struct {
        const char *text;
        uint32_t line, column;
    } bad[] = {
        { "include \"m\"\ninclude \"m\"\ninclude \"m\"\ninclude \"m\"\n include \"twice\"\n", 5, 10 },
        { "include \"less\"\ninclude \"m\"\ninclude \"m\"\ninclude \"twice\"\n", 4, 1 },
    };
    struct vt_keys k = { 0 };
    struct vt_fault fault = { 9, 9, 9, 9 };
    memset(megabyte, '#', sizeof megabyte);
    for (size_t i = 0; i < sizeof fine / sizeof *fine; i++) {
        WANT(included(&k, fine[i], &fault) == VT_OK && fault.kind == 9);
        vt_keys_free(&k);
    }
    for (size_t i = 0; i < sizeof bad / sizeof *bad; i++) {
        WANT(included(&k, bad[i].text, &fault) == VT_FAULT && k.at == NULL);
        WANT(fault.kind == 13 && fault.line == bad[i].line && fault.column == bad[i].column);
    }
}

static void try_strings(struct vt_keys *k)
{
    uint8_t text[256];
    size_t length;
    WANT(types(k, 59, "one"));
    WANT(vt_keys_string(k, 0, text, 3, &length) == VT_OK && length == 3 && memcmp(text, "one", 3) == 0);
    WANT(vt_keys_string(k, 0, text, 2, &length) == VT_NO_ROOM && length == 3);
    WANT(vt_keys_string(k, 0, NULL, 0, &length) == VT_NO_ROOM && length == 3);
    WANT(vt_keys_string(k, 256, text, sizeof text, &length) == VT_RANGE);
    memset(text, 'x', sizeof text);
    WANT(vt_keys_set_string(k, 0, text, 256) == VT_RANGE && vt_keys_set_string(k, 256, text, 1) == VT_RANGE);
    WANT(types(k, 59, "one"));
    WANT(vt_keys_set_string(k, 0, text, 255) == VT_OK);
    struct vt_key key = scanned(k, 59);
    WANT(key.kind == VT_KEY_BYTES && key.length == 255 && memcmp(key.bytes, text, 255) == 0);
    WANT(vt_keys_set_string(k, 0, NULL, 0) == VT_OK && scanned(k, 59).kind == VT_KEY_NOTHING);
}

/* Numbers of the key state that are out of their ranges change nothing. */
static void try_ranges(struct vt_keys *k)
{
    static const struct vt_key_state bad[] = {
        { 5, 4, 0, 0, 255, 0, 0, { 0 } }, { 3, 2, 0, 0, 255, 0, 0, { 0 } },     { 3, 5, 0, 0, 255, 0, 0, { 0 } },
        { 3, 4, 8, 0, 255, 0, 0, { 0 } }, { 3, 4, 0, 8, 255, 0, 0, { 0 } },     { 3, 4, 0, 0, 8, 0, 0, { 0 } },
        { 3, 4, 0, 0, 254, 0, 0, { 0 } }, { 3, 4, 0, 0, 255, 0, 0, { [8] = 1 } }
    };
    struct vt_modes spare = MODES;
    struct vt_key_state own;
    struct vt_key key = { .kind = 9 };
    for (size_t i = 0; i < sizeof bad / sizeof *bad; i++) {
        own = bad[i];
        WANT(vt_keys_scan(k, 30, &MODES, &own, &key) == VT_RANGE && key.kind == 9);
        WANT(vt_keys_key(k, 30, 1, &MODES, &own, &key) == VT_RANGE && key.kind == 9);
        WANT(memcmp(&own, &bad[i], sizeof own) == 0);
    }
    own = START;
    spare.spare[3] = 1;
    WANT(vt_keys_scan(k, 30, &spare, &own, &key) == VT_RANGE && key.kind == 9);
    WANT(vt_keys_key(k, 0, 1, &MODES, &own, &key) == VT_RANGE && key.kind == 9);
    WANT(vt_keys_key(k, 256, 1, &MODES, &own, &key) == VT_RANGE && key.kind == 9);
    WANT(memcmp(&own, &START, sizeof own) == 0);
}

static void try_keys(void)
{
    struct vt_keys k = { 0 };
    struct vt_fault fault;
    static const struct vt_modes application = { .cursor_keys = 1 };
    struct vt_key key;
    WANT(vt_keys_new(&k, KEYMAP, sizeof KEYMAP - 1, NULL, 0, &fault) == VT_OK);
    WANT(types(&k, 30, "a") && scanned(&k, 30 | 0x80).kind == VT_KEY_NOTHING);
    WANT(scanned(&k, 42).kind == VT_KEY_NOTHING && types(&k, 30, "A"));
    WANT(vt_keys_release(&k) == VT_OK && types(&k, 30, "a"));
    WANT(memcmp(&state, &START, sizeof state) == 0);
    state.locks = 1;
    WANT(types(&k, 30, "A") && state.locks == 1);
    state.locks = 0, state.sticky = 1;
    WANT(types(&k, 30, "A") && types(&k, 30, "a") && state.sticky == 0); /* for one key */
    try_strings(&k);
    try_ranges(&k);
    state.flags = 4;
    WANT(types(&k, 30, "A") && vt_key_lights(&state) == 4); /* Caps */
    state.lights = 1;
    WANT(types(&k, 30, "A") && vt_key_lights(&state) == 1 && state.flags == 4);
    state = START;
    state.mode = VT_MEDIUMRAW, state.meta = VT_METABIT;
    WANT(types(&k, 30, "\x1E") && state.mode == VT_MEDIUMRAW && state.meta == VT_METABIT);
    state.mode = VT_RAW;
    WANT(types(&k, 30, "\x1E") && types(&k, 30 | 0x80, "\x9E"));
    WANT(vt_keys_key(&k, 30, 1, &MODES, &state, &key) == VT_OK && key.kind == VT_KEY_NOTHING);
    WANT(vt_keys_key(&k, 30, 0, &MODES, &state, &key) == VT_OK && key.kind == VT_KEY_NOTHING);
    state.mode = VT_OFF;
    WANT(scanned(&k, 30).kind == VT_KEY_NOTHING && scanned(&k, 30 | 0x80).kind == VT_KEY_NOTHING);
    state = START;
    WANT(scanned(&k, 0xE0).kind == VT_KEY_NOTHING && types(&k, 0x48, "\033[A"));
    WANT(vt_keys_release(&k) == VT_OK && scanned(&k, 0xE0).kind == VT_KEY_NOTHING);
    WANT(vt_keys_scan(&k, 0x48, &application, &state, &key) == VT_OK && has(&key, "\033OA"));
    vt_keys_free(&k);
}

/* Keys by their keycodes: those of linux/input-event-codes.h, where KEY_A is 30 and KEY_UP is 103. */
static void try_keycodes(void)
{
    struct vt_keys k = { 0 };
    struct vt_fault fault;
    struct vt_key key;
    uint32_t keycode;
    WANT(vt_keys_new(&k, KEYMAP, sizeof KEYMAP - 1, NULL, 0, &fault) == VT_OK);
    WANT(vt_keys_key(&k, 30, 1, &MODES, &state, &key) == VT_OK && has(&key, "a"));
    WANT(vt_keys_key(&k, 30, 0, &MODES, &state, &key) == VT_OK && key.kind == VT_KEY_NOTHING);
    WANT(vt_keys_key(&k, 42, 9, &MODES, &state, &key) == VT_OK && key.kind == VT_KEY_NOTHING);
    WANT(vt_keys_key(&k, 30, 1, &MODES, &state, &key) == VT_OK && has(&key, "A"));
    WANT(vt_keys_key(&k, 42, 0, &MODES, &state, &key) == VT_OK && key.kind == VT_KEY_NOTHING);
    WANT(vt_keys_key(&k, 103, 1, &MODES, &state, &key) == VT_OK && has(&key, "\033[A"));
    WANT(vt_keys_release(&k) == VT_OK);
    /* setkeycodes(8): scan number 44 types keycode 30, and 0xE0 0x48 nothing. */
    WANT(vt_keys_keycode(&k, 44, &keycode) == VT_OK && keycode == 44);
    WANT(vt_keys_set_keycode(&k, 44, 30) == VT_OK && vt_keys_set_keycode(&k, 128 + 0x48, 0) == VT_OK);
    WANT(vt_keys_keycode(&k, 44, &keycode) == VT_OK && keycode == 30);
    WANT(types(&k, 44, "a") && scanned(&k, 44 | 0x80).kind == VT_KEY_NOTHING);
    WANT(scanned(&k, 0xE0).kind == VT_KEY_NOTHING && scanned(&k, 0x48).kind == VT_KEY_NOTHING);
    static const uint32_t none[] = { 0, 128, 256, 65536 + 30, UINT32_MAX };
    for (size_t i = 0; i < sizeof none / sizeof *none; i++) {
        keycode = 9;
        WANT(vt_keys_keycode(&k, none[i], &keycode) == VT_RANGE && keycode == 9);
        WANT(vt_keys_set_keycode(&k, none[i], 30) == VT_RANGE);
    }
    WANT(vt_keys_set_keycode(&k, 44, 256) == VT_RANGE && vt_keys_set_keycode(&k, 44, UINT32_MAX) == VT_RANGE);
    WANT(vt_keys_keycode(&k, 44, &keycode) == VT_OK && keycode == 30);
    WANT(vt_keys_set_keycode(&k, 255, 255) == VT_OK && vt_keys_keycode(&k, 255, &keycode) == VT_OK && keycode == 255);
    vt_keys_free(&k);
}

/* The kinds of docs/reference/keys.md, "Actions": 2 is a letter, 1 a character, 11 a console. */
static void try_entries(void)
{
    struct vt_keys k = { 0 };
    struct vt_fault fault;
    struct vt_action action = { 9, 9 };
    static const struct vt_action b = { 1, 'b' }, bad[] = { { 14, 0 }, { 1, 0xD800 }, { 11, 0 }, { 65535, 65535 } };
    WANT(vt_keys_new(&k, KEYMAP, sizeof KEYMAP - 1, NULL, 0, &fault) == VT_OK);
    WANT(vt_keys_entry(&k, 0, 30, &action) == VT_OK && action.kind == 2 && action.value == 'a');
    WANT(vt_keys_entry(&k, 8, 61, &action) == VT_OK && action.kind == 11 && action.value == 3);
    WANT(vt_keys_entry(&k, 1, 255, &action) == VT_OK && action.kind == 0 && action.value == 0);
    WANT(vt_keys_entry(&k, 9, 30, &action) == VT_OK && action.kind == VT_ACTION_NO_TABLE && action.value == 0);
    action = (struct vt_action){ 9, 9 };
    WANT(vt_keys_entry(&k, 256, 30, &action) == VT_RANGE && vt_keys_entry(&k, 0, 0, &action) == VT_RANGE);
    WANT(vt_keys_entry(&k, 0, 256, &action) == VT_RANGE && action.kind == 9 && action.value == 9);
    WANT(vt_keys_set_entry(&k, 0, 30, &b) == VT_OK && types(&k, 30, "b"));
    WANT(vt_keys_set_entry(&k, 9, 30, &b) == VT_RANGE && vt_keys_set_entry(&k, 256, 30, &b) == VT_RANGE);
    WANT(vt_keys_set_entry(&k, 0, 0, &b) == VT_RANGE && vt_keys_set_entry(&k, 0, 256, &b) == VT_RANGE);
    for (size_t i = 0; i < sizeof bad / sizeof *bad; i++)
        WANT(vt_keys_set_entry(&k, 0, 30, &bad[i]) == VT_RANGE);
    WANT(vt_keys_entry(&k, 0, 30, &action) == VT_OK && action.kind == 1 && action.value == 'b');
    vt_keys_free(&k);
}

static void try_pairs(void)
{
    static const uint8_t map[] = "keycode 40 = dead_grave\nkeycode 30 = a\ncompose '`' 'a' to U+00E0\n";
    static const struct vt_pair other[] = { { '`', 'a', 'x' }, { '`', 'b', 65535 } }, bad[] = { { '`', 'a', 65536 } };
    struct vt_keys k = { 0 };
    struct vt_fault fault;
    struct vt_pair pairs[2] = { { 9, 9, 9 }, { 9, 9, 9 } }, many[257];
    size_t count = 9;
    WANT(vt_keys_pairs(&k, pairs, 2, &count) == VT_NOTHING && vt_keys_set_pairs(&k, other, 2) == VT_NOTHING);
    WANT(count == 9 && pairs[0].accent == 9);
    WANT(vt_keys_new(&k, map, sizeof map - 1, NULL, 0, &fault) == VT_OK);
    WANT(vt_keys_pairs(&k, NULL, 0, &count) == VT_NO_ROOM && count == 1);
    WANT(vt_keys_pairs(&k, pairs, 2, &count) == VT_OK && count == 1 && pairs[1].accent == 9);
    WANT(pairs[0].accent == '`' && pairs[0].base == 'a' && pairs[0].result == 0xE0);
    WANT(scanned(&k, 40).kind == VT_KEY_NOTHING && scanned(&k, 40 | 0x80).kind == VT_KEY_NOTHING);
    WANT(types(&k, 30, "\xC3\xA0") && scanned(&k, 30 | 0x80).kind == VT_KEY_NOTHING);
    WANT(vt_keys_set_pairs(&k, bad, 1) == VT_RANGE && vt_keys_set_pairs(&k, other, 2) == VT_OK);
    WANT(vt_keys_pairs(&k, pairs, 2, &count) == VT_OK && count == 2 && memcmp(pairs, other, sizeof other) == 0);
    WANT(scanned(&k, 40).kind == VT_KEY_NOTHING && scanned(&k, 40 | 0x80).kind == VT_KEY_NOTHING);
    WANT(types(&k, 30, "x"));
    for (size_t i = 0; i < 257; i++)
        many[i] = (struct vt_pair){ (uint32_t)i, 1, 2 };
    WANT(vt_keys_set_pairs(&k, many, 257) == VT_RANGE && vt_keys_set_pairs(&k, many, 256) == VT_OK);
    WANT(vt_keys_pairs(&k, many, 255, &count) == VT_NO_ROOM && count == 256);
    /* (their bytes are more than a size_t counts) */
    WANT(vt_keys_set_pairs(&k, many, SIZE_MAX / 4 + 2) == VT_RANGE);
    WANT(vt_keys_pairs(&k, many, SIZE_MAX / 4 + 1, &count) == VT_OK && count == 256);
    WANT(vt_keys_set_pairs(&k, NULL, 0) == VT_OK && vt_keys_pairs(&k, NULL, 0, &count) == VT_OK && count == 0);
    vt_keys_free(&k);
}

/* One keyboard, three consoles: the keys that are down are the keyboard's, the key state is the console's. */
static void try_consoles(void)
{
    struct vt_keys k = { 0 };
    struct vt_fault fault;
    struct vt_key_state states[4] = { START, START, START, START };
    WANT(vt_keys_new(&k, KEYMAP, sizeof KEYMAP - 1, NULL, 0, &fault) == VT_OK);
    state = states[1];
    WANT(scanned(&k, 56).kind == VT_KEY_NOTHING && switches(&k, 60, 2)); /* Alt+F2 */
    states[1] = state, state = states[2];
    WANT(scanned(&k, 60 | 0x80).kind == VT_KEY_NOTHING && switches(&k, 61, 3)); /* F3, with Alt still down */
    states[2] = state, state = states[3];
    WANT(scanned(&k, 61 | 0x80).kind == VT_KEY_NOTHING && switches(&k, 59, 1));
    states[3] = state, state = states[1];
    WANT(scanned(&k, 59 | 0x80).kind == VT_KEY_NOTHING && scanned(&k, 56 | 0x80).kind == VT_KEY_NOTHING);
    WANT(types(&k, 30, "a") && scanned(&k, 30 | 0x80).kind == VT_KEY_NOTHING); /* without ESC: Alt is up */
    WANT(scanned(&k, 58).kind == VT_KEY_NOTHING && scanned(&k, 58 | 0x80).kind == VT_KEY_NOTHING);
    WANT(state.flags == VT_CAPS_LOCK && state.lights == VT_LIGHTS_FOLLOW && vt_key_lights(&state) == VT_CAPS_LOCK);
    states[1] = state, state = states[2];
    WANT(types(&k, 30, "a") && vt_key_lights(&state) == 0 && scanned(&k, 30 | 0x80).kind == VT_KEY_NOTHING);
    states[2] = state, state = states[1];
    WANT(types(&k, 30, "A") && vt_key_lights(&state) == VT_CAPS_LOCK);
    state = START;
    vt_keys_free(&k);
}

int main(void)
{
    try_making_keys();
    try_included_bytes();
    try_keys();
    try_keycodes();
    try_entries();
    try_pairs();
    try_consoles();
    return ended();
}
