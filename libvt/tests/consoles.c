/* Types on one keyboard into several consoles, and prints what each of them got, and its key state at the end.
 *
 * usage: consoles KEYMAP < LINES
 *
 * A line `c N MODE META FLAGS DEFAULTS LIGHTS HEX` makes console N, with these members of its key state and this text
 * on its screen. The first one is in front. A line `k HH ..` has scan bytes. Prints `queue N HEX` with the bytes for a
 * console's input, `state N MODE META LIGHTS FLAGS` with what the lights show, and the flags and 16 times their
 * defaults, and last `front N`. Status 1: other words; 4: the file can't be read. */
#include "want.h"

enum { MOST = 8, ROOM = 1 << 16, LINE = 1 << 16 };

struct console {
    struct vt_screen screen;
    struct vt_key_state state;
    uint8_t queue[ROOM];
    size_t length;
};

static struct console consoles[MOST + 1];
static struct vt_keys keyboard;
static uint32_t front, last;

static bool is_console(uint32_t n)
{
    return n >= 1 && n <= MOST && consoles[n].screen.at;
}

static void bring(uint32_t n)
{
    if (is_console(n) && n != front)
        last = front, front = n;
}

/* The nearest console above or below; after the last one comes the first. */
static uint32_t beside(uint32_t step)
{
    uint32_t n = front;
    do
        n = (n + step) % (MOST + 1);
    while (!is_console(n));
    return n;
}

static void make(const char *line)
{
    static const struct vt_key_state start = VT_KEY_STATE_START;
    uint8_t mode, meta, flags, defaults, lights, byte;
    uint32_t n;
    int used = 0;
    WANT(sscanf(line, "%u %hhu %hhu %hhu %hhu %hhu %n", &n, &mode, &meta, &flags, &defaults, &lights, &used) == 6);
    struct console *c = &consoles[n % (MOST + 1)];
    c->state = start;
    c->state.mode = mode, c->state.meta = meta, c->state.flags = flags, c->state.defaults = defaults;
    c->state.lights = lights;
    WANT(vt_screen_new(&c->screen, 3, 9) == VT_OK);
    for (line += used; sscanf(line, "%2hhx", &byte) == 1; line += 2)
        WANT(vt_screen_write(&c->screen, &byte, 1) == VT_OK);
    front = front ? front : n;
}

static void type(uint8_t scan)
{
    struct console *c = &consoles[front];
    struct vt_state shown;
    struct vt_key key;
    memset(&key, 0xA5, sizeof key);
    WANT(vt_screen_state(&c->screen, &shown) == VT_OK);
    WANT(vt_keys_scan(&keyboard, scan, &shown.modes, &c->state, &key) == VT_OK && key.length <= sizeof key.bytes);
    /* The bytes past the length stay. */
    for (size_t i = key.length; i < sizeof key.bytes; i++)
        WANT(key.bytes[i] == 0xA5);
    switch (key.kind) {
    case VT_KEY_BYTES:
        WANT(c->length + key.length <= ROOM);
        memcpy(c->queue + c->length, key.bytes, key.length);
        c->length += key.length;
        break;
    case VT_KEY_SWITCH: bring(key.number); break;
    case VT_KEY_LAST: bring(last); break;
    case VT_KEY_NEXT: bring(beside(1)); break;
    case VT_KEY_PREV: bring(beside(MOST)); break;
    default: break;
    }
}

static void print_all(void)
{
    for (uint32_t n = 1; n <= MOST; n++) {
        struct console *c = &consoles[n];
        if (!is_console(n))
            continue;
        printf("queue %u ", n);
        for (size_t i = 0; i < c->length; i++)
            printf("%02x", c->queue[i]);
        printf("%s\nstate %u %d %d %d %d\n", c->length ? "" : "-", n, c->state.mode, c->state.meta,
               vt_key_lights(&c->state), c->state.flags + 16 * c->state.defaults);
        vt_screen_free(&c->screen);
    }
    printf("front %u\n", front);
}

int main(int count, char **words)
{
    static char line[LINE];
    static uint8_t text[1 << 20];
    struct vt_fault fault;
    FILE *file = count == 2 ? fopen(words[1], "rb") : NULL;
    if (count != 2)
        return 1;
    if (!file)
        return 4;
    size_t length = fread(text, 1, sizeof text, file);
    fclose(file);
    WANT(vt_keys_new(&keyboard, text, length, NULL, 0, &fault) == VT_OK);
    while (keyboard.at && fgets(line, LINE, stdin)) {
        uint8_t scan;
        if (line[0] == 'c')
            make(line + 2);
        for (const char *at = line + 2; line[0] == 'k' && sscanf(at, "%2hhx", &scan) == 1; at += 3)
            type(scan);
    }
    print_all();
    vt_keys_free(&keyboard);
    return failed > 0;
}
