/* Types scan bytes on a keymap, and prints for each what it sends or asks for, as `vt type` does.
 *
 *     cc -o keys keys.c $(pkg-config --cflags --libs vt)
 *     echo '2a 1e aa 9e' | ./keys 3 german.map pc.inc=pc.inc     # of examples/keymaps
 *
 * The words are the keyboard mode, 0 K_RAW to 4 K_OFF, the keymap's file, and a NAME=FILE for each text that the
 * keymap may include. Standard input has the scan bytes, two hexadecimal digits each.
 *
 * Status 1: other words; 2: a file can't be read; 3: a write failed; 4: memory ran out; 5: the keymap has a fault,
 * which is printed with its line and column, or the input isn't scan bytes. */
#include <ctype.h>
#include <stdio.h>
#include <stdlib.h>
#include <string.h>
#include <vt.h>

/* Bytes, which grow. */
struct bytes {
    uint8_t *at;
    size_t length;
};

static void fail(int status, const char *line, const char *what)
{
    fprintf(stderr, "keys: %s%s%s\n", line, what ? ": " : "", what ? what : "");
    exit(status);
}

static void append(struct bytes *to, const void *from, size_t length)
{
    uint8_t *at = realloc(to->at, to->length + length + 1);
    if (!at)
        fail(4, "no memory", NULL);
    memcpy(at + to->length, from, length);
    to->at = at;
    to->length += length;
}

/* What a file has. */
static struct bytes file_bytes(const char *name)
{
    struct bytes found = { NULL, 0 };
    char piece[4096];
    size_t length;
    FILE *file = fopen(name, "rb");
    if (!file)
        fail(2, "can't be read", name);
    do {
        length = fread(piece, 1, sizeof piece, file);
        append(&found, piece, length);
    } while (length > 0);
    if (ferror(file))
        fail(2, "can't be read", name);
    fclose(file);
    return found;
}

/* The next scan byte of the input, or -1 at its end. */
static int next_scan(void)
{
    int first, second;
    do
        first = getchar();
    while (isspace(first));
    if (first == EOF && ferror(stdin))
        fail(2, "can't be read", "standard input");
    if (first == EOF)
        return -1;
    second = getchar();
    if (!isxdigit(first) || !isxdigit(second))
        fail(5, "the input isn't scan bytes, two hexadecimal digits each", NULL);
    char digits[3] = { (char)first, (char)second, 0 };
    return (int)strtol(digits, NULL, 16);
}

static void print(int scan, const struct vt_key *key)
{
    static const char *const requests[] = { "-", NULL, NULL, "last", "next", "prev", "spawn", "attention" };
    printf("%02x ", (unsigned)scan);
    if (key->kind == VT_KEY_BYTES) {
        printf("bytes ");
        for (unsigned i = 0; i < key->length; i++)
            printf("%02x", key->bytes[i]);
        printf("\n");
    } else if (key->kind == VT_KEY_SWITCH) {
        printf("switch %u\n", key->number);
    } else {
        printf("%s\n", requests[key->kind]);
    }
}

int main(int count, char **words)
{
    if (count < 3 || strlen(words[1]) != 1 || words[1][0] < '0' || words[1][0] > '4')
        fail(1, "usage: keys MODE KEYMAP [NAME=FILE ..], with a mode from 0 to 4", NULL);
    struct vt_key_state state = VT_KEY_STATE_START;
    state.mode = (uint8_t)(words[1][0] - '0');
    struct bytes text = file_bytes(words[2]);
    struct vt_text *texts = calloc((size_t)count, sizeof *texts);
    if (!texts)
        fail(4, "no memory", NULL);
    size_t found = 0;
    for (int i = 3; i < count; i++) {
        const char *sign = strchr(words[i], '=');
        if (!sign)
            fail(1, "no NAME=FILE", words[i]);
        struct bytes included = file_bytes(sign + 1);
        texts[found++] = (struct vt_text){ (const uint8_t *)words[i], (size_t)(sign - words[i]), included.at,
                                           included.length };
    }

    struct vt_keys keys = { 0 };
    struct vt_fault fault;
    char place[80];
    switch (vt_keys_new(&keys, text.at, text.length, texts, found, &fault)) {
    case VT_OK: break;
    case VT_FAULT:
        snprintf(place, sizeof place, "%u at %u:%u", fault.kind, fault.line, fault.column);
        fail(5, "the keymap has fault", place);
        break;
    default: fail(4, "no memory", NULL);
    }
    const struct vt_modes modes = VT_MODES_START;
    struct vt_key key;
    for (int scan; (scan = next_scan()) >= 0;)
        if (vt_keys_scan(&keys, (uint8_t)scan, &modes, &state, &key) == VT_OK)
            print(scan, &key);
    vt_keys_free(&keys);
    free(text.at);
    while (found > 0)
        free((void *)texts[--found].text);
    free(texts);
    if (fflush(stdout) != 0)
        fail(3, "write failed", NULL);
    return 0;
}
