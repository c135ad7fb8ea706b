/* Draws standard input in pieces and prints the rows as `vt screen` does; what the input asks for goes to a file.
 *
 * usage: cuts ROWS COLUMNS PIECE ROOM FILE
 *
 * Each feed has PIECE bytes of the input at most, 0 for all of them, and room for ROOM outs. With room 0
 * vt_screen_write draws, and FILE is empty. A line of FILE is the kind, the number and the text in hexadecimal
 * digits. */
#include "want.h"

static uint8_t *input;
static size_t length;

static void read_input(void)
{
    size_t room = 0;
    for (size_t count = 1; count > 0; length += count) {
        if (room - length < 65536)
            input = realloc(input, room = 2 * room + 65536);
        if (!input)
            exit(4);
        count = fread(input + length, 1, room - length, stdin);
    }
}

static void print_out(FILE *file, const struct vt_out *out)
{
    fprintf(file, "%d %d ", out->kind, out->number);
    for (int i = 0; i < out->length; i++)
        fprintf(file, "%02x", out->text[i]);
    fprintf(file, "\n");
}

/* Feeds one piece until all of it is drawn. Places that a call didn't write, and those behind the room, stay. */
static void feed(struct vt_screen *s, const uint8_t *piece, size_t n, struct vt_out *outs, size_t room, FILE *file)
{
    static const struct vt_out mark = { .kind = 77, .number = 88, .length = 3, .text = "..." };
    for (size_t at = 0; at < n;) {
        struct vt_fed fed = { 0, 0, 0, { 0 } };
        for (size_t i = 0; i <= room; i++)
            outs[i] = mark;
        uint8_t *exact = malloc(n - at); /* so that a read past its end is seen */
        if (!exact)
            exit(4);
        memcpy(exact, piece + at, n - at);
        WANT(vt_screen_feed(s, exact, n - at, outs, room, &fed) == VT_OK);
        free(exact);
        WANT(fed.taken <= n - at && fed.outs <= room);
        WANT(fed.taken > 0);
        WANT(fed.taken == n - at || fed.outs == room);
        for (size_t i = 0; i < fed.outs; i++)
            print_out(file, &outs[i]);
        for (size_t i = fed.outs; i <= room; i++)
            WANT(memcmp(&outs[i], &mark, sizeof mark) == 0);
        at += fed.taken;
        if (failed > 0)
            exit(ended());
    }
}

int main(int count, char **words)
{
    if (count != 6)
        return 1;
    uint32_t rows = (uint32_t)atoi(words[1]), cols = (uint32_t)atoi(words[2]);
    size_t piece = (size_t)atol(words[3]), room = (size_t)atol(words[4]);
    FILE *file = fopen(words[5], "w");
    struct vt_out *outs = calloc(room + 1, sizeof *outs);
    struct vt_screen s = { 0 };
    read_input();
    if (!file || !outs || vt_screen_new(&s, rows, cols) != VT_OK)
        return 4;
    for (size_t at = 0, n; at < length; at += n) {
        n = piece == 0 || length - at < piece ? length - at : piece;
        if (room == 0)
            WANT(vt_screen_write(&s, input + at, n) == VT_OK);
        else
            feed(&s, input + at, n, outs, room, file);
    }
    for (uint32_t y = 0; y < rows; y++) {
        uint8_t text[4 * 255];
        size_t text_length = 0;
        WANT(vt_screen_row_text(&s, y, text, sizeof text, &text_length) == VT_OK);
        printf("|%.*s|\n", (int)text_length, (char *)text);
    }
    vt_screen_free(&s);
    free(outs);
    free(input);
    return fclose(file) || failed > 0;
}
