/* What both C programs share: the words `screen R C`, the input in pieces, and a row's cells as UTF-8. */
#include <stdint.h>
#include <stdio.h>
#include <stdlib.h>
#include <string.h>
#include <unistd.h>

enum { PIECE = 65536 };

static int rows, cols;
static char buffer[PIECE];

static void read_words(int count, char **words)
{
    if (count != 4 || strcmp(words[1], "screen") || (rows = atoi(words[2])) < 1 || (cols = atoi(words[3])) < 1)
        exit(1);
}

static size_t next_piece(void)
{
    ssize_t count = read(0, buffer, PIECE);
    if (count < 0)
        exit(2);
    return (size_t)count;
}

/* A cell without a character is a blank. */
static void print_code(uint32_t code)
{
    char text[4];
    int count = 0;
    if (code == 0)
        code = ' ';
    if (code < 0x80) {
        text[count++] = (char)code;
    } else {
        int more = code < 0x800 ? 1 : code < 0x10000 ? 2 : 3;
        text[count++] = (char)(0xFF00 >> (more + 1) | code >> 6 * more);
        while (more-- > 0)
            text[count++] = (char)(0x80 | (code >> 6 * more & 0x3F));
    }
    fwrite(text, 1, (size_t)count, stdout);
}
