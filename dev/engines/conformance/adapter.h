/* What the adapters in C share: lines of JSON in and out, as docs/guide/write-a-terminal.md describes them. Each adapter
 * defines `answer`, which is called for every line, and writes the line's answer. */
#include <stdint.h>
#include <stdio.h>
#include <stdlib.h>
#include <string.h>

/* Reports of one case, and how often it rang. */
static char reports[65536];
static size_t reported;
static int bells;

static void keep_report(const char *bytes, size_t length)
{
    if (length > sizeof reports - reported)
        length = sizeof reports - reported;
    memcpy(reports + reported, bytes, length);
    reported += length;
}

/* The number after `"name": `. The lines are those of one writer, so that no other JSON has to be read. */
static int number_of(const char *line, const char *name)
{
    const char *found = strstr(line, name);
    return found ? atoi(found + strlen(name)) : -1;
}

/* A string's next byte, or -1 at its end: each character is below U+0100, and stands for one byte. */
static int next_byte(const char **at)
{
    const char *from = *at;
    if (*from == '"' || *from == 0)
        return -1;
    if (*from != '\\') {
        *at = from + 1;
        return (unsigned char)*from;
    }
    static const char names[] = "bfnrt", bytes[] = "\b\f\n\r\t";
    if (from[1] == 'u') {
        char digits[5] = { from[2], from[3], from[4], from[5], 0 };
        *at = from + 6;
        return (int)strtol(digits, NULL, 16);
    }
    *at = from + 2;
    const char *found = strchr(names, from[1]);
    return found ? bytes[found - names] : from[1];
}

/* Calls `write` with the pieces one after another. */
static void write_pieces(const char *line, void (*write)(const char *bytes, size_t length))
{
    const char *at = strstr(line, "\"pieces\": [");
    if (!at)
        exit(1);
    at += strlen("\"pieces\": [");
    while (*at && *at != ']') {
        static char piece[1 << 20];
        size_t length = 0;
        if (*at++ != '"')
            continue;
        for (int byte; length < sizeof piece && (byte = next_byte(&at)) >= 0;)
            piece[length++] = (char)byte;
        at++;
        write(piece, length);
    }
}

/* A code point of a JSON string, as escapes of UTF-16. */
static void print_code(uint32_t code)
{
    if (code >= ' ' && code < 127 && code != '"' && code != '\\')
        putchar((int)code);
    else if (code < 0x10000)
        printf("\\u%04x", code);
    else
        printf("\\u%04x\\u%04x", 0xD7C0 + (code >> 10), 0xDC00 + (code & 0x3FF));
}

static void print_reports_and_bells(void)
{
    printf(", \"reports\": \"");
    for (size_t n = 0; n < reported; n++)
        print_code((unsigned char)reports[n]);
    printf("\", \"bells\": %d", bells);
}

static void answer(const char *line, int rows, int columns);

int main(void)
{
    char *line = NULL;
    size_t size = 0;
    while (getline(&line, &size, stdin) > 0) {
        int rows = number_of(line, "\"rows\": "), columns = number_of(line, "\"columns\": ");
        if (rows < 1 || columns < 1)
            exit(1);
        reported = 0, bells = 0;
        printf("{\"case\": %d, ", number_of(line, "\"case\": "));
        answer(line, rows, columns);
        printf("}\n");
        fflush(stdout);
    }
    free(line);
    return 0;
}
