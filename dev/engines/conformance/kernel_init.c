/* The first and only process of a virtual machine, whose console it writes cases to: dev/engines/conformance/kernel.py
   starts
 * it and describes the lines. Bytes are spelled in hexadecimal, "-" stands for none. */
#include <errno.h>
#include <fcntl.h>
#include <linux/kd.h>
#include <linux/vt.h>
#include <poll.h>
#include <stdint.h>
#include <stdio.h>
#include <stdlib.h>
#include <string.h>
#include <sys/ioctl.h>
#include <sys/mount.h>
#include <sys/stat.h>
#include <sys/utsname.h>
#include <termios.h>
#include <unistd.h>

enum { NUMBER = 8, MOST = 1 << 20, GLYPHS = 1024, WAIT = 40, TRIES = 40, PAUSE = 50000 };

static FILE *line_in, *line_out;
static struct unipair pairs[GLYPHS];
static unsigned short paired;

/* The answer to a case that the console refuses. */
static int refuse(const char *call)
{
    fprintf(line_out, "refuses %s: %s\n", call, strerror(errno));
    return -1;
}

static void print_hex(const unsigned char *bytes, ssize_t length)
{
    for (ssize_t n = 0; n < length; n++)
        fprintf(line_out, "%02x", bytes[n]);
    if (length < 1)
        putc('-', line_out);
}

static size_t bytes_of(const char *word, unsigned char *bytes)
{
    size_t length = 0;
    for (unsigned byte; word[0] != '-' && sscanf(word + 2 * length, "%2x", &byte) == 1; length++)
        bytes[length] = (unsigned char)byte;
    return length;
}

/* All bytes of a file from its beginning, or -1. */
static ssize_t read_whole(const char *path, unsigned char *bytes)
{
    int file = open(path, O_RDONLY);
    if (file < 0)
        return -1;
    ssize_t length = 0, more;
    while ((more = read(file, bytes + length, (size_t)(MOST - length))) > 0)
        length += more;
    int why = errno;
    close(file);
    errno = why;
    return more < 0 ? -1 : length;
}

/* The raw mode of a terminal: nothing is changed on the way to its driver. */
static void set_raw(int terminal)
{
    struct termios mode;
    tcgetattr(terminal, &mode);
    cfmakeraw(&mode);
    tcsetattr(terminal, TCSANOW, &mode);
}

/* Frees the console, so that the next open makes a new one. It is in use for a moment after its last close. */
static void free_console(int front)
{
    for (int n = 0; n < TRIES && ioctl(front, VT_DISALLOCATE, NUMBER); n++)
        usleep(PAUSE);
}

/* Gives the console its size and the map of the font, and has it keep characters besides glyphs. */
static int prepare(int console, const char *rows, const char *columns, unsigned char *shown)
{
    struct winsize size = { .ws_row = (unsigned short)atoi(rows), .ws_col = (unsigned short)atoi(columns) };
    struct unimapinit init = { 0 };
    struct unimapdesc map = { .entry_ct = paired, .entries = pairs };
    set_raw(console);
    if (ioctl(console, TIOCSWINSZ, &size))
        return refuse("TIOCSWINSZ");
    if (paired && (ioctl(console, PIO_UNIMAPCLR, &init) || ioctl(console, PIO_UNIMAP, &map)))
        return refuse("PIO_UNIMAP");
    return read_whole("/dev/vcsu8", shown) < 0 ? refuse("/dev/vcsu8") : 0;
}

static int write_pieces(int console, unsigned char *bytes)
{
    for (const char *word; (word = strtok(NULL, " ")) != NULL;) {
        size_t length = bytes_of(word, bytes);
        for (size_t at = 0; at < length;) {
            ssize_t taken = write(console, bytes + at, length - at);
            if (taken < 0)
                return refuse("write");
            at += (size_t)taken;
        }
    }
    return 0;
}

/* Prints the reports, which come some moments after the write. */
static void print_reports(int console, unsigned char *bytes)
{
    struct pollfd asked = { .fd = console, .events = POLLIN };
    ssize_t length = 0, more;
    while (poll(&asked, 1, WAIT) > 0 && (more = read(console, bytes + length, (size_t)(MOST - length))) > 0)
        length += more;
    print_hex(bytes, length);
}

/* Prints what a case left: its glyphs and attributes, its characters, its reports. The characters are readable in UTF-8
 * text alone, so ESC % G comes before them: it changes no cell. */
static int print_screen(int console, unsigned char *bytes)
{
    ssize_t length = read_whole("/dev/vcsa8", bytes);
    if (length < 0)
        return refuse("/dev/vcsa8");
    print_hex(bytes, length);
    putc(' ', line_out);
    if (write(console, "\033%G", 3) != 3 || (length = read_whole("/dev/vcsu8", bytes)) < 0)
        return refuse("/dev/vcsu8");
    print_hex(bytes, length);
    putc(' ', line_out);
    print_reports(console, bytes);
    putc('\n', line_out);
    return 0;
}

static void play_case(int front)
{
    static unsigned char bytes[MOST];
    const char *rows = strtok(NULL, " "), *columns = strtok(NULL, " ");
    int console = rows && columns ? open("/dev/tty8", O_RDWR | O_NOCTTY | O_NONBLOCK) : -1;
    if (console < 0) {
        refuse("/dev/tty8");
        return;
    }
    if (!prepare(console, rows, columns, bytes) && !write_pieces(console, bytes))
        print_screen(console, bytes);
    close(console);
    free_console(front);
}

static void take_map(void)
{
    const char *code, *glyph;
    for (paired = 0; paired < GLYPHS && (code = strtok(NULL, " ")) && (glyph = strtok(NULL, " ")); paired++) {
        pairs[paired].unicode = (unsigned short)strtoul(code, NULL, 16);
        pairs[paired].fontpos = (unsigned short)strtoul(glyph, NULL, 16);
    }
    fprintf(line_out, "map %u\n", paired);
}

int main(void)
{
    struct utsname kernel;
    char *line = NULL;
    size_t size = 0;
    mkdir("/dev", 0755);
    mount("devtmpfs", "/dev", "devtmpfs", 0, NULL);
    int serial = open("/dev/ttyS0", O_RDWR | O_NOCTTY), front = open("/dev/tty0", O_WRONLY | O_NOCTTY);
    set_raw(serial);
    line_in = fdopen(serial, "r");
    line_out = fdopen(dup(serial), "w");
    uname(&kernel);
    fprintf(line_out, "kernel %s %s\n", kernel.release, kernel.version);
    fflush(line_out);
    while (getline(&line, &size, line_in) > 0) {
        line[strcspn(line, "\n")] = 0;
        const char *word = strtok(line, " ");
        if (word && !strcmp(word, "map"))
            take_map();
        else if (word && !strcmp(word, "case"))
            play_case(front);
        else
            fprintf(line_out, "refuses the word\n");
        fflush(line_out);
    }
    return 0;
}
