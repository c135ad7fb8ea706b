/* The rows of libtsm's screen, drawn by its state machine. */
#include "screen.h"
#include <libtsm.h>

static uint32_t *cells;
static const uint32_t SECOND = UINT32_MAX;

static void send(struct tsm_vte *machine, const char *text, size_t length, void *data)
{
    (void)machine, (void)text, (void)length, (void)data;
}

static int keep(struct tsm_screen *screen, uint64_t id, const uint32_t *codes, size_t length, unsigned int width,
                unsigned int x, unsigned int y, const struct tsm_screen_attr *attributes, tsm_age_t age, void *data)
{
    (void)screen, (void)id, (void)attributes, (void)age, (void)data;
    cells[y * (unsigned int)cols + x] = width == 0 ? SECOND : length > 0 ? codes[0] : 0;
    return 0;
}

int main(int count, char **words)
{
    struct tsm_screen *screen;
    struct tsm_vte *machine;
    read_words(count, words);
    cells = calloc((size_t)rows * (size_t)cols, sizeof *cells);
    if (!cells || tsm_screen_new(&screen, NULL, NULL) ||
        tsm_screen_resize(screen, (unsigned int)cols, (unsigned int)rows) ||
        tsm_vte_new(&machine, screen, send, NULL, NULL, NULL))
        return 4;
    tsm_screen_set_max_sb(screen, 0);
    for (size_t length; (length = next_piece()) > 0;)
        tsm_vte_input(machine, buffer, length);
    tsm_screen_draw(screen, keep, NULL);
    for (int y = 0; y < rows; y++) {
        putchar('|');
        for (int x = 0; x < cols; x++)
            if (cells[y * cols + x] != SECOND)
                print_code(cells[y * cols + x]);
        puts("|");
    }
    return 0;
}
