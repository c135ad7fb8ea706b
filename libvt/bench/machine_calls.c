/* Makes the calls of a journal on a machine, and prints how many there are and how many seconds they took.
 *
 * usage: machine_calls ROWS COLS CONSOLES FRONT KEYBOARDS EVENTS KEYMAP [HOME,PRIVILEGED ..] < JOURNAL
 *
 * The words are those of libvt/tests/machine_session.c. The calls are read before the first one is made. Status 1: other
 * words; 4: memory ran out; 5: a call isn't made. */
#include "../tests/session_calls.h"
#include <time.h>

static double now(void)
{
    struct timespec at;
    clock_gettime(CLOCK_PROCESS_CPUTIME_ID, &at);
    return (double)at.tv_sec + (double)at.tv_nsec / 1e9;
}

int main(int count, char **words)
{
    struct session_call *calls = NULL;
    size_t made = 0, room = 0;
    make_machine(words + 1, (size_t)(count - 1));
    for (bool is_read = true; is_read; made += is_read) {
        if (made == room)
            calls = realloc(calls, (room = 2 * room + 1000) * sizeof *calls);
        if (!calls)
            return 4;
        is_read = read_call(&calls[made]);
    }
    double start = now();
    for (size_t i = 0; i < made; i++)
        make_call(&calls[i]);
    printf("%zu calls, %.6f seconds\n", made, now() - start);
    vt_machine_free(&m);
    return 0;
}
