/* Handles that go from thread to thread: made on one, used on seven others behind a lock, freed on the main one.
 * Other handles are used at the same time, one on each thread. For valgrind's helgrind, which must find nothing. */
#include "want.h"
#include <pthread.h>

enum { THREADS = 7, TURNS = 40 };

static pthread_mutex_t lock = PTHREAD_MUTEX_INITIALIZER;
static struct vt_screen screen;
static struct vt_keys keys;
static const uint8_t KEYMAP[] = "keycode 30 = a\n", LINE[] = "a\r\n\033[6n";

static void *make(void *unused)
{
    struct vt_fault fault;
    (void)unused;
    WANT(vt_screen_new(&screen, 3, 9) == VT_OK);
    WANT(vt_keys_new(&keys, KEYMAP, sizeof KEYMAP - 1, NULL, 0, &fault) == VT_OK);
    return NULL;
}

static void *use(void *unused)
{
    static const struct vt_modes modes = VT_MODES_START;
    struct vt_key_state state = VT_KEY_STATE_START;
    struct vt_screen own = { 0 };
    (void)unused;
    bool is_fine = vt_screen_new(&own, 4, 4) == VT_OK;
    for (int i = 0; i < TURNS; i++) {
        struct vt_out outs[4];
        struct vt_fed fed;
        struct vt_key key;
        is_fine = is_fine && vt_screen_write(&own, LINE, sizeof LINE - 1) == VT_OK;
        pthread_mutex_lock(&lock);
        WANT(is_fine);
        WANT(vt_screen_feed(&screen, LINE, sizeof LINE - 1, outs, 4, &fed) == VT_OK && fed.outs == 1);
        WANT(vt_keys_scan(&keys, 30, &modes, &state, &key) == VT_OK && key.length == 1 && key.bytes[0] == 'a');
        pthread_mutex_unlock(&lock);
    }
    vt_screen_free(&own);
    return NULL;
}

int main(void)
{
    pthread_t maker, users[THREADS];
    struct vt_cell cell;
    if (pthread_create(&maker, NULL, make, NULL) || pthread_join(maker, NULL))
        return 2;
    for (int i = 0; i < THREADS; i++)
        if (pthread_create(&users[i], NULL, use, NULL))
            return 2;
    for (int i = 0; i < THREADS; i++)
        pthread_join(users[i], NULL);
    WANT(vt_screen_cell(&screen, 0, 0, &cell) == VT_OK && cell.code == 'a');
    vt_screen_free(&screen);
    vt_keys_free(&keys);
    return ended();
}
