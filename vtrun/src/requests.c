/* The requests of ioctl_console(2): each is a call of the machine, a constant, or an error. docs/reference/vtrun.md has
 * them in a table. Those of the keyboard's tables are in keyboard.c. */
#include "vtrun.h"
#include <linux/kd.h>
#include <linux/tiocl.h>
#include <linux/vt.h>
#include <string.h>
#include <sys/ioctl.h>

enum { MOST_NUMBER = 65535, PALETTE = 48, MAP = 512, BYTE_MAP = 256, FONT = 0xf000, MOST_LINES = 32 };

/* Reads what a request points to. It is read once; an id that is no longer valid means that it was another process. */
int fetch(const struct asked *it, void *to, size_t n)
{
    if (read_memory(it->pid, it->argument, to, n) != (ssize_t)n)
        return EFAULT;
    return is_valid(it->id) ? 0 : ECANCELED;
}

int store(const struct asked *it, const void *from, size_t n)
{
    if (!is_valid(it->id))
        return ECANCELED;
    return write_memory(it->pid, it->argument, from, n) ? 0 : EFAULT;
}

/* A number of a request, as far as a call has room for it: what is greater is refused all the same. */
static uint16_t limited(uint64_t number)
{
    return number > MOST_NUMBER ? MOST_NUMBER : (uint16_t)number;
}

/* Requests whose call has the descriptor alone and answers with a number, of so many bytes. */
static const struct {
    uint32_t number;
    uint8_t size;
    const char *call;
} readers[] = {
    { KDGETMODE, 4, "getkd" }, { KDGKBMODE, 4, "getkb" },   { KDGKBMETA, 4, "getmeta" },
    { KDGETLED, 1, "getled" }, { KDGKBLED, 1, "getflags" },
};

/* Requests whose argument is the number of the call. */
static const struct {
    uint32_t number;
    const char *call;
} setters[] = {
    { KDSETMODE, "setkd" },   { KDSKBMODE, "setkb" },    { KDSKBMETA, "setmeta" },    { KDSETLED, "setled" },
    { KDSKBLED, "setflags" }, { VT_RELDISP, "reldisp" }, { VT_ACTIVATE, "activate" },
};

/* Requests with bytes of one length, both ways. */
static const struct {
    uint32_t number;
    uint16_t size;
    bool is_read;
    const char *call;
} blocks[] = {
    { GIO_CMAP, PALETTE, true, "getpal" },
    { PIO_CMAP, PALETTE, false, "setpal" },
    { GIO_UNISCRNMAP, MAP, true, "getmap" },
    { PIO_UNISCRNMAP, MAP, false, "setmap" },
};

/* What a console without a font, a speaker and ports answers. */
static const struct {
    uint32_t number;
    int error;
} constants[] = {
    { KDMKTONE, 0 },      { KIOCSOUND, 0 },     { KDADDIO, ENXIO },    { KDDELIO, ENXIO },
    { KDENABIO, ENXIO },  { KDDISABIO, ENXIO }, { KDMAPDISP, EINVAL }, { KDUNMAPDISP, EINVAL },
    { KDFONTOP, ENOSYS }, { PIO_UNIMAPCLR, 0 }, { PIO_UNIMAP, 0 },
};

static int read_block(const struct asked *it, unsigned i)
{
    int error = ACT(it->seat, blocks[i].call, it->descriptor);
    return error ? error : store(it, answer_bytes, blocks[i].size);
}

static int write_block(const struct asked *it, unsigned i)
{
    uint8_t bytes[MAP];
    int error = fetch(it, bytes, blocks[i].size);
    if (error)
        return error;
    return act(it->seat, blocks[i].call, &it->descriptor, 1, bytes, blocks[i].size);
}

static int serve_mode(const struct asked *it)
{
    struct vt_mode mode;
    int error;
    if (it->number == VT_GETMODE) {
        error = ACT(it->seat, "getmode", it->descriptor);
        mode = (struct vt_mode){ .mode = (char)reply.words[0],
                                 .waitv = (char)reply.words[1],
                                 .relsig = (short)reply.words[2],
                                 .acqsig = (short)reply.words[3],
                                 .frsig = (short)reply.words[4] };
        return error ? error : store(it, &mode, sizeof mode);
    }
    error = fetch(it, &mode, sizeof mode);
    return error ? error
                 : ACT(it->seat, "setmode", it->descriptor, (uint8_t)mode.mode, (uint8_t)mode.waitv,
                       (uint16_t)mode.relsig, (uint16_t)mode.acqsig, (uint16_t)mode.frsig);
}

static int serve_state(const struct asked *it)
{
    int error = ACT(it->seat, "getstate", it->descriptor);
    /* (bit 0 is always set, as on Linux, and there is room for consoles 1 to 15) */
    struct vt_stat state = { .v_active = (unsigned short)reply.number, .v_state = (unsigned short)(reply.mask | 1) };
    return error ? error : store(it, &state, sizeof state);
}

static int serve_query(const struct asked *it)
{
    close_unused();
    read_all_outputs();
    int error = ACT(it->seat, "openqry", it->descriptor);
    int n = reply.number ? (int)reply.number : -1;
    return error ? error : store(it, &n, sizeof n);
}

static int serve_disallocate(const struct asked *it)
{
    close_unused();
    read_all_outputs();
    return ACT(it->seat, "disallocate", it->descriptor, limited(it->argument));
}

static int serve_wait(const struct asked *it)
{
    if (seats[it->seat].is_raised) {
        /* A signal that was delivered long ago must not refuse the wait. */
        if (has_scripts)
            ACT(it->seat, "openqry", it->descriptor);
        else
            take_signals(it->seat);
    }
    int error = ACT(it->seat, "waitactive", it->descriptor, limited(it->argument));
    if (error || reply.kind != VT_REPLY_WAIT)
        return error;
    hold_wait(it);
    return HELD;
}

static int resize(const struct asked *it, unsigned rows, unsigned cols)
{
    int error = ACT(it->seat, "resize", it->descriptor, limited(rows), limited(cols));
    if (error)
        return error;
    set_size(it->console);
    tell_event(VT_EVENT_RESIZE, it->console, it->console);
    return 0;
}

static int serve_resize(const struct asked *it)
{
    struct vt_sizes size;
    struct vt_consize pixels;
    if (it->number == VT_RESIZE) {
        int error = fetch(it, &size, sizeof size);
        return error ? error : resize(it, size.v_rows, size.v_cols);
    }
    int error = fetch(it, &pixels, sizeof pixels);
    if (error)
        return error;
    unsigned rows = pixels.v_vlin && pixels.v_clin ? pixels.v_vlin / pixels.v_clin : pixels.v_rows;
    unsigned cols = pixels.v_vcol && pixels.v_ccol ? pixels.v_vcol / pixels.v_ccol : pixels.v_cols;
    if (pixels.v_clin > MOST_LINES || (pixels.v_rows && rows != pixels.v_rows) ||
        (pixels.v_cols && cols != pixels.v_cols))
        return EINVAL;
    return resize(it, rows, cols);
}

/* The map of bytes: a byte stands for the place of a font, which has no meaning here but comes back as it was set. */
static int serve_byte_map(const struct asked *it)
{
    uint8_t bytes[BYTE_MAP], words[MAP];
    int error;
    if (it->number == GIO_SCRNMAP) {
        error = ACT(it->seat, "getmap", it->descriptor);
        for (unsigned i = 0; !error && i < BYTE_MAP; i++)
            bytes[i] = answer_bytes[2 * i + 1] == FONT >> 8 ? answer_bytes[2 * i] : 0;
        return error ? error : store(it, bytes, sizeof bytes);
    }
    error = fetch(it, bytes, sizeof bytes);
    for (unsigned i = 0; !error && i < BYTE_MAP; i++) {
        words[2 * i] = bytes[i];
        words[2 * i + 1] = FONT >> 8;
    }
    return error ? error : act(it->seat, "setmap", &it->descriptor, 1, words, sizeof words);
}

/* A console without a font has an empty map of characters to places. */
static int serve_character_map(const struct asked *it)
{
    struct unimapdesc map;
    int error = fetch(it, &map, sizeof map);
    map.entry_ct = 0;
    return error ? error : store(it, &map, sizeof map.entry_ct);
}

static int serve_event(const struct asked *it)
{
    struct vt_event event;
    int error = fetch(it, &event, sizeof event);
    if (error)
        return error;
    hold_event(it, event.event);
    return HELD;
}

/* VT_SETACTIVATE: the mode of a console, and a request for it. */
static int serve_set_activate(const struct asked *it)
{
    struct vt_setactivate both;
    int error = fetch(it, &both, sizeof both);
    if (error)
        return error;
    if (both.console == 0 || both.console >= CONSOLES)
        return ENXIO;
    int fd = descriptor_on(it->seat, both.console);
    error = fd < 0 ? -fd
                   : ACT(it->seat, "setmode", (uint16_t)fd, (uint8_t)both.mode.mode, (uint8_t)both.mode.waitv,
                         (uint16_t)both.mode.relsig, (uint16_t)both.mode.acqsig, (uint16_t)both.mode.frsig);
    return error ? error : ACT(it->seat, "activate", it->descriptor, (uint16_t)both.console);
}

/* TIOCLINUX: what a console without selection, blanking and kernel messages answers. */
static int serve_linux(struct asked *it)
{
    uint8_t what, byte = 0;
    int error = fetch(it, &what, 1);
    if (error)
        return error;
    switch (what) {
    case TIOCL_GETSHIFTSTATE:
    case TIOCL_GETMOUSEREPORTING:
    case TIOCL_GETKMSGREDIRECT: return store(it, &byte, 1);
    case TIOCL_GETFGCONSOLE: it->value = front - 1; return 0;
    case TIOCL_UNBLANKSCREEN:
    case TIOCL_SETVESABLANK:
    case TIOCL_SETKMSGREDIRECT:
    case TIOCL_SCROLLCONSOLE:
    case TIOCL_BLANKSCREEN:
    case TIOCL_BLANKEDSCREEN: return 0;
    }
    return EINVAL;
}

/* A request whose answer is one constant. */
static int serve_constant(const struct asked *it)
{
    static const uint8_t type = KB_101;
    static const uint16_t no_mask = 0;
    static const struct kbd_repeat rate = { 250, 33 };
    switch (it->number) {
    case KDGKBTYPE: return store(it, &type, sizeof type);
    case VT_GETHIFONTMASK: return store(it, &no_mask, sizeof no_mask);
    case KDKBDREP: return store(it, &rate, sizeof rate);
    }
    for (unsigned i = 0; i < sizeof constants / sizeof *constants; i++)
        if (it->number == constants[i].number)
            return constants[i].error;
    return ENOTTY;
}

static int serve_row(const struct asked *it, bool *is_known)
{
    *is_known = true;
    for (unsigned i = 0; i < sizeof readers / sizeof *readers; i++)
        if (it->number == readers[i].number) {
            int error = ACT(it->seat, readers[i].call, it->descriptor);
            uint32_t number = reply.number;
            return error ? error : store(it, &number, readers[i].size);
        }
    for (unsigned i = 0; i < sizeof setters / sizeof *setters; i++)
        if (it->number == setters[i].number)
            return ACT(it->seat, setters[i].call, it->descriptor, limited(it->argument));
    for (unsigned i = 0; i < sizeof blocks / sizeof *blocks; i++)
        if (it->number == blocks[i].number)
            return blocks[i].is_read ? read_block(it, i) : write_block(it, i);
    *is_known = false;
    return 0;
}

/* Makes the call of a request. The errno of its answer, 0, or HELD. */
int serve_request(struct asked *it)
{
    bool is_known;
    int error = serve_row(it, &is_known);
    if (!is_known)
        error = serve_keyboard(it, &is_known);
    if (is_known)
        return error;
    switch (it->number) {
    case VT_GETMODE:
    case VT_SETMODE: return serve_mode(it);
    case VT_GETSTATE: return serve_state(it);
    case VT_OPENQRY: return serve_query(it);
    case VT_DISALLOCATE: return serve_disallocate(it);
    case VT_WAITACTIVE: return serve_wait(it);
    case VT_RESIZE:
    case VT_RESIZEX: return serve_resize(it);
    case VT_LOCKSWITCH: return ACT(it->seat, "lock", it->descriptor);
    case VT_UNLOCKSWITCH: return ACT(it->seat, "unlock", it->descriptor);
    case VT_SETACTIVATE: return serve_set_activate(it);
    case VT_WAITEVENT: return serve_event(it);
    case GIO_SCRNMAP:
    case PIO_SCRNMAP: return serve_byte_map(it);
    case GIO_UNIMAP: return serve_character_map(it);
    case TIOCLINUX: return serve_linux(it);
    }
    return serve_constant(it);
}
