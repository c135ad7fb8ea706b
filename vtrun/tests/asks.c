/* Makes every request of ioctl_console(2), and those that Linux has besides, on the console of standard input, and
 * prints how each was answered.
 *
 * usage: asks < /dev/ttyN
 *
 * A request that sets something sets what it just read. Fonts and maps are asked for with room enough. */
#include <errno.h>
#include <linux/kd.h>
#include <linux/keyboard.h>
#include <linux/tiocl.h>
#include <linux/vt.h>
#include <stdio.h>
#include <string.h>
#include <sys/ioctl.h>
#include <unistd.h>

static unsigned char room[70000], entries[70000];

static void ask(const char *name, unsigned long request, void *argument)
{
    errno = 0;
    int result = ioctl(STDIN_FILENO, request, argument);
    printf("%s %s\n", name, result < 0 ? strerror(errno) : "ok");
}
#define ASK(request, argument) ask(#request, request, argument)

static void ask_keyboard(void)
{
    struct kbentry entry = { 0, 30, 0 };
    struct kbsentry string = { .kb_func = 1 };
    static struct kbdiacrs pairs;
    static struct kbdiacrsuc wide;
    struct kbkeycode code = { 30, 0 };
    struct kbd_repeat rate = { -1, -1 };
    ASK(KDGETLED, room);
    ASK(KDSETLED, (void *)0xff);
    ASK(KDGKBLED, room);
    ASK(KDSKBLED, (void *)0);
    ASK(KDGKBTYPE, room);
    ASK(KDGKBMODE, room);
    ASK(KDSKBMODE, (void *)K_UNICODE);
    ASK(KDGKBMETA, room);
    ASK(KDSKBMETA, (void *)K_ESCPREFIX);
    ASK(KDGKBENT, &entry);
    ASK(KDSKBENT, &entry);
    ASK(KDGKBSENT, &string);
    ASK(KDSKBSENT, &string);
    ASK(KDGKBDIACR, &pairs);
    ASK(KDSKBDIACR, &pairs);
    ASK(KDGKBDIACRUC, &wide);
    ASK(KDSKBDIACRUC, &wide);
    ASK(KDGETKEYCODE, &code);
    ASK(KDSETKEYCODE, &code);
    ASK(KDSIGACCEPT, (void *)10);
    ASK(KDKBDREP, &rate);
}

static void ask_fonts(void)
{
    struct console_font_op font = { .op = KD_FONT_OP_GET, .charcount = 512, .width = 32, .height = 32, .data = room };
    struct unimapdesc map = { .entry_ct = 1000, .entries = (struct unipair *)(void *)entries };
    struct unimapinit hint = { 0, 0, 0 };
    ASK(KDFONTOP, &font);
    ASK(GIO_FONT, room);
    ASK(GIO_FONTX, room);
    ASK(PIO_FONT, room);
    ASK(PIO_FONTX, room);
    ASK(PIO_FONTRESET, 0);
    ASK(GIO_UNISCRNMAP, room);
    ASK(PIO_UNISCRNMAP, room);
    ASK(GIO_SCRNMAP, room);
    ASK(PIO_SCRNMAP, room);
    ASK(GIO_UNIMAP, &map);
    ASK(PIO_UNIMAPCLR, &hint);
    ASK(PIO_UNIMAP, &map);
    ASK(GIO_CMAP, room);
    ASK(PIO_CMAP, room);
}

static void ask_switches(int front)
{
    struct vt_mode mode;
    struct vt_stat state;
    struct vt_sizes size = { 25, 80, 0 };
    struct vt_consize pixels = { 25, 80, 0, 0, 0, 0 };
    struct vt_setactivate both = { .console = (unsigned)front };
    ASK(VT_OPENQRY, room);
    ASK(VT_GETMODE, &mode);
    ASK(VT_SETMODE, &mode);
    ASK(VT_GETSTATE, &state);
    ASK(VT_SENDSIG, 0);
    ASK(VT_RELDISP, (void *)VT_ACKACQ);
    ASK(VT_ACTIVATE, (void *)(long)front);
    ASK(VT_WAITACTIVE, (void *)(long)front);
    ASK(VT_DISALLOCATE, (void *)60);
    ASK(VT_RESIZE, &size);
    ASK(VT_RESIZEX, &pixels);
    ASK(VT_LOCKSWITCH, 0);
    ASK(VT_UNLOCKSWITCH, 0);
    ASK(VT_GETHIFONTMASK, room);
    ASK(VT_SETACTIVATE, &both);
}

static void ask_rest(void)
{
    ASK(KDADDIO, (void *)0x3b4);
    ASK(KDDELIO, (void *)0x3b4);
    ASK(KDENABIO, 0);
    ASK(KDDISABIO, 0);
    ASK(KDMAPDISP, 0);
    ASK(KDUNMAPDISP, 0);
    ASK(KDSETMODE, (void *)KD_TEXT);
    ASK(KDGETMODE, room);
    ASK(KDMKTONE, 0);
    ASK(KIOCSOUND, 0);
    for (int i = 4; i <= 17; i++) {
        static const unsigned char wanted[] = { 4, 6, 7, 12, 15, 17 };
        char name[32];
        if (!memchr(wanted, i, sizeof wanted))
            continue;
        room[0] = (unsigned char)i;
        snprintf(name, sizeof name, "TIOCLINUX(%d)", i);
        ask(name, TIOCLINUX, room);
    }
    ask("0x4bff", 0x4bff, 0);
    ask("0x56ff", 0x56ff, 0);
}

int main(void)
{
    struct vt_stat state = { 0, 0, 0 };
    ASK(VT_GETSTATE, &state);
    ask_keyboard();
    ask_fonts();
    ask_switches(state.v_active);
    ask_rest();
    return 0;
}
