/* vt.h: the screen, the keyboard and the machine of the Linux text console, as a C library. C99, C11, C++11 and later.
 *
 * vt(3) and docs/library/c.md describe the calls with examples. These rules hold for every call.
 *
 * Handles
 * - A handle is a struct of one pointer: `struct vt_screen` for a screen, `struct vt_keys` for a keyboard, `struct
 *   vt_machine` for a machine. Set it to {0} before its first use; after that only the calls of this header change it.
 *   `new` on a handle with other contents is undefined.
 * - A handle may be moved: copy its bytes to another place, and don't use the old place again.
 * - `free` makes a handle {0} again. `free` on {0} does nothing. Every other call on {0} returns VT_NOTHING.
 *
 * Threads
 * - A call that takes a `const` handle only reads: it writes nothing of the handle, nor of what the handle has. Any
 *   number of such calls may use one handle at the same time, in any threads.
 * - A call that takes a handle without `const` must be the only call that uses this handle at that time.
 * - Different handles are independent. A handle may go to another thread: a lock, the start of a thread or its join
 *   must be between the calls.
 * - No call is made from a signal handler, nor in the child of a fork of a process with threads.
 *
 * Memory
 * - A pointer that is passed with a length may be null if the length is 0. No other pointer may be null.
 * - The places that a call writes overlap neither each other, nor the handle, nor what the call reads.
 * - Only the calls whose comment names VT_NO_MEMORY take memory. They take it from malloc.
 *
 * Codes
 * - Each call returns a number of enum vt_code, except vt_version and `free`. A call that doesn't return VT_OK changes
 *   nothing, except what its comment names.
 * - Rows and columns are counted from 0, from the top left. Text is UTF-8 without a null byte at its end.
 *
 * Growth
 * - A member named `spare` is 0 in a struct that the library fills, and must be 0 in a struct that you fill, else the
 *   call returns VT_RANGE. A later version may give it a name; 0 will then mean what the library does today. So the
 *   structs of this header keep their size while the library is libvt.so.1.
 * - A later version may add calls, codes, kinds of side effects and kinds of results. Ignore a kind that you don't
 *   know. */
#ifndef VT_H
#define VT_H

#include <stddef.h>
#include <stdint.h>

#ifdef __cplusplus
extern "C" {
#endif

/* The version of this header: 65536 times the major number, 256 times the minor one, and the patch. */
#define VT_VERSION 0x010000

/* The version of the library that the program runs with, in the same form. */
uint32_t vt_version(void);

/* What a call returns. */
enum vt_code {
    VT_OK = 0,
    VT_MADE = 1,          /* the handle has something already, or the process can't be given to this program */
    VT_RANGE = 2,         /* a number is out of its range */
    VT_NO_MEMORY = 3,
    VT_NOTHING = 4,       /* the handle has nothing: it was never made, or it was freed */
    VT_NO_ROOM = 5,       /* the room is too small; only the length was written, if the call gives one */
    VT_FAULT = 6,         /* the keymap has a fault */
    VT_NOT_DRAWABLE = 7,  /* no text draws this screen */
    VT_FULL = 8           /* the journal has no room for the call */
};

/* ---- A screen (console_codes(4)) ---- */

/* A handle of a screen. */
struct vt_screen {
    void *at;
};

/* The kinds of side effects of a text. */
enum vt_out_kind {
    VT_REPORT = 1,        /* bytes for the program's input: `text`, of `length` bytes */
    VT_SWITCH_TO = 2,     /* the console `number` has to come to the front */
    VT_SWITCH_LAST = 3,   /* the console that was in front before has to come to the front */
    VT_LIGHTS = 4,        /* the keyboard's lights: `number` is a sum of enum vt_key_flag */
    VT_BELL = 5
};

/* A side effect. 32 bytes. */
struct vt_out {
    uint8_t kind, length;
    uint16_t number;
    uint8_t text[16];     /* those past the length are 0 */
    uint32_t spare[3];
};

/* How many bytes a feed took, how many places of `outs` it wrote, and how many rows fell out (vt_screen_feed_rows). */
struct vt_fed {
    size_t taken, outs, rows;
    size_t spare[1];
};

/* Codes of cells that are no characters. 0xF000 to 0xF0FF are the places 0 to 255 of the console's font, which the null
 * mapping (ESC ( U, SGR 11) draws; Unicode has them for private use. */
enum {
    VT_HALF = 0x110000,   /* the right half of a character of two columns */
    VT_FONT = 0xF000      /* the first place of the font */
};

/* How many columns the character of a code takes: 1 or 2, or 0 for one that joins the character before it, which a
 * screen drops. */
uint8_t vt_columns(uint32_t code);

/* A character, and the attribute byte of a VGA text cell: the colour of the character in the low half, that of the
 * background in the high half. A colour is the sum of blue 1, green 2, red 4, bright 8. 8 bytes. */
struct vt_cell {
    uint32_t code;
    uint8_t attr;
    uint8_t spare[3];
};

/* The modes of a screen that keys depend on: 1 for on and 0 for off. VT_MODES_START has those of a new screen. */
struct vt_modes {
    uint8_t cursor_keys;  /* DECCKM */
    uint8_t keypad;       /* DECPAM */
    uint8_t repeat;       /* DECARM */
    uint8_t newline_mode; /* LNM */
    uint8_t spare[4];
};

#define VT_MODES_START { 0, 0, 1, 0, { 0, 0, 0, 0 } }

/* The size, the cursor and the modes of a screen. 32 bytes. */
struct vt_state {
    uint16_t rows, cols;
    uint16_t y, x;        /* the row and the column of the cursor */
    uint8_t visible;      /* DECTECM: 1 if the cursor is shown */
    uint8_t reverse;      /* DECSCNM: 1 if the screen is shown reversed */
    uint8_t origin;       /* DECOM */
    uint8_t autowrap;     /* DECAWM */
    uint8_t insert;       /* IRM */
    uint8_t controls;     /* DECCRM: 1 if control characters are shown */
    struct vt_modes modes;
    uint8_t spare[10];
};

/* A colour of the palette. */
struct vt_colour {
    uint8_t red, green, blue, spare;
};

/* Makes a blank screen of 1 to 255 rows and columns. VT_MADE, VT_RANGE, VT_NO_MEMORY. */
uint8_t vt_screen_new(struct vt_screen *s, uint32_t rows, uint32_t cols);

/* Frees what the handle has. */
void vt_screen_free(struct vt_screen *s);

/* Draws a text, however it is cut into calls, until `outs` is full or the text is at its end. fed->taken is how many
 * bytes were drawn. What they ask for is in the first fed->outs places of `outs`, in order; the other places stay.
 * Nothing is lost: feed the rest of the text again. With room for one or more, each call takes a byte or more, if
 * there is one. VT_NOTHING. */
uint8_t vt_screen_feed(struct vt_screen *s, const uint8_t *bytes, size_t n, struct vt_out *outs, size_t room,
                       struct vt_fed *fed);

/* Draws a text as vt_screen_feed does, and gives the rows that fall out at the top: by a line feed, or a character that
 * goes to the next row, in the last row of a region that begins with the screen's first row. What is deleted or erased,
 * and what a resize loses, doesn't fall out. fed->rows is how many rows fell out; their cells, row by row, are the
 * first fed->rows * cols of `cells`, and the other places stay. Nothing is lost: a byte moves two rows out at most, and
 * the call also ends when fewer than two have room. `room` is for side effects, `cells_room` for cells. VT_NO_ROOM
 * (fewer than two rows have room; nothing was drawn), VT_NOTHING. */
uint8_t vt_screen_feed_rows(struct vt_screen *s, const uint8_t *bytes, size_t n, struct vt_out *outs, size_t room,
                            struct vt_cell *cells, size_t cells_room, struct vt_fed *fed);

/* Draws a whole text, and drops what it asks for. VT_NOTHING. */
uint8_t vt_screen_write(struct vt_screen *s, const uint8_t *bytes, size_t n);

/* Gives the screen another size, 1 to 255 rows and columns, and forgets the mark. VT_RANGE, VT_NO_MEMORY,
 * VT_NOTHING. */
uint8_t vt_screen_resize(struct vt_screen *s, uint32_t rows, uint32_t cols);

/* The size, the cursor and the modes. VT_NOTHING. */
uint8_t vt_screen_state(const struct vt_screen *s, struct vt_state *state);

/* One cell. VT_RANGE, VT_NOTHING. */
uint8_t vt_screen_cell(const struct vt_screen *s, uint32_t row, uint32_t col, struct vt_cell *cell);

/* The cells of a row from its left: as many as the row has and as there is room for; the other places stay. VT_RANGE,
 * VT_NOTHING. */
uint8_t vt_screen_row(const struct vt_screen *s, uint32_t row, struct vt_cell *cells, size_t room);

/* All cells, row by row from the top left: as many as the screen has and as there is room for; the other places stay.
 * The cell of a row and a column is cells[row * cols + col]. VT_NOTHING. */
uint8_t vt_screen_cells(const struct vt_screen *s, struct vt_cell *cells, size_t room);

/* The characters of a row in UTF-8, at most 4 bytes for a column. *length is how long that is, at VT_OK and
 * VT_NO_ROOM. VT_RANGE, VT_NOTHING, VT_NO_ROOM. */
uint8_t vt_screen_row_text(const struct vt_screen *s, uint32_t row, uint8_t *text, size_t room, size_t *length);

/* Remembers the cells as they are, in place of those that it remembered before: the mark. VT_NO_MEMORY, VT_NOTHING. */
uint8_t vt_screen_mark(struct vt_screen *s);

/* For each row, from the top, 1 if it differs from the mark, and 0 if it doesn't: as many rows as the screen has and as
 * there is room for; the other places stay. Without a mark every row differs. VT_NOTHING. */
uint8_t vt_screen_changed(const struct vt_screen *s, uint8_t *rows, size_t room);

/* The colours from number 0 on, in the order of SGR (a number is the sum of red 1, green 2, blue 4, bright 8): as many
 * of the 16 as there is room for; the other places stay. VT_NOTHING. */
uint8_t vt_screen_palette(const struct vt_screen *s, struct vt_colour *colours, size_t room);

/* Sets the colour of a number, 0 to 15. VT_RANGE, VT_NOTHING. */
uint8_t vt_screen_set_colour(struct vt_screen *s, uint32_t number, uint8_t red, uint8_t green, uint8_t blue);

/* Sets the user's table of characters (ESC ( K): a code for each byte. VT_NOTHING. */
uint8_t vt_screen_set_user(struct vt_screen *s, const uint16_t words[256]);

#ifdef __cplusplus
#define VT_SIZE(n) static_cast<size_t>(n)
#else
#define VT_SIZE(n) ((size_t)(n))
#endif

/* The most bytes of the text of a redraw, for a screen of so many rows and columns. */
#define VT_REDRAW_MOST(rows, cols) (VT_SIZE(rows) * (18 * VT_SIZE(cols) + 8) + 26 * VT_SIZE(cols) + 377)

/* The text that draws this screen on any terminal of its size that runs the sequences of console_codes(4) and waits for
 * no more of one. *length is how long it is, at VT_OK and VT_NO_ROOM. VT_NOT_DRAWABLE, VT_NO_MEMORY, VT_NOTHING,
 * VT_NO_ROOM. */
uint8_t vt_screen_redraw(const struct vt_screen *s, uint8_t *text, size_t room, size_t *length);

/* The same for a terminal that shows the cells of the mark: only rows that differ are in the text. Without a mark it is
 * the text of vt_screen_redraw. */
uint8_t vt_screen_redraw_changes(const struct vt_screen *s, uint8_t *text, size_t room, size_t *length);

/* What no text makes. In place of it a near redraw makes what stands behind the colon. The calls of this header make
 * screens with the first two alone. */
enum vt_left_out {
    VT_LEFT_CELLS = 1,    /* a cell with half a character of two columns, or without a character that prints itself, as
                             a control character (80 to 9F) that a byte table made: U+FFFD in its colours */
    VT_LEFT_SAVED = 4,    /* a saved cursor outside the screen, after a resize: one in the last row or column */
    VT_LEFT_COLOURS = 2,  /* a bright colour of the pen, of the default pair or of the saved pen: the colour */
    VT_LEFT_REGION = 8,   /* a region of one row: the whole screen */
    VT_LEFT_ORIGIN = 16,  /* origin mode with the cursor outside the region: no origin mode */
    VT_LEFT_HIGH_BIT = 32 /* a changed high bit outside the null mapping: the high bit as it is */
};

/* What no text makes of this screen: *parts is a sum of enum vt_left_out. It is 0 exactly if vt_screen_redraw doesn't
 * return VT_NOT_DRAWABLE. VT_NOTHING. */
uint8_t vt_screen_left_out(const struct vt_screen *s, uint32_t *parts);

/* vt_screen_redraw of the nearest screen that a text draws: this screen, except the parts that vt_screen_left_out
 * names. VT_NO_MEMORY, VT_NOTHING, VT_NO_ROOM. */
uint8_t vt_screen_redraw_near(const struct vt_screen *s, uint8_t *text, size_t room, size_t *length);

/* vt_screen_redraw_changes of that screen. VT_NO_MEMORY, VT_NOTHING, VT_NO_ROOM. */
uint8_t vt_screen_redraw_changes_near(const struct vt_screen *s, uint8_t *text, size_t room, size_t *length);

/* The screen as a picture in SVG 1.1. *length is how long its text is, at VT_OK and VT_NO_ROOM. VT_NO_MEMORY,
 * VT_NOTHING, VT_NO_ROOM. */
uint8_t vt_screen_picture(const struct vt_screen *s, uint8_t *text, size_t room, size_t *length);

/* ---- A keyboard that types by a keymap (keymaps(5), ioctl_console(2)) ----
 *
 * A keyboard is one for all consoles: it has its keymap, the keys that are down, and the accent that waits. Each
 * console has a key state, and its screen has modes. Pass those of the console in front. */

/* A handle of a keyboard. */
struct vt_keys {
    void *at;
};

/* The first fault of a keymap text: its line and column, both from 1, and its kind (docs/reference/codes.md,
   "Keymaps"). */
struct vt_fault {
    uint32_t line, column;
    uint32_t kind;
    uint32_t spare;
};

/* A text that a keymap may include, and its name. Neither pointer may be null. */
struct vt_text {
    const uint8_t *name;
    size_t name_length;
    const uint8_t *text;
    size_t text_length;
};

/* The keyboard modes K_RAW to K_OFF, and what Meta does: K_METABIT, K_ESCPREFIX (ioctl_console(2)). */
enum vt_key_mode { VT_RAW = 0, VT_XLATE = 1, VT_MEDIUMRAW = 2, VT_UNICODE = 3, VT_OFF = 4 };
enum vt_key_meta { VT_METABIT = 3, VT_ESCPREFIX = 4 };

/* Flags and lights are sums of these. */
enum vt_key_flag { VT_SCROLL_LOCK = 1, VT_NUM_LOCK = 2, VT_CAPS_LOCK = 4 };

/* The lights show the flags until they are set. */
enum { VT_LIGHTS_FOLLOW = 255 };

/* The key state of a console. It is yours: begin with VT_KEY_STATE_START, keep one for each console, and set its
 * members as you like. Modifiers are sums of the weights of keymaps(5): Shift 1, AltGr 2, Control 4, Alt 8 and so on.
 * 16 bytes. */
struct vt_key_state {
    uint8_t mode;         /* enum vt_key_mode (KDSKBMODE) */
    uint8_t meta;         /* enum vt_key_meta (KDSKBMETA) */
    uint8_t flags;        /* those that are on, 0 to 7 (KDSKBLED) */
    uint8_t defaults;     /* those that a reset gives, 0 to 7 (KDSKBLED) */
    uint8_t lights;       /* 0 to 7, or VT_LIGHTS_FOLLOW (KDSETLED) */
    uint8_t locks;        /* the locked modifiers */
    uint8_t sticky;       /* the modifiers for the next key */
    uint8_t spare[9];
};

#define VT_KEY_STATE_START { VT_UNICODE, VT_ESCPREFIX, 0, 0, VT_LIGHTS_FOLLOW, 0, 0, { 0, 0, 0, 0, 0, 0, 0, 0, 0 } }

/* What the lights show (KDGETLED). */
static inline uint8_t vt_key_lights(const struct vt_key_state *state)
{
    return state->lights == VT_LIGHTS_FOLLOW ? state->flags : state->lights;
}

/* The kinds of results of a key. */
enum vt_key_kind {
    VT_KEY_NOTHING = 0,
    VT_KEY_BYTES = 1,     /* `bytes`, of `length` bytes, for the program's input */
    VT_KEY_SWITCH = 2,    /* the console `number` has to come to the front */
    VT_KEY_LAST = 3,      /* the console that was in front before */
    VT_KEY_NEXT = 4,      /* the next console */
    VT_KEY_PREV = 5,      /* the console before */
    VT_KEY_SPAWN = 6,     /* KeyboardSignal: a signal to the process that accepts it (KDSIGACCEPT) */
    VT_KEY_ATTENTION = 7  /* the secure attention key */
};

/* The result of a key. 520 bytes. */
struct vt_key {
    uint8_t kind, spare;
    uint16_t length;
    uint32_t number;
    uint8_t bytes[512];   /* those past the length stay */
};

/* The action of a key: a kind and a value (docs/reference/keys.md, "Actions"). */
struct vt_action {
    uint16_t kind, value;
};

enum { VT_ACTION_NO_TABLE = 14 };   /* the kind if there is no such table; the value is 0 */

/* An accent and a letter, and the character that they make: struct kbdiacruc of linux/kd.h. Each is at most 65535. */
struct vt_pair {
    uint32_t accent, base, result;
};

/* Compiles a keymap text, which may include the other texts, for a keyboard with no key down. If two texts have one
 * name, the first counts. At most 1,000 texts are included (fault 12), with at most 4,194,304 bytes together (fault
 * 13), and a text counts as often as it is included. VT_FAULT: the first fault is in *fault. VT_MADE, VT_NO_MEMORY. */
uint8_t vt_keys_new(struct vt_keys *k, const uint8_t *text, size_t n, const struct vt_text *texts, size_t count,
                    struct vt_fault *fault);

/* Frees what the handle has. */
void vt_keys_free(struct vt_keys *k);

/* Types one byte of a keyboard of scan code set 1 into the console with this state and these modes. In VT_RAW the
 * result is that byte itself, unless the attention key acts. VT_RANGE: a member of the state is out of its range.
 * VT_NOTHING. */
uint8_t vt_keys_scan(struct vt_keys *k, uint8_t byte, const struct vt_modes *modes, struct vt_key_state *state,
                     struct vt_key *key);

/* The same for a key by its keycode, 1 to 255, as evdev has it: it goes up if `is_down` is 0, else it goes down or
 * repeats. In VT_RAW it sends nothing. VT_RANGE, VT_NOTHING. */
uint8_t vt_keys_key(struct vt_keys *k, uint32_t keycode, uint8_t is_down, const struct vt_modes *modes,
                    struct vt_key_state *state, struct vt_key *key);

/* Releases the keys as if the keyboard were unplugged: none of them sends anything. VT_NOTHING. */
uint8_t vt_keys_release(struct vt_keys *k);

/* The string of a function key, number 0 to 255 (KDGKBSENT). *length is how long it is, at VT_OK and VT_NO_ROOM; 255 at
 * most. VT_RANGE, VT_NOTHING, VT_NO_ROOM. */
uint8_t vt_keys_string(const struct vt_keys *k, uint32_t number, uint8_t *text, size_t room, size_t *length);

/* Sets the string of a function key to at most 255 bytes (KDSKBSENT). VT_RANGE, VT_NOTHING. */
uint8_t vt_keys_set_string(struct vt_keys *k, uint32_t number, const uint8_t *text, size_t n);

/* The action of a keycode, 1 to 255, in a table, 0 to 255 (KDGKBENT). VT_RANGE, VT_NOTHING. */
uint8_t vt_keys_entry(const struct vt_keys *k, uint32_t table, uint32_t keycode, struct vt_action *action);

/* Sets the action of a keycode in a table (KDSKBENT). VT_RANGE: also if there is no such table, or no such action.
 * VT_NOTHING. */
uint8_t vt_keys_set_entry(struct vt_keys *k, uint32_t table, uint32_t keycode, const struct vt_action *action);

/* The keycode of a scan number, or 0 for none: 1 to 127, and 129 to 255 for 1 to 127 after E0 (KDGETKEYCODE). VT_RANGE,
 * VT_NOTHING. */
uint8_t vt_keys_keycode(const struct vt_keys *k, uint32_t scan, uint32_t *keycode);

/* Sets the keycode of a scan number, 0 to 255, 0 for none (KDSETKEYCODE). VT_RANGE, VT_NOTHING. */
uint8_t vt_keys_set_keycode(struct vt_keys *k, uint32_t scan, uint32_t keycode);

/* The pairs of compose keys, 256 at most (KDGKBDIACRUC). *count is how many there are, at VT_OK and VT_NO_ROOM.
 * VT_NO_MEMORY, VT_NOTHING, VT_NO_ROOM. */
uint8_t vt_keys_pairs(const struct vt_keys *k, struct vt_pair *pairs, size_t room, size_t *count);

/* Sets the pairs (KDSKBDIACRUC). VT_RANGE: more than 256, or a number above 65535. VT_NOTHING. */
uint8_t vt_keys_set_pairs(struct vt_keys *k, const struct vt_pair *pairs, size_t count);

/* ---- A machine: all consoles, and the processes that share them (ioctl_console(2)) ----
 *
 * A machine takes the calls of its callers one at a time and answers each as a console does. Callers 0 and 65 to 67
 * are keyboards, 1 to 64 processes. It writes down every call with its answer: the journal (vt-journal(5)), which is a
 * legal history of the machine from its start, whatever calls are made. */

/* A handle of a machine. */
struct vt_machine {
    void *at;
};

/* How a machine starts. 48 bytes. */
struct vt_start {
    uint64_t consoles;    /* those that are allocated: bit n stands for console n, 1 to 63 */
    uint64_t bytes;       /* the most bytes of the journal's text, 0 to 1,073,741,824 */
    uint32_t events;      /* the most entries of the journal, 0 to 1,000,000 */
    uint16_t rows, cols;  /* of every screen, 1 to 255 */
    uint8_t front;        /* the console in front: one that is allocated */
    uint8_t keyboards;    /* 1 to 4 */
    uint8_t spare[22];
};

/* A process: its home, 1 to 63 or 0 for none, and 1 if it is privileged. 8 bytes. */
struct vt_seat {
    uint8_t home, privileged;
    uint8_t spare[6];
};

/* The kinds of answers, by their words in a journal. */
enum vt_reply_kind {
    VT_REPLY_OK = 0,
    VT_REPLY_NUM = 1,     /* `number` */
    VT_REPLY_STATE = 2,   /* `number` is the console in front; `mask` has bit n for each allocated console n */
    VT_REPLY_BYTES = 3,   /* `length` bytes */
    VT_REPLY_MODE = 4,    /* `words`: mode, waitv, relsig, acqsig, frsig */
    VT_REPLY_ACT = 5,     /* `words`: the kind and the value of a key's action */
    VT_REPLY_WAIT = 6,    /* the caller waits: ask vt_machine_wait, and then make the call `waitend` */
    VT_REPLY_SIGS = 7,    /* `mask`: bit s - 1 for signal s */
    VT_REPLY_ERR = 8      /* `number` is the errno of Linux on x86-64 */
};

/* An answer. What its kind doesn't name is 0. 48 bytes. */
struct vt_reply {
    uint64_t mask;
    uint32_t length;
    uint32_t number;
    uint16_t words[6];
    uint8_t kind;
    uint8_t spare[19];
};

/* The kinds of marks. */
enum vt_mark_kind {
    VT_MARK_ASKED = 1,    /* somebody asked for console `a` */
    VT_MARK_RAISED = 2,   /* signal `b` was raised to caller `a` */
    VT_MARK_HOPPED = 3,   /* the display went from console `a` to `b`; `cause` is 0 if nobody had to let it go, p if
                             process p did, 128 + p if process p died */
    VT_MARK_ENDED = 4     /* caller `a` ended */
};

/* What a call caused. 8 bytes. */
struct vt_mark {
    uint8_t kind, a, b, cause;
    uint8_t spare[4];
};

/* The display and the journal. 40 bytes. */
struct vt_display {
    uint64_t hops;        /* the switches so far */
    uint64_t gone;        /* the entries that vt_machine_forget took */
    uint32_t entries;     /* the entries of the journal */
    uint8_t front;        /* the console in front */
    uint8_t pending;      /* the console that waits for the display, or 0 */
    uint8_t locked;       /* 1 if switching is locked */
    uint8_t spare[17];
};

/* A console. 32 bytes. */
struct vt_console {
    uint32_t bells;       /* BELs so far */
    uint32_t queued;      /* bytes in its input queue */
    uint16_t rows, cols, y, x;
    uint8_t owner;        /* the process that handles its switches, or 0 */
    uint8_t graphics;     /* 1 if it is in KD_GRAPHICS */
    uint8_t visible;      /* 1 if its cursor is shown */
    uint8_t spare[13];
};

/* The states of a caller's wait. */
enum vt_wait { VT_WAIT_NONE = 0, VT_WAIT_OPEN = 1, VT_WAIT_DONE = 2, VT_WAIT_BROKEN = 3 };

/* Makes a machine with the tables of a keymap text (keymaps(5)), which includes nothing, with `count` processes, 64 at
 * most, and an empty journal. VT_FAULT: the first fault of the keymap is in *fault. VT_MADE, VT_RANGE, VT_NO_MEMORY. */
uint8_t vt_machine_new(struct vt_machine *m, const struct vt_start *start, const struct vt_seat *seats, size_t count,
                       const uint8_t *keymap, size_t n, struct vt_fault *fault);

/* Frees what the handle has. */
void vt_machine_free(struct vt_machine *m);

/* Gives a process to a program with this home and privilege. A process that has made no call has them from now on, as
 * if it had started so. One that has made calls must be alive, have nothing open, no signal pending and no wait, accept
 * no key signal, handle no switches, and have started with the same home and privilege: then nothing changes. VT_MADE:
 * it is no such process. VT_RANGE: it isn't one of the start, or a number is out of its range. VT_NOTHING. */
uint8_t vt_machine_admit(struct vt_machine *m, uint32_t process, const struct vt_seat *seat);

/* Makes a call of a caller, 0 to 67. `name` is its name in a journal (vt-journal(5)), with a null byte at its end;
 * `numbers` are its numbers in the order of its words, `held` its bytes, if it has bytes, else n is 0. The answer goes
 * into *reply, and its bytes into the first places of `bytes`; the other places stay. VT_RANGE: no such caller, name or
 * words. VT_NO_ROOM: the answer may need more than `room` bytes; 260,100 are always enough. VT_FULL: the journal has no
 * room, or the caller has made 4,294,967,295 calls. VT_NO_MEMORY, VT_NOTHING. */
uint8_t vt_machine_call(struct vt_machine *m, uint32_t caller, const char *name, const uint16_t *numbers, size_t count,
                        const uint8_t *held, size_t n, struct vt_reply *reply, uint8_t *bytes, size_t room);

/* Empties the journal. The machine goes on. VT_NOTHING. */
uint8_t vt_machine_forget(struct vt_machine *m);

/* What the last call caused, in order: as many marks as there is room for; the other places stay. *count is how many
 * there are. VT_NOTHING. */
uint8_t vt_machine_marks(const struct vt_machine *m, struct vt_mark *marks, size_t room, size_t *count);

/* The state of a caller's wait: enum vt_wait. VT_RANGE, VT_NOTHING. */
uint8_t vt_machine_wait(const struct vt_machine *m, uint32_t caller, uint8_t *wait);

/* The display and the journal's numbers. VT_NOTHING. */
uint8_t vt_machine_display(const struct vt_machine *m, struct vt_display *display);

/* A console, 1 to 63. VT_RANGE: also if it isn't allocated. VT_NOTHING. */
uint8_t vt_machine_console(const struct vt_machine *m, uint32_t n, struct vt_console *console);

/* The cells of a row of a console, as vt_screen_row. VT_RANGE, VT_NOTHING. */
uint8_t vt_machine_row(const struct vt_machine *m, uint32_t n, uint32_t row, struct vt_cell *cells, size_t room);

/* All cells of a console, row by row from the top left, as many as there is room for; the other places stay. VT_RANGE,
 * VT_NOTHING. */
uint8_t vt_machine_cells(const struct vt_machine *m, uint32_t n, struct vt_cell *cells, size_t room);

/* The text that draws a console's screen, as vt_screen_redraw. VT_RANGE, VT_NOT_DRAWABLE, VT_NO_MEMORY, VT_NOTHING,
 * VT_NO_ROOM. */
uint8_t vt_machine_redraw(const struct vt_machine *m, uint32_t n, uint8_t *text, size_t room, size_t *length);

/* The same for a terminal that shows other cells: only rows that differ are in the text. The terminal has `cols`
 * columns and shows `count` cells, row by row from the top left, as vt_machine_cells or vt_screen_cells gave them.
 * VT_RANGE: also if the terminal hasn't the console's size, or a spare byte is set. VT_NOT_DRAWABLE, VT_NO_MEMORY,
 * VT_NOTHING, VT_NO_ROOM. */
uint8_t vt_machine_redraw_changes(const struct vt_machine *m, uint32_t n, const struct vt_cell *shown, size_t count,
                                  uint32_t cols, uint8_t *text, size_t room, size_t *length);

/* vt_machine_redraw of the nearest screen that a text draws, as vt_screen_redraw_near. VT_RANGE, VT_NO_MEMORY,
 * VT_NOTHING, VT_NO_ROOM. */
uint8_t vt_machine_redraw_near(const struct vt_machine *m, uint32_t n, uint8_t *text, size_t room, size_t *length);

/* vt_machine_redraw_changes of that screen. VT_RANGE, VT_NO_MEMORY, VT_NOTHING, VT_NO_ROOM. */
uint8_t vt_machine_redraw_changes_near(const struct vt_machine *m, uint32_t n, const struct vt_cell *shown,
                                       size_t count, uint32_t cols, uint8_t *text, size_t room, size_t *length);

/* A console's screen as a picture, as vt_screen_picture. VT_RANGE, VT_NO_MEMORY, VT_NOTHING, VT_NO_ROOM. */
uint8_t vt_machine_picture(const struct vt_machine *m, uint32_t n, uint8_t *text, size_t room, size_t *length);

/* The line of an entry of the journal, counted from 0, with its line feed. VT_RANGE, VT_NO_MEMORY, VT_NOTHING,
 * VT_NO_ROOM. */
uint8_t vt_machine_entry(const struct vt_machine *m, uint32_t index, uint8_t *text, size_t room, size_t *length);

/* The journal's text in version 2. VT_NO_MEMORY, VT_NOTHING, VT_NO_ROOM. */
uint8_t vt_machine_journal(const struct vt_machine *m, uint8_t *text, size_t room, size_t *length);

#ifdef __cplusplus
}
#endif

#endif
