/* The requests of the keyboard's tables. An action is a kind and a value in the machine, and one number in Linux. */
#include "vtrun.h"
#include <linux/kd.h>
#include <linux/keyboard.h>
#include <string.h>
#include <sys/ioctl.h>

enum {
    CHARACTER = 1,
    LETTER = 2,
    CONSOLE = 11,
    SPECIAL = 12,
    NO_KIND = 99,      /* docs/reference/keys.md, "Actions" */
    WORD = 0xf000,     /* what a character beyond Latin-1 is turned by */
    EXTENDED = 0xe000, /* a scan number after E0 */
    TYPES = 15,        /* numbers from here on are characters */
    MOST_PAIRS = 256,
    PAIR = 12
};

/* The type of Linux for each kind, and the kind for each type. */
static const uint8_t types[] = { KT_SPEC, KT_LATIN, KT_LETTER, KT_META,  KT_FN,   KT_PAD,  KT_CUR,
                                 KT_DEAD, KT_SHIFT, KT_LOCK,   KT_SLOCK, KT_CONS, KT_SPEC, KT_ASCII };
static const uint8_t kinds[] = { CHARACTER, 4, SPECIAL, 5, 7, CONSOLE, 6, 8, 3, 13, 9, LETTER, 10 };

/* The special actions by their values, from 1. */
static const uint16_t specials[] = {
    0,         K_ENTER,       K_CAPS,        K_NUM,          K_HOLD,
    K_CONS,    K_INCRCONSOLE, K_DECRCONSOLE, K_SPAWNCONSOLE, K_SAK,
    K_COMPOSE, K_BARENUMLOCK, K_CAPSON,      K_BREAK,        K_BOOT,
    K_SH_MEM,  K_SH_REGS,     K_SH_STAT,     K_SCROLLFORW,   K_SCROLLBACK,
};

static uint16_t to_linux(unsigned kind, unsigned value, unsigned code)
{
    if (kind == VT_ACTION_NO_TABLE)
        return code ? K_HOLE : K_NOSUCHMAP;
    if (kind == SPECIAL)
        return value < sizeof specials / sizeof *specials ? specials[value] : K_HOLE;
    if (kind == 0 || kind >= sizeof types)
        return K_HOLE;
    if (kind <= LETTER && value > 0xff)
        return (uint16_t)(value ^ WORD);
    return (uint16_t)K(types[kind], kind == CONSOLE ? value - 1 : value);
}

static void from_linux(unsigned number, uint16_t *kind, uint16_t *value)
{
    unsigned type = KTYP(number);
    *kind = *value = 0;
    if (number == K_HOLE || number == K_ALLOCATED)
        return;
    if (type >= TYPES) {
        *kind = CHARACTER;
        *value = (uint16_t)(number ^ WORD);
    } else if (type >= sizeof kinds) {
        *kind = NO_KIND;
    } else if (kinds[type] == SPECIAL) {
        *kind = NO_KIND;
        for (uint16_t i = 1; i < sizeof specials / sizeof *specials; i++)
            if (specials[i] == number) {
                *kind = SPECIAL;
                *value = i;
            }
    } else {
        *kind = kinds[type];
        *value = (uint16_t)(KVAL(number) + (*kind == CONSOLE));
    }
}

static int read_entry(const struct asked *it)
{
    struct kbentry entry;
    int error = fetch(it, &entry, sizeof entry);
    if (error)
        return error;
    /* (place 0 of a table says whether the table is there) */
    unsigned code = entry.kb_index ? entry.kb_index : 1;
    error = ACT(it->seat, "getent", it->descriptor, entry.kb_table, (uint16_t)code);
    if (error)
        return error;
    bool has_entry = entry.kb_index || reply.words[0] == VT_ACTION_NO_TABLE;
    entry.kb_value = has_entry ? to_linux(reply.words[0], reply.words[1], entry.kb_index) : K_HOLE;
    return store(it, &entry, sizeof entry);
}

static int set_entry(const struct asked *it)
{
    struct kbentry entry;
    uint16_t kind, value;
    int error = fetch(it, &entry, sizeof entry);
    if (error)
        return error;
    from_linux(entry.kb_value, &kind, &value);
    if (entry.kb_index == 0)
        return 0; /* (tables are neither made nor taken away) */
    error = ACT(it->seat, "setent", it->descriptor, entry.kb_table, entry.kb_index, kind, value);
    if (!error)
        entry_was_set(entry.kb_table, entry.kb_index, kind, value);
    return error;
}

static int read_string(const struct asked *it)
{
    struct kbsentry string;
    int error = fetch(it, &string, 1);
    if (!error)
        error = ACT(it->seat, "getfunc", it->descriptor, string.kb_func);
    if (error)
        return error;
    memcpy(string.kb_string, answer_bytes, reply.length);
    string.kb_string[reply.length] = '\0';
    return store(it, &string, 1 + reply.length + 1);
}

static int set_string(const struct asked *it)
{
    struct kbsentry string;
    ssize_t n = read_memory(it->pid, it->argument, &string, sizeof string);
    if (n < 2)
        return EFAULT;
    if (!is_valid(it->id))
        return ECANCELED;
    size_t length = strnlen((const char *)string.kb_string, (size_t)n - 1);
    const uint16_t words[] = { it->descriptor, string.kb_func };
    return act(it->seat, "setfunc", words, 2, string.kb_string, length);
}

static int read_pairs(const struct asked *it)
{
    struct kbdiacrsuc wide;
    struct kbdiacrs narrow;
    int error = ACT(it->seat, "getdia", it->descriptor);
    if (error)
        return error;
    unsigned count = reply.length / PAIR;
    wide.kb_cnt = narrow.kb_cnt = count;
    memcpy(wide.kbdiacruc, answer_bytes, count * PAIR);
    if (it->number == KDGKBDIACRUC)
        return store(it, &wide, offsetof(struct kbdiacrsuc, kbdiacruc) + count * PAIR);
    for (unsigned i = 0; i < count; i++)
        narrow.kbdiacr[i] =
            (struct kbdiacr){ (unsigned char)wide.kbdiacruc[i].diacr, (unsigned char)wide.kbdiacruc[i].base,
                              (unsigned char)wide.kbdiacruc[i].result };
    return store(it, &narrow, offsetof(struct kbdiacrs, kbdiacr) + count * sizeof *narrow.kbdiacr);
}

/* Reads a number of pairs and then the pairs, each in one piece and once. */
static int fetch_pairs(const struct asked *it, void *to, size_t size, unsigned *count)
{
    struct asked rest = *it;
    int error = fetch(it, count, sizeof *count);
    if (error)
        return error;
    if (*count > MOST_PAIRS)
        return EINVAL;
    rest.argument += sizeof *count;
    return *count ? fetch(&rest, to, *count * size) : 0;
}

static int set_pairs(const struct asked *it)
{
    struct kbdiacruc wide[MOST_PAIRS];
    struct kbdiacr narrow[MOST_PAIRS];
    unsigned count;
    int error = it->number == KDSKBDIACRUC ? fetch_pairs(it, wide, sizeof *wide, &count)
                                           : fetch_pairs(it, narrow, sizeof *narrow, &count);
    if (error)
        return error;
    for (unsigned i = 0; it->number == KDSKBDIACR && i < count; i++)
        wide[i] = (struct kbdiacruc){ narrow[i].diacr, narrow[i].base, narrow[i].result };
    return act(it->seat, "setdia", &it->descriptor, 1, wide, count * PAIR);
}

static int serve_code(const struct asked *it)
{
    struct kbkeycode code;
    int error = fetch(it, &code, sizeof code);
    if (error)
        return error;
    unsigned n =
        code.scancode >= EXTENDED && code.scancode < EXTENDED + 0x100 ? 0x80 | (code.scancode & 0x7f) : code.scancode;
    uint16_t number = (uint16_t)(n > 0xffff ? 0xffff : n);
    if (it->number == KDGETKEYCODE) {
        error = ACT(it->seat, "getcode", it->descriptor, number);
        code.keycode = reply.number;
        return error ? error : store(it, &code, sizeof code);
    }
    uint16_t key = (uint16_t)(code.keycode > 0xffff ? 0xffff : code.keycode);
    error = ACT(it->seat, "setcode", it->descriptor, number, key);
    if (!error)
        code_was_set(number, key);
    return error;
}

static int accept_signal(const struct asked *it)
{
    uint16_t number = (uint16_t)(it->argument > 0xffff ? 0xffff : it->argument);
    int error = ACT(it->seat, "accept", it->descriptor, number);
    for (unsigned i = 1; !error && i < SEATS; i++)
        seats[i].accepts = i == it->seat;
    return error;
}

int serve_keyboard(const struct asked *it, bool *is_known)
{
    *is_known = true;
    switch (it->number) {
    case KDGKBENT: return read_entry(it);
    case KDSKBENT: return set_entry(it);
    case KDGKBSENT: return read_string(it);
    case KDSKBSENT: return set_string(it);
    case KDGKBDIACR:
    case KDGKBDIACRUC: return read_pairs(it);
    case KDSKBDIACR:
    case KDSKBDIACRUC: return set_pairs(it);
    case KDGETKEYCODE:
    case KDSETKEYCODE: return serve_code(it);
    case KDSIGACCEPT: return accept_signal(it);
    }
    *is_known = false;
    return 0;
}
