/* Prints the size of each struct of vt.h, and the place of each field, for other languages to compare. */
#include <stdio.h>
#include <vt.h>

#define STRUCT(name) printf("%s %zu\n", #name, sizeof(struct name))
#define FIELD(name, field) printf("%s.%s %zu\n", #name, #field, offsetof(struct name, field))

int main(void)
{
    STRUCT(vt_screen), FIELD(vt_screen, at), STRUCT(vt_keys), FIELD(vt_keys, at);
    STRUCT(vt_out), FIELD(vt_out, kind), FIELD(vt_out, length), FIELD(vt_out, number), FIELD(vt_out, text);
    FIELD(vt_out, spare);
    STRUCT(vt_fed), FIELD(vt_fed, taken), FIELD(vt_fed, outs), FIELD(vt_fed, rows), FIELD(vt_fed, spare);
    STRUCT(vt_cell), FIELD(vt_cell, code), FIELD(vt_cell, attr), FIELD(vt_cell, spare);
    STRUCT(vt_modes), FIELD(vt_modes, cursor_keys), FIELD(vt_modes, keypad), FIELD(vt_modes, repeat);
    FIELD(vt_modes, newline_mode), FIELD(vt_modes, spare);
    STRUCT(vt_state), FIELD(vt_state, rows), FIELD(vt_state, cols), FIELD(vt_state, y), FIELD(vt_state, x);
    FIELD(vt_state, visible), FIELD(vt_state, reverse), FIELD(vt_state, origin), FIELD(vt_state, autowrap);
    FIELD(vt_state, insert), FIELD(vt_state, controls), FIELD(vt_state, modes), FIELD(vt_state, spare);
    STRUCT(vt_colour), FIELD(vt_colour, red), FIELD(vt_colour, green), FIELD(vt_colour, blue);
    FIELD(vt_colour, spare);
    STRUCT(vt_fault), FIELD(vt_fault, line), FIELD(vt_fault, column), FIELD(vt_fault, kind);
    FIELD(vt_fault, spare);
    STRUCT(vt_text), FIELD(vt_text, name), FIELD(vt_text, name_length), FIELD(vt_text, text);
    FIELD(vt_text, text_length);
    STRUCT(vt_key_state), FIELD(vt_key_state, mode), FIELD(vt_key_state, meta), FIELD(vt_key_state, flags);
    FIELD(vt_key_state, defaults), FIELD(vt_key_state, lights), FIELD(vt_key_state, locks);
    FIELD(vt_key_state, sticky), FIELD(vt_key_state, spare);
    STRUCT(vt_key), FIELD(vt_key, kind), FIELD(vt_key, spare), FIELD(vt_key, length), FIELD(vt_key, number);
    FIELD(vt_key, bytes);
    STRUCT(vt_action), FIELD(vt_action, kind), FIELD(vt_action, value);
    STRUCT(vt_pair), FIELD(vt_pair, accent), FIELD(vt_pair, base), FIELD(vt_pair, result);
    STRUCT(vt_machine), FIELD(vt_machine, at);
    STRUCT(vt_start), FIELD(vt_start, consoles), FIELD(vt_start, bytes), FIELD(vt_start, events);
    FIELD(vt_start, rows), FIELD(vt_start, cols), FIELD(vt_start, front), FIELD(vt_start, keyboards);
    FIELD(vt_start, spare);
    STRUCT(vt_seat), FIELD(vt_seat, home), FIELD(vt_seat, privileged), FIELD(vt_seat, spare);
    STRUCT(vt_reply), FIELD(vt_reply, mask), FIELD(vt_reply, length), FIELD(vt_reply, number);
    FIELD(vt_reply, words), FIELD(vt_reply, kind), FIELD(vt_reply, spare);
    STRUCT(vt_mark), FIELD(vt_mark, kind), FIELD(vt_mark, a), FIELD(vt_mark, b), FIELD(vt_mark, cause);
    FIELD(vt_mark, spare);
    STRUCT(vt_display), FIELD(vt_display, hops), FIELD(vt_display, gone), FIELD(vt_display, entries);
    FIELD(vt_display, front), FIELD(vt_display, pending), FIELD(vt_display, locked), FIELD(vt_display, spare);
    STRUCT(vt_console), FIELD(vt_console, bells), FIELD(vt_console, queued), FIELD(vt_console, rows);
    FIELD(vt_console, cols), FIELD(vt_console, y), FIELD(vt_console, x), FIELD(vt_console, owner);
    FIELD(vt_console, graphics), FIELD(vt_console, visible), FIELD(vt_console, spare);
    return 0;
}
