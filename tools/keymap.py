#!/usr/bin/env python3
"""Brings a keymap of kbd, console-data or ckbcomp into the profile that vt reads (docs/reference/keys.md).

usage: tools/keymap.py [--charset C] [--search DIR]... [--usual] [--strict] FILE > my.keymap

FILE is a keymap of keymaps(5), compressed or not; the name of one in kbd's folders, as `de-latin1`; or - for standard
input. The tables are those that loadkeys makes of it in Unicode, written as one text without includes. If vt has no
action for a symbol, VoidSymbol stands in its place, and a line on err lists it with its file, its line and its name;
--strict refuses such a keymap. --charset reads the keymap as if a charset line were its first line, --search looks
for included files in a folder first, and --usual adds the strings and the compose pairs that a console starts with,
if the keymap has none. The last line on err counts the entries that differ, of all actions that the keymap gives a
keycode in a table, and apart from these the strings and compose pairs. Status 0 means that the keymap was converted, 1
that it was refused.
"""
import argparse
import collections
import os
import pathlib
import re
import sys
import unicodedata

import kbd_tables
import kbd_text
from kbd_text import KeymapError
from package import called
from tool_files import Stop, read_input, run, write_file
from vt_names import ACTIONS, NAMES

WIDTH = 110
HOLE = (0, 0)
CHARACTER, LETTER, META = 1, 2, 3
TABLES, KEYS, PAIRS, STRING = 256, 256, 256, 255

# By kbd's type of an action: the kind of vt, what is added to the value, and how many values vt has.
KINDS = {
    0x0: (1, 0, 256),
    0x1: (4, 0, 256),
    0x3: (5, 0, 17),
    0x4: (7, 0, 6),
    0x5: (11, 1, 63),
    0x6: (6, 0, 4),
    0x7: (8, 0, 8),
}
KINDS |= {0x8: (3, 0, 128), 0x9: (13, 0, 10), 0xA: (9, 0, 8), 0xB: (2, 0, 256), 0xC: (10, 0, 8)}
SPECIAL, DEAD_OF = 0x2, 0xD
ACCENTS = "`'^~\","

# Keys of the pad that vt doesn't have, and the character that Linux types for them outside DECPAM.
NEAR = {0xF311: "?", 0xF312: "(", 0xF313: ")"}

# Why vt has no place for an action, by kbd's type.
REASONS = {
    0x3: "vt has no such key of the pad",
    0x4: "vt has dead keys of ` ' ^ ~ \" and , alone",
    0x7: "vt has eight modifiers, without this one",
    0x8: "vt has metas of ASCII alone",
    0x9: "vt has decimal digits alone, Ascii_0 to Ascii_9",
    0xA: "vt has eight locks, without this one",
    0xC: "vt has eight sticky modifiers, without this one",
    0xD: "vt has dead keys of ` ' ^ ~ \" and , alone",
    0xE: "vt has no braille keys",
}

# Names that are counted together.
GROUPS = {
    "Hex_[0-9A-F]": "Hex_0 to Hex_F",
    r"Brl_\w+": "Brl_blank to Brl_dot10",
    r"Meta_\w+": "Meta_ past ASCII",
    r"keycode [1-9]\d*": "keycodes past 255",
    r"table \d+": "tables past 255",
}

Loss = collections.namedtuple("Loss", "place name reason entry")
Converted = collections.namedtuple("Converted", "text losses notes entries")


SPECIALS = {
    number: ACTIONS[name] for name, number in kbd_tables.ACTIONS.items() if number >> 8 == 0xF2 and name in ACTIONS
}


def action_of(number):
    """Returns vt's kind and value of an action of kbd, or None if vt has none."""
    if number < kbd_tables.LATIN or number >= kbd_tables.WIDE:
        code = number & 0xFFFF
        return None if 0xD800 <= code < 0xE000 else (CHARACTER, code)
    kind, value = number >> 8 & 0xF, number & 0xFF
    if kind == SPECIAL:
        return SPECIALS.get(number)
    if kind == DEAD_OF:
        return (7, ACCENTS.index(chr(value))) if chr(value) in ACCENTS else None
    found = KINDS.get(kind)
    return (found[0], value + found[1]) if found and value < found[2] else None


def reason_of(number):
    """Returns why vt has no place for an action of kbd."""
    if number < 0xF000:
        return "a surrogate is no character"
    return REASONS.get(number >> 8 & 0xF, "vt has no such action")


def name_of(action):
    """Returns a symbol of vt for an action."""
    kind, value = action
    return NAMES.get(action) or ("+" if kind == LETTER else "") + f"U+{value:04X}"


def ranges(numbers):
    """Returns numbers in rising order as ranges with commas between."""
    parts = []
    for number in numbers:
        if parts and parts[-1][1] == number - 1:
            parts[-1][1] = number
        else:
            parts.append([number, number])
    return ",".join(f"{first}-{last}" if first < last else str(first) for first, last in parts)


def alone(action, table):
    """Returns what a symbol that stands alone on a line does in a table (docs/reference/keys.md, "What a keycode
    does")."""
    kind, value = action
    if kind not in (CHARACTER, LETTER) or value > 127 or not chr(value).isalpha():
        return action
    if table >= 16:
        return HOLE
    if table & 1:
        value ^= 32
    if table & 4:
        value &= 31
    return (META if table & 8 else CHARACTER if table & 4 else LETTER, value)


def shown(actions):
    """Returns a comment with the characters that have no name, as far as they can stand in a line."""
    characters = [chr(value) for kind, value in actions if kind in (CHARACTER, LETTER) and (kind, value) not in NAMES]
    seen = dict.fromkeys(
        c for c in characters if c.isprintable() and unicodedata.bidirectional(c) in ("L", "ON", "ET", "EN")
    )
    return f" # {' '.join(list(seen)[:12])}" if seen else ""


def wrapped(line):
    """Returns a line of symbols in pieces that a backslash joins."""
    pieces = [""]
    for word in line.split(" "):
        if len(pieces[-1]) + len(word) > WIDTH:
            pieces.append("   ")
        pieces[-1] += " " * bool(pieces[-1]) + word
    return " \\\n".join(pieces)


def modifiers(table):
    """Returns the modifier words of a table."""
    return " ".join(name for i, name in enumerate(kbd_tables.MODIFIERS[:8]) if table >> i & 1) or "plain"


def key_lines(code, column, tables):
    """Gives the lines of a keycode: one symbol and what differs from it, or a row of symbols."""
    choices = dict.fromkeys([HOLE, *column])
    others = {action: [i for i, t in enumerate(tables) if alone(action, t) != column[i]] for action in choices}
    best = min(choices, key=lambda action: len(others[action]) + (action != HOLE))
    if len(others[best]) <= 3:
        if best != HOLE:
            yield f"keycode {code} = {name_of(best)}{shown([best])}"
        for i in others[best]:
            yield f"{modifiers(tables[i])} keycode {code} = {name_of(column[i])}{shown([column[i]])}"
        return
    last = max(i for i, action in enumerate(column) if action != HOLE)
    yield wrapped(f"keycode {code} = {' '.join(map(name_of, column[: max(last, 1) + 1]))}") + shown(column)


def quoted(text):
    """Returns bytes as a quoted text of a keymap."""
    return "".join(chr(c) if 32 <= c < 127 and c not in b"\"'\\" else f"\\{c:03o}" for c in text)


def spelled(code):
    """Returns a character of a compose line."""
    return f"'{chr(code)}'" if 32 < code < 127 and chr(code) not in "'\\" else f"U+{code:04X}"


class Converter:
    """Takes compiled tables to a text in vt's profile, and keeps what is lost."""

    def __init__(self, tables):
        self.tables = tables
        self.losses = []
        self.entries = 0

    def lose(self, place, name, reason, entry):
        """Lists an entry that differs in vt: a table and a keycode, a string and its key, or a pair and its number."""
        self.losses.append(Loss(place, name, reason, entry))

    def action(self, entry, table, code):
        """Returns vt's action of an entry; what has none is listed."""
        if entry.action in NEAR:
            self.lose(
                entry.place, entry.name, f"vt has no such key, and types {NEAR[entry.action]} for it", (table, code)
            )
            return (CHARACTER, ord(NEAR[entry.action]))
        found = action_of(entry.action)
        if found is None:
            self.lose(entry.place, entry.name, f"{reason_of(entry.action)}: VoidSymbol", (table, code))
        elif entry.remark:
            self.lose(entry.place, entry.name, entry.remark, (table, code))
        return found or HOLE

    def maps(self):
        """Returns vt's action of each entry by table and keycode."""
        found = {}
        for table, entries in sorted(self.tables.maps.items()):
            self.entries += sum(entry.action != kbd_tables.HOLE for entry in entries.values())
            for code, entry in sorted(entries.items()):
                if entry.action != kbd_tables.HOLE and (table >= TABLES or not 0 < code < KEYS):
                    beyond, why = ("table", "tables 0") if table >= TABLES else ("keycode", "keycodes 1")
                    number = table if table >= TABLES else code
                    self.lose(entry.place, f"{beyond} {number}", f"vt has {why} to 255: left out", (table, code))
            if table < TABLES:
                found[table] = {
                    code: self.action(entry, table, code) for code, entry in entries.items() if 0 < code < KEYS
                }
        if not found:
            raise KeymapError(*self.tables.place, "there is no table: neither a keymaps line nor a key line")
        return found

    def strings(self):
        """Gives the lines of the strings."""
        for key, (text, place, name) in sorted(self.tables.strings.items()):
            if len(text) > STRING:
                self.lose(
                    place, name, f"a string of {len(text)} bytes, and vt takes {STRING}: left out", ("string", key)
                )
            elif text:
                yield f'string {name_of((4, key))} = "{quoted(text)}"'

    def pairs(self):
        """Gives the lines of the compose pairs, as many as vt takes."""
        count = 0
        for i, pair in enumerate(self.tables.pairs):
            codes = pair[:3]
            if any(0xD800 <= code < 0xE000 for code in codes):
                self.lose(pair.place, pair.name, "a surrogate is no character: left out", ("left out", i))
                continue
            count += 1
            if count > PAIRS:
                self.lose(pair.place, pair.name, f"pair {count}, and vt takes {PAIRS}: left out", ("left out", i))
            else:
                if pair.remark:
                    self.lose(pair.place, pair.name, pair.remark, ("pair", i))
                accent, base, result = map(spelled, codes)
                yield f"compose {accent} {base} to {result}{shown([(CHARACTER, codes[2])])}"

    def text(self, head):
        """Returns the keymap in vt's profile."""
        maps = self.maps()
        tables = sorted(maps)
        lines = [f"# {head}", f"keymaps {ranges(tables)}"]
        for code in range(1, KEYS):
            column = [maps[table].get(code, HOLE) for table in tables]
            if any(action != HOLE for action in column):
                lines += key_lines(code, column, tables)
        return "".join(line + "\n" for line in [*lines, *self.strings(), *self.pairs()])


def with_usual(tables):
    """Adds the strings and the pairs that a console starts with, which loadkeys keeps if the keymap has none."""
    tables.place = ("--usual", 0)
    if not tables.strings:
        tables.strings.update((key, (text, tables.place, "")) for key, text in kbd_tables.usual_strings().items())
    if not tables.pairs:
        tables.pairs += [kbd_tables.Pair(*pair, tables.place, "", "") for pair in kbd_tables.usual_pairs()]


def near_names(name, search):
    """Returns what to write in place of the name of a keymap that isn't there."""
    names = kbd_text.keymap_names(search)
    if not names:
        return f" ({', '.join(kbd_text.FOLDERS)}), which have none: Debian's console-data has them"
    near = kbd_text.near(name, names)
    return f": is it {' or '.join(near)}?" if near else f", which have {len(names)}, none with a name like it"


def convert(name, charset="", search=(), usual=False, text=None):
    """Returns a keymap in vt's profile with what was lost, or raises KeymapError."""
    try:
        path = pathlib.Path("-") if text is not None else kbd_text.keymap_path(name, search)
    except (OSError, ValueError) as error:
        raise KeymapError(name, 0, f"can't be read: {error}") from error
    if path is None and os.path.exists(name):
        raise KeymapError(name, 0, f"can't be read: it is {'a folder' if os.path.isdir(name) else 'no regular file'}")
    if path is None:
        advice = near_names(name, search)
        raise KeymapError(name, 0, f"there is no such keymap, neither here nor in kbd's folders{advice}")
    tables = kbd_tables.compiled(kbd_text.lines_of(path, search, text), charset)
    if usual:
        with_usual(tables)
    converter = Converter(tables)
    made = converter.text(f"{path.name if text is None else 'Standard input'}, by tools/keymap.py")
    has_accents = re.search(r"[ +](?:dead_\w+|Compose)\b", made)
    if has_accents and not tables.pairs:
        tables.notes.append(
            f"{path}: dead keys, and no compose lines: --usual adds the pairs that a console starts with"
        )
    return Converted(made, converter.losses, tables.notes, converter.entries)


def losses_by_line(losses):
    """Gives a line for all losses of one symbol of one line."""
    grouped = collections.defaultdict(list)
    for loss in losses:
        grouped[loss[:3]].append(loss.entry)
    for (place, name, reason), entries in grouped.items():
        codes = collections.defaultdict(list)
        for table, code in entries:
            if isinstance(table, int):
                codes[code].append(table)
        where = "; ".join(
            f"keycode {code}, table{'s' * (len(of) > 1)} {ranges(sorted(of))}" for code, of in codes.items()
        )
        yield f"{place[0]}:{place[1]}: {name}: {reason}{f' ({where})' if where else ''}"


def group_of(name):
    """Returns a name, or the group that it is counted in."""
    for pattern, group in GROUPS.items():
        if re.fullmatch(pattern, name):
            return group
    return name


def totals(converted):
    """Returns the last line on err: how many entries differ, by name, and how many strings and pairs, or nothing."""
    entries = [loss for loss in converted.losses if isinstance(loss.entry[0], int)]
    counts = collections.Counter(group_of(loss.name) for loss in entries)
    names = ", ".join(f"{name} {count}" for name, count in counts.most_common())
    parts = [f"{len(entries)} of {converted.entries} entries differ in vt: {names}"] if entries else []
    strings = sum(loss.entry[0] == "string" for loss in converted.losses)
    for count, what in [(strings, "strings"), (len(converted.losses) - len(entries) - strings, "compose pairs")]:
        parts += [f"{count} {what if count > 1 else what[:-1]}"] if count else []
    return [f"{called()}: {'; '.join(parts)}"] if parts else []


def report(converted):
    """Returns the lines on err: what was lost, notes, and the numbers by name."""
    lines = [*losses_by_line(converted.losses), *converted.notes, *totals(converted)]
    return "".join(line + "\n" for line in lines)


def words():
    """Returns the words of the command line."""
    parser = argparse.ArgumentParser(description="Brings a keymap of kbd into vt's profile.")
    parser.add_argument(
        "file", metavar="FILE", help="a keymap, the name of one in kbd's folders, or - for standard input"
    )
    parser.add_argument("--charset", default="", metavar="C", help="read it as if a charset line stood in front")
    parser.add_argument(
        "--search", action="append", default=[], metavar="DIR", help="look here for included files first"
    )
    parser.add_argument(
        "--usual", action="store_true", help="add the console's own strings and pairs if there are none"
    )
    parser.add_argument("--strict", action="store_true", help="refuse a keymap of which something would be lost")
    return parser.parse_args()


def main():
    asked = words()
    try:
        text = read_input().decode("latin-1") if asked.file == "-" else None
        converted = convert(asked.file, asked.charset, asked.search, asked.usual, text)
        sys.stderr.write(report(converted))
        if asked.strict and converted.losses:
            return 1
        write_file(None, converted.text.encode("utf-8", "replace"))
    except KeymapError as error:
        sys.stderr.write(f"{error}\n")
        return 1
    except Stop as stop:
        sys.stderr.write(f"{called()}: {stop}\n")
        return stop.status
    return 0


if __name__ == "__main__":
    sys.exit(run(main))
