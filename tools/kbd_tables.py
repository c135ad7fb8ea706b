"""Compiles the lines of a keymap as loadkeys(1) of kbd does: tables of actions, strings and compose pairs.

A part of tools/keymap.py. An action is a number as `loadkeys --mktable` prints it: below F000 a character of Unicode,
from F000 to FFFF a type in the second digit and a value in the last two. From 10000 on it is a character from F000 on, which
loadkeys doesn't take. Each entry keeps its place in the text.
"""
import collections

import kbd_names
from kbd_text import KeymapError

HOLE = 0xF200
NARROWED = 'after charset "iso-8859-1" loadkeys puts another character here, that of the same byte in Latin-1'
LATIN, META, LETTER, WIDE = 0xF000, 0xF800, 0xFB00, 0x10000
PREFIXES = {"Meta_": META, "dead2_": 0xFD00}
MODIFIERS = ["shift", "altgr", "control", "alt", "shiftl", "shiftr", "ctrll", "ctrlr", "capsshift"]
ALT = 8
TABLES = 512

# The pairs of `compose as usual`: accent, base, and the byte that they give; for most of them the lower case follows.
USUAL_PAIRS = (
    "`A c0 'A c1 ^A c2 ~A c3 \"A c4 OA c5 0A c5 AA c5 AE c6 ,C c7 `E c8 'E c9 ^E ca \"E cb `I cc 'I cd ^I ce \"I cf "
    "-D d0 ~N d1 `O d2 'O d3 ^O d4 ~O d5 \"O d6 /O d8 `U d9 'U da ^U db \"U dc 'Y dd TH de ss df \"y ff sz df ij ff"
).split()
USUAL_NUMBERS = [17, 18, 19, 20, 21, 23, 24, 25, 26, 28, 29, 31, 32, 33, 34, 1, 2, 3, 4, 5, 6]

Entry = collections.namedtuple("Entry", "action place name remark")
Pair = collections.namedtuple("Pair", "accent base result place name remark")


def table_of(text):
    """Returns names and numbers of a text of kbd_names."""
    words = text.split()
    return {name: int(number, 16) for name, number in zip(words[::2], words[1::2])}


CHARACTERS = {**table_of(kbd_names.CHARACTERS), "Euro": 0x20AC}
CHARACTERS_IN = {charset: table_of(text) for charset, text in kbd_names.CHARACTERS_IN.items()}
BYTES = {charset: [int(word, 16) for word in text.split()] for charset, text in kbd_names.BYTES.items()}
PRINTED = (
    "space exclam quotedbl numbersign dollar percent ampersand apostrophe parenleft parenright asterisk plus comma "
    "minus period slash zero one two three four five six seven eight nine colon semicolon less equal greater question "
    "at"
).split()
ASCII = {
    **table_of(kbd_names.ASCII),
    **{name: 0x20 + i for i, name in enumerate(PRINTED)},
    **{chr(code): code for code in [*range(0x41, 0x5B), *range(0x61, 0x7B)]},
}
ACTIONS = {
    **{name: 0xF000 + number for name, number in table_of(kbd_names.ACTIONS).items()},
    **{f"F{i}": 0xF100 + (i - 1 if i <= 20 else i + 9) for i in range(1, 247)},
    **{f"Console_{i}": 0xF500 + i - 1 for i in range(1, 64)},
}


def usual_strings():
    """Returns the strings of `strings as usual`, by function key."""
    found = {i: b"\x1b[[" + bytes([0x41 + i]) for i in range(5)}
    found.update((5 + i, b"\x1b[%d~" % number) for i, number in enumerate(USUAL_NUMBERS))
    return found


def usual_pairs():
    """Gives the pairs of `compose as usual`, each of three bytes."""
    for pair, code in zip(USUAL_PAIRS[::2], USUAL_PAIRS[1::2]):
        accent, base, result = ord(pair[0]), ord(pair[1]), int(code, 16)
        yield accent, base, result
        if pair[1].isupper():
            yield ord(pair[0].lower()), ord(pair[1].lower()), result + 32


class Compiler:
    """The tables as they grow with each line."""

    def __init__(self, charset=""):
        self.maps = {}
        self.strings = {}
        self.pairs = []
        self.notes = []
        self.has_keymaps = self.alt_is_meta = False
        self.constant = set()
        self.charset, self.narrow = "", False
        self.place = ("--charset", 0)
        if charset:
            self.set_charset(charset)

    def refuse(self, reason):
        """Ends with a fault at the line that is being read."""
        raise KeymapError(*self.place, reason)

    def note(self, text):
        """Keeps a remark on the line that is being read."""
        self.notes.append(f"{self.place[0]}:{self.place[1]}: {text}")

    def set_charset(self, charset):
        """From here on, names and bytes are those of this character set."""
        charset = charset.lower()
        if charset == "unicode":
            self.charset, self.narrow = "", False
            return
        if charset not in ("", "iso-8859-1") and charset not in BYTES:
            try:
                BYTES[charset] = [ord(bytes([code]).decode(charset)) for code in range(128, 256)]
            except (LookupError, ValueError):
                self.refuse(f'charset "{charset}": kbd has no such character set')
        self.charset = charset
        self.narrow = self.narrow or charset == "iso-8859-1"

    def byte(self, code):
        """Returns the character of a byte in the character set."""
        return code if code < 128 or self.charset not in BYTES else BYTES[self.charset][code - 128]

    def named(self, name):
        """Returns the action of a name, or None."""
        if name in ASCII:
            return LATIN + ASCII[name]
        if name in ACTIONS:
            return ACTIONS[name]
        prefix = next((prefix for prefix in PREFIXES if name.startswith(prefix)), "")
        if prefix:
            meant = self.named(name[len(prefix) :]) if not name[len(prefix) :].startswith(tuple(PREFIXES)) else None
            if meant is None or meant >= 0xF100:
                return None
            return PREFIXES[prefix] + (meant & 0xFF if meant >= LATIN else meant & 0x7F | 0x80)
        return CHARACTERS_IN.get(self.charset, {}).get(name, CHARACTERS.get(name))

    def numbered(self, number):
        """Returns the action of a number, as kbd takes it, or None if it is too great."""
        if number > 0xFFFF:
            return None
        if number >= 0x1000:
            return number ^ 0xF000 if number ^ 0xF000 >= 0x80 else number
        if number < 0x80 or number > 0xFF:
            return 0xF000 + number
        return LATIN + number if self.narrow else self.byte(number)

    def symbol(self, words):
        """Takes a symbol from the front of a list of words; gives its action and how it is spelled."""
        word = words.pop(0)
        is_letter = word.text == "+" and bool(words)
        if is_letter:
            word = words.pop(0)
        spelled = "+" * is_letter + word.text
        action = None
        if word.kind == "name":
            action = self.named(word.value)
        elif word.kind == "number":
            action = self.numbered(word.value)
        elif word.kind == "unicode":
            action = word.value + (LATIN if word.value < 0x80 else 0 if word.value < LATIN else WIDE)
        if action is None:
            self.refuse(f"{spelled}: kbd has no such symbol")
        return (self.letter(action, word.kind) if is_letter else action), spelled

    def letter(self, action, kind):
        """Returns the letter of a character; kbd has letters of Latin-1 alone, and leaves others as they are."""
        code = action & 0xFF
        if action & ~0xFF == LATIN:
            return LETTER + code
        if action < 0x100 and kind != "number":
            return LETTER + code
        return action

    def add_map(self, table):
        """Declares a table."""
        if table not in self.maps:
            if self.has_keymaps:
                self.note(f"table {table} isn't in the keymaps line: loadkeys refuses this, vt declares it")
            self.maps[table] = {}

    def set(self, table, code, entry):
        """Sets one entry, and with alt_is_meta the one with Alt."""
        self.add_map(table)
        if self.alt_is_meta and entry.action == HOLE and code in self.maps[table]:
            return
        self.maps[table][code] = entry
        other = table | ALT
        is_ascii = entry.action & ~0xFF in (LATIN, LETTER) and entry.action & 0xFF < 128
        if self.alt_is_meta and other != table and is_ascii and other in self.maps and code not in self.maps[other]:
            self.set(other, code, entry._replace(action=META + (entry.action & 0xFF)))

    def keymaps(self, words):
        """A line `keymaps 0-2,4`."""
        while words:
            first = last = self.number(words, "a table")
            if words and words[0].text == "-":
                words.pop(0)
                last = self.number(words, "a table")
            if not first <= last < TABLES:
                self.refuse(f"tables {first}-{last}: a range goes up, from 0 to {TABLES - 1}")
            self.has_keymaps = False
            for table in range(first, last + 1):
                self.add_map(table)
            if words and words.pop(0).text != ",":
                self.refuse("a comma, or the end of the line, has to stand after a range of tables")
        self.has_keymaps = True

    def number(self, words, what):
        """Takes a number from the front of a list of words."""
        if not words or words[0].kind != "number":
            self.refuse(f"{words[0].text if words else 'the end of the line'}: a number has to stand here, of {what}")
        return words.pop(0).value

    def key(self, words, table):
        """The rest of a key line after `keycode`, for one table, or for those of the keymaps lines if it is None."""
        code = self.number(words, "a keycode")
        if not words or words.pop(0).text != "=":
            self.refuse("= has to stand after the keycode")
        entries = []
        while words:
            action, name = self.symbol(words)
            narrowed = self.narrow and (0xFF < action < LATIN or action >= WIDE)
            entries.append(Entry(action, self.place, name, NARROWED if narrowed else ""))
        if table is None:
            self.whole_line(code, entries)
            return
        if len(entries) != 1:
            self.refuse(f"a line with modifiers has one symbol, and this one has {len(entries)}")
        self.set(table, code, entries[0])

    def whole_line(self, code, entries):
        """A line without modifiers. With one symbol it also stands for the tables that get nothing else."""
        if len(entries) == 1:
            self.constant.add(code)
            for entries_of in self.maps.values():
                entries_of.pop(code, None)
        declared = sorted(self.maps) if self.has_keymaps else list(range(len(entries)))
        if len(entries) > len(declared):
            self.refuse(f"{len(entries)} symbols, and there are {len(declared)} tables")
        hole = Entry(HOLE, self.place, "VoidSymbol", "")
        for i, table in enumerate(declared):
            if len(entries) != 1 or i == 0:
                self.set(table, code, entries[i] if i < len(entries) else hole)

    def fill(self):
        """The last step: what one symbol stands for in the other tables."""
        declared = sorted(self.maps)
        for code in sorted(self.constant):
            entry = self.maps[declared[0] if self.has_keymaps else 0].get(code)
            if not entry:
                continue
            value, is_letter = entry.action & 0xFF, entry.action & ~0xFF in (LATIN, LETTER)
            is_letter = is_letter and chr(value).isascii() and chr(value).isalpha()
            for table in declared:
                if is_letter and (table == 0 or code not in self.maps[table]):
                    self.set(table, code, entry._replace(action=letter_in(table, value)))
                elif code not in self.maps[table]:
                    self.set(table, code, entry)

    def string(self, words):
        """A line `string F1 = "text"`."""
        if not words:
            self.refuse("string takes the name of a function key")
        action, name = self.symbol(words)
        if action & ~0xFF != 0xF100:
            self.refuse(f"{name}: no function key")
        if len(words) != 2 or words[0].text != "=" or words[1].kind != "text":
            self.refuse("string takes a name, = and a text in double quotes")
        self.strings[action & 0xFF] = (words[1].value.encode("latin-1").split(b"\0")[0], self.place, name)

    def character(self, words):
        """Takes a character of a compose line from the front of a list of words."""
        if not words:
            self.refuse("compose takes three characters: A B to C")
        word = words[0]
        if word.kind == "character":
            words.pop(0)
            if len(word.value) > 1:
                return self.wide_character(word)
            return self.byte(ord(word.value)), word.text
        action, name = self.symbol(words)
        if LATIN <= action < WIDE and action & ~0xFF not in (LATIN, LETTER):
            self.refuse(f"{name}: no character")
        return (action & 0xFF if LATIN <= action < WIDE else action & 0xFFFF), name

    def wide_character(self, word):
        """Returns a character in quotes that is UTF-8, which kbd doesn't take."""
        try:
            found = word.value.encode("latin-1").decode()
        except ValueError:
            found = ""
        if len(found) != 1 or ord(found) > 0xFFFF:
            self.refuse(f"{word.text}: one character has to stand in single quotes")
        return ord(found), f"'{found}'"

    def compose(self, words):
        """A line `compose A B to C`, or `compose as usual`."""
        texts = [word.text.lower() for word in words]
        if texts[:2] == ["as", "usual"]:
            charset = words[3].value.lower() if len(words) == 4 and texts[2] == "for" else ""
            if len(words) != 2 and charset != "iso-8859-1":
                self.refuse(
                    'loadkeys has usual pairs for "iso-8859-1" alone; others are in files, as include "compose.latin2"'
                )
            for pair in usual_pairs():
                self.pairs.append(Pair(*map(self.byte, pair), self.place, "compose as usual", ""))
            return
        accent, first = self.character(words)
        base, second = self.character(words)
        if not words or words.pop(0).text.lower() != "to":
            self.refuse("to has to stand before the last character of a compose line")
        result, third = self.character(words)
        if words:
            self.refuse(f"{words[0].text}: nothing may stand after a compose line")
        remark = NARROWED if self.narrow and max(accent, base, result) > 0xFF else ""
        self.pairs.append(Pair(accent, base, result, self.place, f"{first} {second} to {third}", remark))

    def line(self, line):
        """Takes one line of a keymap."""
        self.place = (line.path, line.number)
        words = list(line.words)
        texts = [word.text.lower() for word in words]
        if not words:
            return
        head = texts[0].replace("-", "_")
        if head == "keymaps":
            self.keymaps(words[1:])
        elif head == "keycode":
            self.key(words[1:], None)
        elif head == "string":
            self.string(words[1:])
        elif texts == ["strings", "as", "usual"]:
            self.strings.update((i, (text, self.place, "strings as usual")) for i, text in usual_strings().items())
        elif head == "compose":
            self.compose(words[1:])
        elif head == "charset" and len(words) == 2 and words[1].kind == "text":
            self.set_charset(words[1].value)
        elif texts == ["alt_is_meta"] or head == "alt_is_meta" and len(words) == 1:
            self.alt_is_meta = True
        else:
            self.modified(words, texts)

    def modified(self, words, texts):
        """A line that begins with modifiers."""
        weights = {"plain": 0, **{name: 1 << i for i, name in enumerate(MODIFIERS)}}
        table = 0
        while texts and texts[0] in weights:
            table |= weights[texts.pop(0)]
            words.pop(0)
        if not texts or texts[0] != "keycode":
            self.refuse(f"{words[0].text if words else 'the end of the line'}: a line of a keymap can't begin so")
        self.key(words[1:], table)


def letter_in(table, value):
    """Returns what one ASCII letter stands for in a table (keymaps(5))."""
    if table & 1:
        value ^= 32
    if table & 4:
        value &= 31
    return (META if table & ALT else LATIN if table & 4 else LETTER) + value


def compiled(lines, charset=""):
    """Returns the tables of a keymap's lines."""
    tables = Compiler(charset)
    for line in lines:
        tables.line(line)
    tables.fill()
    return tables
