#!/usr/bin/env python3
"""Explains the line that vt writes on err: the place in the input with a mark, what the code means, and what to do.

usage: vt keys < FILE 2>&1 > /dev/null | tools/why.py [--vt PROGRAM] FILE

It reads vt's standard error on its own standard input, and FILE is the input that vt read. It knows the codes of
keymaps, of sessions and tables in TOML, and of journals, and the reasons of `check`. For an unknown symbol it prints
what kbd has under that name and how to write it for vt; for a word of a session that isn't known, the words like it;
for a journal whose answer or call is wrong, the right one, by a play of the session (tools/programs.py finds vt).
Status 0 means that it explained a line of vt, 1 that it found none, 2 that FILE can't be read.
"""
import argparse
import re
import sys

from package import called

try:
    import tomllib
except ModuleNotFoundError:
    sys.exit(f"{called()}: needs Python 3.11 or later, which has tomllib")

import kbd_tables
import keymap
import why_sessions
from kbd_text import KeymapError, near
from programs import tool_name
from tool_files import Stop, run, write_file
from vt_names import ACTIONS

KEYMAP_CODES = {
    1: "an unknown word, or no number where one must stand",
    2: "an unknown symbol; in compose one that is no character, in string one that is no function key",
    3: "a number out of its range, or a range that goes down",
    4: "a key line without symbols, or with more symbols than the keymaps lines name tables",
    5: "keymaps after a line with keycode: put all keymaps lines in front",
    6: "a bad quoted text or character, or bytes that aren't UTF-8",
    7: f"a text to include that isn't given: vt opens no files, and {tool_name('keymap')} puts included files in line",
    8: "texts are included more than eight deep",
    9: "something stands after what the line may have",
    10: "more than 256 compose pairs",
    11: "a string of more than 255 bytes",
    12: "more than 1,000 texts are included",
    13: "the included texts have more than 4 MiB together",
}
TABLE_CODES = {
    20: "no document in TOML 1.1, or not UTF-8",
    21: "a key that isn't known",
    22: "a value of the wrong kind",
    23: "a number out of its range, a console that stands twice, or too many processes or keyboards",
    24: "the keymap is refused",
    25: "a text of the script is no item",
    26: "a text of the hooks is no hook, or its signal has one already",
    27: "an item of keys is no byte: two hexadecimal digits, with one blank between items",
    28: "a turn is no caller that is there",
    29: "too many items",
    30: "an item of more_keys is no byte",
}
JOURNAL_CODES = {
    40: "the journal begins neither with %journal 1 nor with %journal 2",
    41: "a line of the journal isn't of the form",
    42: "the journal ends without a last line, %end or %full",
    43: "something follows the last line of the journal",
    44: "more than 1,000,000 entries",
    45: "the certificate isn't of the form",
}
REASONS = {
    1: "its caller isn't one of the session, or its count isn't the number of the caller's calls before",
    2: "its call isn't the next one of its caller's program",
    3: "its answer isn't the one that the machine gives there",
    4: "at the end, a program isn't over",
    5: "the journal is past a limit of the session, or its last line has other numbers",
    6: "the certificate is not accepted at this item",
}
STATUSES = {
    "usage": 'the words are none of vt\'s commands: docs/reference/program.md has them',
    "read failed": "standard input can't be read",
    "write failed": "standard output or standard error can't be written: a full disk, or a reader that went away",
    "no memory": "memory ran out",
    "input too long": "screen reads 67,108,864 bytes, and every other command 16,777,216",
    "journal full": "a call found no room in the journal: the session's keys events and bytes set the room",
}


def word_at(line, column):
    """Returns the word that begins at a column of a line, both in bytes."""
    rest = line[column - 1 :]
    quoted = re.match(rb"\"(?:[^\"\\]|\\.)*\"?|'(?:[^'\\]|\\.)*'?", rest)
    return (quoted[0] if quoted else re.split(rb"[ \t\r\n]", rest, maxsplit=1)[0]).decode("utf-8", "replace")


def printable(line):
    """Returns a line as a terminal can show it: a character that can't be printed is a question mark."""
    text = line.decode("utf-8", "replace").rstrip("\r")
    return "".join(c if c.isprintable() or c == "\t" else "?" for c in text)


def marked(text, line, column):
    """Gives a line of the input, and below it a mark under the word at a column."""
    lines = text.split(b"\n")
    shown = lines[line - 1] if 0 < line <= len(lines) else b""
    front = shown[: column - 1].decode("utf-8", "replace")
    blanks = "".join("\t" if c == "\t" else " " for c in front)
    yield "    " + printable(shown)
    yield "    " + blanks + "^" * max(1, len(word_at(shown, column)))


def about_action(name, number):
    """Returns what a symbol of kbd is and how vt has it."""
    found = keymap.action_of(number)
    if number in keymap.NEAR:
        return f"kbd knows {name}, a key of the pad that vt doesn't have: Linux types {keymap.NEAR[number]} for it."
    if found is None:
        return f"kbd knows {name}, and {keymap.reason_of(number)}: write VoidSymbol."
    symbol = keymap.name_of(found)
    if found[0] == keymap.CHARACTER and found[1] > 255:
        character = chr(found[1])
        shown = f" ({character})" if character.isprintable() else ""
        return f"kbd knows {name} as U+{found[1]:04X}{shown}. Write {symbol}."
    return f"kbd knows {name}. vt's name for it is {symbol}."


def about_number(text):
    """Returns what a number is as a symbol."""
    try:
        number = int(text, 16 if text[:2] in ("0x", "0X") else 8 if text[0] == "0" else 10)
        action = kbd_tables.Compiler().numbered(number)
    except ValueError:
        action = None
    if action is None:
        return f"{text} is no number of kbd or vt: decimal, octal after 0, or hexadecimal after 0x."
    found = keymap.action_of(action)
    if found is None:
        return f"kbd takes {text} as an action, and {keymap.reason_of(action)}: write VoidSymbol."
    return (
        f"vt takes a number below 256, as a character. The action that kbd takes {text} for is {keymap.name_of(found)}."
    )


def about_symbol(word):
    """Returns how an unknown symbol is written for vt."""
    plus, name = "+" * word.startswith("+"), word.lstrip("+")
    if not name:
        return "A symbol has to stand here."
    if len(name) == 1 and ord(name) > 127:
        return (
            f"Write the character {name} as {plus}U+{ord(name):04X}."
            if ord(name) < 0x10000
            else f"{name} is past U+FFFF."
        )
    if name[0].isdigit():
        return about_number(name)
    if re.match(r"[Uu]\+", name):
        return (
            "U+ takes four hexadecimal digits, of a character up to U+FFFF that is no surrogate; U is a capital letter."
        )
    number = kbd_tables.Compiler().named(name)
    if number is not None:
        if plus and number >= 0xF000 and number & ~0xFF not in (kbd_tables.LATIN, kbd_tables.LETTER):
            return f"+ stands before characters alone. {about_action(name, number)}"
        told = about_action(name, number)
        return told.replace("Write U+", "Write +U+") if plus else told
    close = near(name, [other for other in ACTIONS if not other.startswith("+")]) or near(name, kbd_tables.CHARACTERS)
    hint = f" Is it {' or '.join(close)}?" if close else ""
    return (
        f"Neither vt nor kbd has a symbol {name}.{hint} Any character can be written as U+ and four hexadecimal digits."
    )


def about_word(word):
    """Returns a hint for a word that no line begins with."""
    if "=" in word and word != "=":
        return f"vt cuts words at blanks and tabs: write {' = '.join(part for part in word.split('=', 1)).strip()}."
    keywords = [
        "keymaps",
        "keycode",
        "string",
        "compose",
        "include",
        "charset",
        "alt_is_meta",
        "strings",
        "as",
        "usual",
        "to",
        "for",
    ]
    if word.lower() == "capsshift":
        return "kbd has a ninth modifier, capsshift, and vt has eight: take the line out."
    close = near(word, [*keywords, "plain", *kbd_tables.MODIFIERS[:8]])
    return f"Is it {' or '.join(close)}?" if close else ""


def keymap_hint(code, word, line):
    """Returns what to do about a fault of a keymap."""
    if code == 2:
        return about_symbol(word)
    if code == 1:
        return about_word(word)
    if code == 3 and b"keycode" in line.lower():
        return "Keycodes go from 1 to 255. No key has keycode 0: take the line out."
    if code == 3:
        return "Tables go from 0 to 255, and so do the values of octal numbers in quotes (377)."
    return ""


def about_keymap(path, text, code, line, column):
    """Gives the lines about a fault of a keymap."""
    lines = text.split(b"\n")
    yield f"{path}:{line}:{column}: {KEYMAP_CODES[code]} (code {code})"
    if line > len(lines):
        yield f"{path} has {len(lines)} lines: is it what vt read?"
        return
    shown = lines[line - 1] if line else b""
    yield from marked(text, line, column)
    hint = keymap_hint(code, word_at(shown, column), shown)
    if hint:
        yield hint


def about_table(path, text, code, first, second):
    """Gives the lines about a fault of a session, which a journal may follow, or of a table for `vt type`."""
    document = re.split("^%journal [12]$", text.decode("utf-8", "replace"), maxsplit=1, flags=re.M)[0]
    if code == 24:
        yield from about_inner_keymap(path, document, first, second)
    elif code == 20:
        yield from why_sessions.about_document(path, document, TABLE_CODES[code])
    else:
        yield from why_sessions.about_fault(path, document, TABLE_CODES[code], code, first, second)


def about_inner_keymap(path, document, line, column):
    """Gives the lines about a fault of the keymap that stands in a session or a table."""
    yield f"{path}: {TABLE_CODES[24]} (code 24 at {line}:{column})"
    try:
        given = tomllib.loads(document)["keymap"].encode()
    except (ValueError, RecursionError, LookupError, AttributeError):
        return
    lines = given.split(b"\n")
    yield f"In the text of keymap, line {line}, column {column}:"
    yield from marked(given, line, column)
    word = word_at(lines[line - 1] if line <= len(lines) else b"", column)
    yield f"If this is where a symbol stands: {about_symbol(word)}"


def about_journal(path, text, code, line):
    """Gives the lines about a fault of a journal, which may stand after a session."""
    sign = b"%explain" if code == 45 else b"%journal"
    start = next((i for i, row in enumerate(text.split(b"\n")) if row.startswith(sign)), 0)
    yield f"{path}:{start + line or 1}: {JOURNAL_CODES[code]} (code {code})"
    if line:
        yield from marked(text, start + line, 1)


def about_illegal(program, path, text, entry, reason):
    """Gives the lines about a journal that isn't a legal one."""
    told = REASONS.get(reason, "a reason that no page has")
    place = f"at entry {entry}, counted from 0"
    yield f"{path}: the journal isn't a legal one of the session {place}: {told} (reason {reason})"
    rows = text.decode("utf-8", "replace").split("\n")
    start = next((i for i, row in enumerate(rows) if row.startswith("%journal")), None)
    if start is None or reason == 6 or start + 1 + entry >= len(rows):
        return
    yield "    " + printable(rows[start + 1 + entry].encode())
    if reason in (2, 3):
        session = "".join(row + "\n" for row in rows[:start])
        yield from why_sessions.right_entry(program, session, rows[start + 1 :], entry)


def explained(program, path, text, err):
    """Gives the lines for the first line of vt on err, or nothing."""
    found = re.search(
        r"^vt: (?:refused (\d{1,3}) at (\d{1,10}):(\d{1,10})|illegal (\d{1,10}) (\d{1,3})|(.*))$", err, re.M
    )
    if not found:
        return
    code, line, column, entry, reason = (int(part) if part else 0 for part in found.groups()[:5])
    if code in KEYMAP_CODES:
        yield from about_keymap(path, text, code, line, column)
    elif code in TABLE_CODES:
        yield from about_table(path, text, code, line, column)
    elif code in JOURNAL_CODES:
        yield from about_journal(path, text, code, line)
    elif found[4]:
        yield from about_illegal(program, path, text, entry, reason)
    else:
        told = [meaning for status, meaning in STATUSES.items() if (found[6] or "").startswith(status)]
        yield f"{path}: {told[0]}" if told else f"{path}: vt wrote a line that no page names: {found[0]}"


def main():
    parser = argparse.ArgumentParser(
        usage=f"vt COMMAND < FILE 2>&1 > /dev/null | {called()} [--vt PROGRAM] FILE",
        description="Explains the line that vt writes on standard error.",
    )
    parser.add_argument("file", metavar="FILE", help="the input that vt read")
    parser.add_argument("--vt", metavar="PROGRAM", help="the program vt, which plays a session")
    asked = parser.parse_args()
    try:
        with open(asked.file, "rb") as file:
            text = file.read()
        err = sys.stdin.buffer.read().decode("utf-8", "replace")
        lines = [line for line in explained(asked.vt, asked.file, text, err) if line]
        text = "".join(line + "\n" for line in lines or ["No line of vt stands on err."])
        write_file(None, text.encode("utf-8", "replace"), 2)
    except (OSError, KeymapError, Stop) as error:
        sys.stderr.write(f"{called()}: {error}\n")
        return 2
    return 0 if lines else 1


if __name__ == "__main__":
    sys.exit(run(main, 2))
