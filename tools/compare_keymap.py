#!/usr/bin/env python3
"""Compares the tables that loadkeys(1) makes of a keymap with those that vt makes of the converted one, entry by entry.

usage: tools/compare_keymap.py [--vt PROGRAM] [--back] [--charset C] [--search DIR]... FILE...

It prints a line for each FILE: `same`; `same except for N entries` that tools/keymap.py listed, by name, with those of
keycodes and tables past 255, of which loadkeys prints nothing; or `different`, with the first twenty differences.
--back goes the other way: loadkeys reads the dump that `vt dumpkeys` makes of the converted keymap, and its tables have
to be those that `vt keys` lists. If loadkeys refuses a keymap, a repaired copy is compared, and the line names the
repair. The tool doesn't take from tools/keymap.py which number of kbd is which action of vt: both programs read the
same names, and what they make of a name is the same action. It needs loadkeys (Debian: apt-get install kbd), and loads
nothing into a console. Status 1 means that one is different, 3 that loadkeys or the converter refused one, and 0
neither.
"""
import argparse
import collections
import os
import pathlib
import re
import subprocess
import sys
import tempfile

import kbd_names
import kbd_tables
import kbd_text
import keymap
import vt_names
from kbd_text import KeymapError
from package import called
from programs import Missing, find
from tool_files import run as run_tool

SECONDS = 120
CHARACTER = r"'(\\[0-7]+|\\.|[^'])'"
HOLE = 0xF200
SHIFTED = "with U+Exxx for each U+Fxxx"

Kbd = collections.namedtuple("Kbd", "maps strings pairs")
Verdict = collections.namedtuple("Verdict", "word line names entries")


class ProgramError(Exception):
    """A program that is missing, fails, or refuses what it was given."""


def run(words, given, **options):
    """Returns what a program prints, or raises ProgramError with the first lines that it has on err."""
    try:
        ran = subprocess.run(words, input=given, capture_output=True, timeout=SECONDS, check=False, **options)
    except OSError as error:
        raise ProgramError(f"{words[0]}: {error.strerror}") from error
    except subprocess.TimeoutExpired as error:
        raise ProgramError(f"{words[0]} took over {SECONDS} s") from error
    if ran.returncode:
        lines = [line for line in ran.stderr.decode("utf-8", "replace").splitlines() if line.strip()]
        lines = [line for line in lines if not line.endswith("unexpected ERROR")] or lines
        raise ProgramError(f"{pathlib.Path(words[0]).name}: {'; '.join(lines[:2])}")
    return ran.stdout.decode("latin-1")


def code_of(text):
    """Returns the number of a character as loadkeys spells it in C: U+01FE and U+01FF stand as their low byte."""
    if text[0] == "\\" and text[1] in "01234567":
        return int(text[1:], 8)
    return ord(text[-1]) + (0x100 if ord(text[-1]) > 127 else 0)


def kbd_strings(printed):
    """Returns the strings of `loadkeys --mktable` by function key."""
    buffer = re.search(r"char func_buf\[\] = \{(.*?)\n\};", printed, re.S)[1]
    text = bytes(code_of(quoted) if quoted else 0 for quoted in re.findall(rf"{CHARACTER}|\b0\b", buffer, re.S))
    table = re.search(r"char \*func_table\[MAX_NR_FUNC\] = \{(.*?)\}", printed, re.S)[1]
    places = enumerate(re.findall(r"func_buf \+ (\d+),|\b0,", table))
    found = {key: text[int(place) : text.index(0, int(place))] for key, place in places if place}
    return {key: string for key, string in found.items() if string}


def link_all(folders, place):
    """Links each file of the folders in one place; of files of one name the first."""
    for folder in folders:
        for file in sorted(pathlib.Path(folder).glob("*")):
            link = place / file.name
            if file.is_file() and not link.is_symlink():
                link.symlink_to(file.absolute())


def kbd_tables_of(text, path=None, folders=()):
    """Returns what loadkeys makes of a text, or of a file, which may include the files of these folders.

    It runs in another folder than the keymap's: loadkeys 2.5.1 opens a file twice that it includes from its current
    one, and refuses it. Of the folders of LOADKEYS_INCLUDE_PATH it takes the first alone from the second include on, so
    one folder has links to all files.
    """
    words = ["loadkeys", "-u", "--mktable", *([str(path.absolute())] if path else [])]
    with tempfile.TemporaryDirectory() as name:
        place = pathlib.Path(name)
        environment = dict(os.environ)
        if folders:
            link_all([*folders, *kbd_text.common_folders()], place)
            environment["LOADKEYS_INCLUDE_PATH"] = name
        printed = run(words, None if path else text, cwd="/", env=environment)
    try:
        return tables_in(printed)
    except (TypeError, ValueError, KeyError) as error:
        raise ProgramError("loadkeys prints tables in a form that this tool doesn't know") from error


def tables_in(printed):
    """Returns the tables, strings and pairs that `loadkeys --mktable` prints."""
    arrays = {
        name: [int(number, 16) for number in re.findall(r"0x[0-9a-f]+", numbers)]
        for name, numbers in re.findall(r"short (\w+)\[NR_KEYS\] = \{(.*?)\}", printed, re.S)
    }
    names = re.search(r"\*key_maps\[MAX_NR_KEYMAPS\] = \{(.*?)\}", printed, re.S)[1].replace(",", " ").split()
    pairs = re.search(r"accent_table\[MAX_DIACR\] = \{(.*?)\n\};", printed, re.S)[1]
    pairs = re.findall(rf"\{{{CHARACTER}, {CHARACTER}, (?:{CHARACTER}|(0x[0-9a-f]+))\}}", pairs, re.S)
    return Kbd(
        {table: arrays[name] for table, name in enumerate(names) if name != "0"},
        kbd_strings(printed),
        [(code_of(a), code_of(b), code_of(c) if c else int(d, 16)) for a, b, c, d in pairs],
    )


def vt_tables_of(program, text):
    """Returns the same of vt: tables with their actions by keycode, strings and pairs."""
    maps, strings, pairs = {}, {}, []
    for line in run([program, "keys"], text.encode()).splitlines():
        word, *numbers = line.split()
        if word == "maps":
            maps = {int(number): {} for number in numbers}
        elif word == "map":
            table, code, kind, value = map(int, numbers)
            maps[table][code] = (kind, value)
        elif word == "func":
            strings[int(numbers[0])] = bytes.fromhex(numbers[1])
        elif word == "pair":
            pairs.append(tuple(map(int, numbers)))
    return Kbd(maps, strings, pairs)


def same_actions(program):
    """Returns vt's action for each number of kbd, by the names that both programs know."""
    names = [name for name in vt_names.ACTIONS if not name.startswith("+")]
    known = [name for name in names if kbd_tables.Compiler().named(name) is not None]
    found = {HOLE: (0, 0)}
    for start in range(0, len(known), 255):
        part = known[start : start + 255]
        text = "keymaps 0\n" + "".join(f"plain keycode {code} = {name}\n" for code, name in enumerate(part, 1))
        theirs, ours = kbd_tables_of(text.encode()).maps[0], vt_tables_of(program, text).maps.get(0)
        if ours is None:
            raise ProgramError(f"{program} keys printed no table")
        found.update((theirs[code], ours.get(code, (0, 0))) for code in range(1, len(part) + 1))
    # A letter is the type B; the type D is a dead key by its accent, of those that the type 4 has too.
    found.update((0xFB00 + value, (2, value)) for value in range(256))
    found.update((0xFD00 + ord(accent), (7, i)) for i, accent in enumerate("`'^~\","))
    found.update((0xF000 + value, (1, value)) for value in range(256))
    return found


def meant(actions, number):
    """Returns vt's action of a number of kbd, or None."""
    return actions.get(number) or ((1, number) if number < 0xF000 else None)


def differences(theirs, ours, actions, listed):
    """Returns the entries that differ and were listed, by place, and lines for all others that differ."""
    lost, lines = set(), []
    for table in sorted(set(theirs.maps) ^ set(ours.maps)):
        if table < keymap.TABLES:
            lines.append(f"table {table} is one of {'loadkeys' if table in theirs.maps else 'vt'} alone")
    for table in sorted(set(theirs.maps)):
        for code, number in enumerate(theirs.maps[table]):
            found = ours.maps.get(table, {}).get(code, (0, 0))
            if meant(actions, number) == found:
                continue
            if (table, code) in listed:
                lost.add((table, code))
            else:
                lines.append(f"table {table}, keycode {code}: loadkeys has {number:#06x}, vt {found[0]} {found[1]}")
    lost |= {("string", key) for key in theirs.strings if ("string", key) in listed}
    strings = {key: text for key, text in theirs.strings.items() if ("string", key) not in listed}
    if strings != ours.strings:
        lines.append(f"strings: loadkeys has {strings}, vt {ours.strings}")
    return lost | pairs_lost(theirs.pairs, ours.pairs, listed, lines), lines


def pairs_lost(theirs, ours, listed, lines):
    """Returns the pairs that differ and were listed, and adds a line for each other one that differs."""
    lost, left = set(), list(ours)
    for i, pair in enumerate(theirs):
        if ("left out", i) in listed:
            lost.add(("left out", i))
            continue
        found = left.pop(0) if left else None
        if found != pair and ("pair", i) in listed:
            lost.add(("pair", i))
        elif found != pair:
            lines.append(f"pair {i + 1}: loadkeys has {pair}, vt {found}")
    lines += [f"vt has the pair {pair}, and loadkeys has not" for pair in left]
    return lost


def repaired(text):
    """Gives keymaps near one that loadkeys refuses, each with what is otherwise in it."""
    known = "|".join(["iso-8859-1", *kbd_names.BYTES]).encode()
    yield "without its charset line", re.sub(
        rb'^[ \t]*charset[ \t]+"(?!(?:' + known + rb')").*$', b"", text, flags=re.M
    )
    yield SHIFTED, re.sub(rb"U\+[fF]([0-9a-fA-F]{3})", rb"U+E\1", text)
    yield "without its keymaps line", re.sub(rb"^[ \t]*keymaps.*$", b"", text, flags=re.M)


def judged_tables(path, text, search):
    """Returns what loadkeys makes of a keymap, and the repair that it took, if it took one."""
    folders = [*kbd_text.near_folders(path or pathlib.Path("-")), *search]
    try:
        return kbd_tables_of(text, path, search if path else folders), ""
    except ProgramError as error:
        first = error
    given = text if text is not None else kbd_text.read(path).encode("latin-1")
    for name, other in repaired(given):
        try:
            if other != given:
                return kbd_tables_of(other, None, folders), name
        except ProgramError:
            continue
    raise first


def is_past_kbd(entry):
    """Whether an entry is one of a keycode or a table past those that loadkeys prints."""
    return isinstance(entry[0], int) and (entry[0] >= keymap.TABLES or entry[1] >= keymap.KEYS)


def names_lost(losses, lost):
    """Returns the names of the entries that were lost, or their groups, with their numbers."""
    names = {loss.entry: loss.name for loss in losses}
    return collections.Counter(keymap.group_of(names[entry]) for entry in lost)


def converted_keymap(name, charset, search):
    """Returns the converted keymap, with the text that was read if it came from standard input."""
    text = sys.stdin.buffer.read() if name == "-" else None
    return keymap.convert(name, charset, search, text=None if text is None else text.decode("latin-1")), text


def different(lines, note, converted):
    """Returns the verdict on tables that differ."""
    shown = "".join(f"\n    {line}" for line in lines[:20])
    return Verdict("different", f"different: {len(lines)}{note}{shown}", {}, converted.entries)


def compare(program, actions, name, charset="", search=()):
    """Returns the verdict on one keymap."""
    converted, text = converted_keymap(name, charset, search)
    theirs, repair = judged_tables(None if text is not None else kbd_text.keymap_path(name, search), text, search)
    if repair == SHIFTED:
        actions = actions | {number: (1, number + 0x1000) for number in range(0xE000, 0xF000)}
    listed = {loss.entry for loss in converted.losses}
    lost, lines = differences(theirs, vt_tables_of(program, converted.text), actions, listed)
    lost |= {entry for entry in listed if is_past_kbd(entry)}
    note = f" (loadkeys took it {repair})" if repair else ""
    if lines:
        return different(lines, note, converted)
    names = names_lost(converted.losses, lost)
    by_name = ", ".join(f"{name} {count}" for name, count in names.most_common())
    line = (
        f"same except for {len(lost)} {'entry' if len(lost) == 1 else 'entries'}{note}: {by_name}"
        if lost
        else f"same{note}"
    )
    return Verdict("lost" if lost else "same", line, names, converted.entries)


def compare_back(program, actions, name, charset="", search=()):
    """Returns the verdict on the way back: the dump of the converted keymap, read by loadkeys."""
    converted, _ = converted_keymap(name, charset, search)
    dump = run([program, "dumpkeys"], converted.text.encode())
    lost, lines = differences(
        kbd_tables_of(dump.encode("latin-1")), vt_tables_of(program, converted.text), actions, set()
    )
    if lines or lost:
        return different(lines, "", converted)
    return Verdict("same", "the dump has the same tables in loadkeys", {}, converted.entries)


def words():
    """Returns the words of the command line."""
    parser = argparse.ArgumentParser(description="Compares what loadkeys and vt make of keymaps.")
    parser.add_argument(
        "files", metavar="FILE", nargs="+", help="a keymap, its name in kbd's folders, or - for standard input"
    )
    parser.add_argument("--vt", metavar="PROGRAM", help="the program vt; without it that of VT, of the clone or of PATH")
    parser.add_argument("--back", action="store_true", help="compare the dump of the converted keymap")
    parser.add_argument("--charset", default="", metavar="C")
    parser.add_argument("--search", action="append", default=[], metavar="DIR")
    return parser.parse_args()


def main():
    asked = words()
    try:
        asked.vt = find("vt", asked.vt)
        actions = same_actions(asked.vt)
    except (Missing, ProgramError) as error:
        sys.stderr.write(f"{called()}: {error}\n")
        return 3
    found = set()
    for name in asked.files:
        try:
            verdict = (compare_back if asked.back else compare)(asked.vt, actions, name, asked.charset, asked.search)
        except (KeymapError, ProgramError, OSError) as error:
            verdict = Verdict("refused", f"not compared: {error}", {}, 0)
        found.add(verdict.word)
        print(f"{name}: {verdict.line}", flush=True)
    return 1 if "different" in found else 3 if "refused" in found else 0


if __name__ == "__main__":
    sys.exit(run_tool(main, 3))
