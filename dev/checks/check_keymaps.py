#!/usr/bin/env python3
"""Checks that keymaps of kbd come in: tools/keymap.py on examples/keymaps and on damaged keymaps.

usage: dev/checks/check_keymaps.py [--vt PROGRAM] [COUNT]

- Each line of examples/keymaps/typed.txt is typed with the converted keymap by `vt type`, and gives its text.
- For a converted keymap vt lists the tables that the converter compiled. The same holds of COUNT damaged keymaps
  (default: 500), made from fixed seeds, except for those that are refused with their file and line. The converter,
  run as a program, ends with status 0 or 1 on some of them, and no run prints a traceback.
- Each entry that is lost is listed, and --strict refuses the keymap; a file that can't be read is refused with a
  reason.
- docs/guide/bring-your-keymap.md shows what its commands print.
- tools/compare_keymap.py finds the files that a keymap includes, from any folder and by --search, if loadkeys is there.

The rest needs neither kbd nor its keymaps. Prints a line for each fault and last 'N passed, M failed'; status 1 if one fails.
"""
import argparse
import gzip
import itertools
import pathlib
import random
import re
import shutil
import subprocess
import sys
import tempfile

sys.dont_write_bytecode = True
sys.path.insert(0, str(pathlib.Path(__file__).resolve().parents[1]))

from repository import TOP  # noqa: E402: after the folder that it stands in
import check_pages  # noqa: E402
import compare_keymap  # noqa: E402
import kbd_tables  # noqa: E402
import kbd_text  # noqa: E402
import keymap  # noqa: E402
import vt_names  # noqa: E402
from kbd_text import KeymapError  # noqa: E402
from programs import find_for_check  # noqa: E402

FOLDER = TOP / "examples/keymaps"
TOOLS = TOP / "tools"
SECONDS = 60

# Pieces of keymaps to put where they don't belong.
PIECES = [
    b"keymaps 0-255\n", b"keymaps 3-1,\n", b"keycode 0 = a\n", b"keycode 300 = a b\n", b"keycode 30 =\n",
    b"include \"pc\"\n", b"include \"german.map\"\n", b"include \"\"\n", b"include \"\0\"\n", b"charset \"koi8-r\"\n",
    b"charset \"nix\"\n", b"charset \"zip\"\n", b"compose '\\345' 'a' to '\\377'\n",
    b"compose as usual for \"iso-8859-1\"\n", b"string F200 = \"\\400\\777\\9\"\n", b"alt_is_meta\n", b"U+D800",
    b"U+FFFF", b"U+1F600", b"+U+0451", b"+F5", b"0x0d22", b"0x0e04", b"08", b"99999999999999999999", b"Meta_Meta_a",
    b"Meta_eacute", b"capsshift keycode 3 = b\n", b"shiftl ctrlr keycode 3 = b\n", b"\\", b"\\\n", b"\"", b"'", b"'''",
    b"\xff", b"\0", b"\r\n", b"=", b"+", b"-", b",", b"!", b"\xc3\xa4", b"Hex_3 ", b"KP_MinPlus ", b"Brl_dot1 ",
    b"dead_macron ",
]  # fmt: skip

# Keymaps, and the entries that vt lists of the converted ones, as loadkeys makes them: table, keycode, kind, value.
MADE = [
    ("keymaps 0-1\nkeycode 3 = U+FDFC U+00FF\n", "0 3 1 65020, 1 3 1 255"),
    ('charset "iso-8859-2"\nkeymaps 0-2\nkeycode 3 = 0xb1 +aogonek +adiaeresis\n', "0 3 1 261, 1 3 1 261, 2 3 2 228"),
    ('charset "iso-8859-7"\nkeymaps 0-1\nkeycode 3 = mu 0xec\n', "0 3 1 956, 1 3 1 956"),
    ("keymaps 0-2\nkeycode 3 = 0x0d22 0x0305 dead_caron\n", "0 3 7 4, 1 3 5 5, 2 3 7 2"),
    ("keymaps 0-2\nkeycode 3 = AltL dead2_quotedbl Spawn_Console\n", "0 3 8 3, 1 3 7 4, 2 3 12 8"),
    ("keymaps 0,5,8,16\nkeycode 3 = a\n", "0 3 2 97, 5 3 1 1, 8 3 3 97, 16 3 2 97"),
    ("keymaps 0-1\nkeycode 3 = F1\nkeycode 3 = one two\n", "0 3 1 49, 1 3 1 50"),
    ("keymaps 0-1\nkeycode 4 = F1 F2\nkeycode 4 = F3\n", "0 4 4 2, 1 4 4 2"),
    ("keymaps 0,8\nkeycode 3 = Tab VoidSymbol\nalt_is_meta\nkeycode 4 = Tab\n", "0 3 1 9, 0 4 1 9, 8 4 3 9"),
    (
        "keycode 3 = one two\nshiftl keycode 3=F9\nkeycode 4 = F1\n",
        "0 3 1 49, 0 4 4 0, 1 3 1 50, 1 4 4 0, 16 3 4 8, 16 4 4 0",
    ),
]

# Keymaps of which something is lost: the text, and the parts of the line that lists it.
LOST = [
    ("keycode 30 = Hex_1\n", ["-:1: Hex_1: vt has decimal digits alone", "keycode 30, table 0"]),
    ("keymaps 0-1\n\nkeycode 30 = a dead_macron\n", ["-:3: dead_macron: ", "keycode 30, table 1"]),
    ("keycode 0 = a\nkeycode 1 = b\n", ["-:1: keycode 0: ", "keymap.py: 1 of 2 entries differ in vt: keycode 0 1\n"]),
    (
        "keymaps 0-1,300\nkeycode 1 = a b c\nkeycode 300 = d e f\n",
        ["4 of 6 entries differ in vt: ", "keycodes past 255 2", "tables past 255 2"],
    ),
    ("keycode 1 = KP_MinPlus\n", ["types ? for it"]),
    ("keycode 1 = 0x0e04\n", ["braille"]),
    ('keycode 1 = a\nstring F1 = "' + "x" * 256 + '"\n', ["a string of 256 bytes", "keymap.py: 1 string\n"]),
    (
        "keycode 1 = a\n" + "compose 'a' 'b' to 'c'\n" * 258,
        ["-:258: 'a' 'b' to 'c': pair 257, and vt takes 256", "keymap.py: 2 compose pairs\n"],
    ),
    ('charset "iso-8859-1"\nkeycode 1 = euro\n', ["-:2: euro: ", "another character"]),
]


def typed_lines():
    """Gives each line of typed.txt: its keymap, its scan bytes and its text."""
    for line in (FOLDER / "typed.txt").read_text(encoding="utf-8").splitlines():
        found = re.fullmatch(r"(\w+): ([0-9a-f ]+) = (.+)", line)
        if found:
            yield found.groups()


def typed(program, text, keys):
    """Returns the bytes that scan bytes type with a keymap."""
    table = f"keys = '{keys}'\nkeymap = '''\n{text}'''\n"
    printed = compare_keymap.run([program, "type"], table.encode())
    return bytes.fromhex("".join(re.findall(r"bytes ([0-9a-f]+)", printed)))


def example_faults(program):
    """Gives a fault, or None, for each line of typed.txt and each keymap beside it."""
    texts = {}
    for path in sorted(FOLDER.glob("*.map")):
        converted = keymap.convert(str(path))
        texts[path.stem] = converted.text
        yield f"{path.name}: something of it is lost" if converted.losses or converted.notes else None
        yield f"{path.name}: {why}" if (why := listing_fault(program, converted.text, path, None)) else None
    for name, keys, wanted in typed_lines():
        found = typed(program, texts[name], keys)
        same = found == wanted.encode()
        found = found.decode("utf-8", "replace")
        yield None if same else f"typed.txt: {name}: {keys}: types {found!r}, and not {wanted!r}"


def listing_fault(program, made, path, text):
    """Returns how vt's tables of a converted keymap differ from those that were compiled, or None."""
    converter = keymap.Converter(kbd_tables.compiled(kbd_text.lines_of(path, [], text)))
    wanted = {
        table: {code: action for code, action in entries.items() if action != keymap.HOLE}
        for table, entries in converter.maps().items()
    }
    try:
        found = compare_keymap.vt_tables_of(program, made)
    except compare_keymap.ProgramError as error:
        return f"vt doesn't take what was made of it: {error}"
    if found.maps != wanted:
        return "vt has other tables than the converter"
    strings = {
        key: string for key, (string, *_) in converter.tables.strings.items() if 0 < len(string) <= keymap.STRING
    }
    if found.strings != strings:
        return "vt has other strings than the converter"
    pairs = [pair[:3] for pair in converter.tables.pairs if not any(0xD800 <= code < 0xE000 for code in pair[:3])]
    return None if found.pairs == pairs[: keymap.PAIRS] else "vt has other pairs than the converter"


def damaged(rng, text):
    """Returns a text with one to five of its parts taken out, doubled, exchanged or changed."""
    text = bytearray(text)
    for _ in range(rng.randint(1, 5)):
        at, size = rng.randint(0, len(text)), rng.choice([1, 1, 2, 8, 40])
        how = rng.randrange(6)
        if how == 0:
            del text[at : at + size]
        elif how == 1:
            text[at:at] = text[at : at + size]
        elif how in (2, 3):
            text[at:at] = rng.choice(PIECES)
        elif how == 4 and at < len(text):
            text[at] = rng.randrange(256)
        else:
            lines = text.split(b"\n")
            rng.shuffle(lines)
            text = bytearray(b"\n".join(lines[: rng.randint(1, len(lines))]))
    return bytes(text)


def damage_faults(program, count):
    """Gives a fault, or None, for each damaged keymap."""
    seeds = [path.read_bytes() for path in sorted(FOLDER.glob("*.map")) + [FOLDER / "pc.inc"]]
    for i in range(count):
        rng = random.Random(f"keymap {i}")
        text = damaged(rng, rng.choice(seeds)).decode("latin-1")
        path = FOLDER / f"damaged {i}"
        try:
            lines = list(kbd_text.lines_of(path, [], text))
            converter = keymap.Converter(kbd_tables.compiled(lines))
            made = converter.text(path.name)
        except KeymapError as error:
            yield None if re.match(r"[^\n]+:( |\d+: ).", str(error)) else f"damaged {i}: refused as {str(error)!r}"
            continue
        why = listing_fault(program, made, path, text)
        yield f"damaged {i}: {why}" if why else None


def run_keymap(words, given=b""):
    """Runs tools/keymap.py as a program."""
    return subprocess.run(
        [sys.executable, TOOLS / "keymap.py", *words], input=given, capture_output=True, timeout=SECONDS, check=False
    )


def program_faults(count):
    """Gives a fault, or None, for each run of the converter as a program on a damaged keymap."""
    seed = (FOLDER / "german.map").read_bytes()
    for i in range(count):
        ran = run_keymap(["--search", FOLDER, "-"], damaged(random.Random(f"program {i}"), seed))
        is_named = ran.returncode == 0 or ran.returncode == 1 and ran.stderr and not ran.stdout
        is_right = is_named and b"Traceback" not in ran.stderr
        yield None if is_right else f"program {i}: ended with {ran.returncode}: {ran.stderr[-200:]!r}"


def made_faults(program):
    """Gives a fault, or None, for each keymap that has to give certain entries."""
    for text, wanted in MADE:
        printed = compare_keymap.run([program, "keys"], keymap.convert("text", text=text).text.encode())
        found = ", ".join(line.removeprefix("map ") for line in printed.splitlines() if line.startswith("map "))
        yield None if found == wanted else f"{text!r}: made {found}, and not {wanted}"


def lost_faults():
    """Gives a fault, or None, for each keymap of which something is lost."""
    for text, parts in LOST:
        ran, strict = run_keymap(["-"], text.encode()), run_keymap(["--strict", "-"], text.encode())
        told = ran.stderr.decode()
        missing = [part for part in parts if part not in told]
        yield f"{text[:40]!r}: no {missing} in {told!r}" if missing or ran.returncode else None
        yield None if strict.returncode == 1 and not strict.stdout else f"{text[:40]!r}: --strict takes it"


def refused_faults():
    """Gives a fault, or None, for inputs that can't be read, and for ways to give one."""
    with tempfile.TemporaryDirectory() as folder:
        place = pathlib.Path(folder)
        (place / "loop.map").write_text('include "loop.map"\n')
        (place / "torn.map.gz").write_bytes(gzip.compress(b"keycode 30 = a\n" * 50)[:-9])
        (place / "parts").mkdir()
        (place / "parts/letters.inc.gz").write_bytes(gzip.compress(b"keycode 30 = a\n"))
        (place / "whole.map").write_text('keymaps 0\ninclude "letters"\n')
        (place / "parts/zork-latin1.kmap").write_text("keycode 30 = a\n")
        for words, part in [
            (["--search", place / "parts", "zork-latin"], "is it zork-latin1"),
            (["--search", place / "parts", "qqqqqqqq"], "none with a name like it"),
            ([place / "loop.map"], "deep"),
            ([place / "torn.map.gz"], "can't be read"),
            ([place / "none.map"], "there is no such keymap"),
            ([place], "can't be read: it is a folder"),
            ([place / "whole.map"], 'include "letters"'),
            (["--charset", "nix", place / "whole.map"], "no such character set"),
        ]:
            ran = run_keymap(words)
            is_refused = ran.returncode == 1 and part in ran.stderr.decode()
            yield None if is_refused else f"{words}: {ran.returncode}: {ran.stderr!r}"
        ran = run_keymap(["--search", place / "parts", place / "whole.map"])
        yield None if ran.returncode == 0 and b"keycode 30 = +a" in ran.stdout else f"--search: {ran.stderr!r}"
        ran = run_keymap(["--usual", "-"], b"keycode 30 = a\n")
        yield None if ran.stdout.count(
            b"compose "
        ) == 68 and b"string F1 = " in ran.stdout else f"--usual: {ran.stderr!r}"
        ran = run_keymap(["--charset", "iso-8859-2", "-"], b"keycode 30 = 0xb1\ncompose ',' 'a' to '\\261'\n")
        yield None if ran.stdout.count(b"U+0105") == 2 else f"--charset: {ran.stdout!r}"


def name_faults():
    """Gives a fault, or None, for each name that kbd and vt both have: the converter has to make vt's action of it."""
    compiler = kbd_tables.Compiler()
    for name, action in vt_names.ACTIONS.items():
        number = compiler.named(name.lstrip("+"))
        if number is None:
            yield f"{name}: kbd's names don't have it"
        elif not name.startswith("+"):
            yield None if keymap.action_of(
                number
            ) == action else f"{name}: made {keymap.action_of(number)}, and it is {action}"


def compared_faults(program):
    """Gives a fault, or None, for keymaps that include others, compared in their folder, from elsewhere, and as a text."""
    if shutil.which("loadkeys") is None:
        print("skipped: keymaps compared with loadkeys: loadkeys isn't installed")
        return
    own = b'include "german.map"\nkeycode 58 = Escape\n'
    with tempfile.TemporaryDirectory() as folder:
        here, other = (pathlib.Path(folder, name) for name in ("here", "other"))
        for place in (here, other):
            place.mkdir()
            (place / "own.map").write_bytes(own)
        for name in ("german.map", "pc.inc"):
            shutil.copy(FOLDER / name, here)
        for where, words, given, status in [
            (here, ["german.map"], b"", 0),
            (here, ["./own.map"], b"", 0),
            (here, ["--back", "own.map"], b"", 0),
            (here, ["-"], own, 0),
            (other, ["../here/own.map"], b"", 0),
            (other, ["own.map"], b"", 3),
            (other, ["--search", "../here", "own.map"], b"", 0),
            (other, ["--search", here, "-"], own, 0),
        ]:
            words = [sys.executable, TOOLS / "compare_keymap.py", "--vt", pathlib.Path(program).absolute(), *words]
            ran = subprocess.run(words, input=given, cwd=where, capture_output=True, timeout=SECONDS, check=False)
            said = ran.stdout.decode()
            wanted = ": same\n" if status == 0 else 'include "german.map": there is no such file'
            is_so = ran.returncode == status and (wanted in said or "--back" in words and "the same tables" in said)
            yield None if is_so else f"compare_keymap.py in {where.name}: {words[4:]}: {ran.returncode}: {said!r}"


def page_faults():
    """Gives a fault for each command of the guide that prints something else."""
    yield None
    yield from check_pages.page_faults(TOP / "docs/guide/bring-your-keymap.md")


def main():
    parser = argparse.ArgumentParser(description="Checks that keymaps of kbd come in.")
    parser.add_argument("count", nargs="?", type=int, default=500, help="how many damaged keymaps (default: 500)")
    parser.add_argument("--vt", metavar="PROGRAM", help="the program vt; the one that tools/programs.py finds without it")
    asked = parser.parse_args()
    asked.vt = find_for_check("vt", asked.vt)
    passed = failed = 0
    groups = [
        example_faults(asked.vt),
        name_faults(),
        made_faults(asked.vt),
        lost_faults(),
        refused_faults(),
        page_faults(),
        compared_faults(asked.vt),
    ]
    groups += [program_faults(asked.count // 20), damage_faults(asked.vt, asked.count)]
    try:
        for fault in itertools.chain.from_iterable(groups):
            passed, failed = passed + (not fault), failed + bool(fault)
            if fault:
                print(fault)
    except (KeymapError, compare_keymap.ProgramError, OSError, subprocess.TimeoutExpired) as error:
        print(f"the check ended early: {error}")
        failed += 1
    print(f"{passed} passed, {failed} failed")
    return 1 if failed or not passed else 0


if __name__ == "__main__":
    sys.exit(main())
