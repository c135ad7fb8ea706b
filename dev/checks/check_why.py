#!/usr/bin/env python3
"""Checks tools/why.py: what it prints for inputs that vt refuses, and for damaged sessions.

usage: dev/checks/check_why.py [--vt PROGRAM] [COUNT]

Each input of EXPLAINED is given to vt, and what vt writes on standard error to why.py, which has to print these parts.
Every code of a keymap, a table or a journal, and every reason, has such an input. For each of COUNT damaged sessions
(default: 300), made from fixed seeds, that vt refuses as a document that Python's reader of TOML takes, why.py finds
what the code and its two numbers name. Prints a line for each fault and last 'N passed, M failed'; status 1 if one
fails, and 2 if the program isn't built.
"""
import argparse
import itertools
import pathlib
import random
import re
import subprocess
import sys
import tempfile

sys.dont_write_bytecode = True
sys.path.insert(0, str(pathlib.Path(__file__).resolve().parents[1]))

from repository import TOP  # noqa: E402: after the folder that it stands in
import why  # noqa: E402
from programs import find_for_check  # noqa: E402

SECONDS = 60
PROCESS = "[[process]]\nhome = 1\n"
OPENS = f"rows = 2\n{PROCESS}script = ['open 1', 'activate 0 70']\n"
JOURNAL = "%journal 2\nk0 0 exit = ok\np1 0 open 1 = num 0\np1 1 signals = sigs 0\n"
# A session in which process 1 asks for console 2 and console 1 has no owner: one switch, in entry 3.
SWITCHES = f"rows = 2\ncols = 5\nconsoles = [1, 2]\n{PROCESS}script = ['open 1', 'activate 0 2']\n"

# The command, its input, and the parts of what why.py prints.
EXPLAINED = [
    ("keys", "keymaps 0-2\n\tkeycode 31 = +aogonek\n",
        ["in:2:15: an unknown symbol", "\t             ^^^^^^^^", "U+0105", "+U+0105"]),
    ("keys", "keycode 30 = Hex_1\n", ["VoidSymbol", "Ascii_0"]),
    ("keys", "keycode 30 = pound\n", ["sterling"]),
    ("keys", "keycode 30 = 0x0305\n", ["KP_5"]),
    ("keys", "keycode 30 = escape\n", ["Is it Escape?"]),
    ("keys", "keycode 30 = \u00e4\n", ["U+00E4"]),
    ("keys", "keycode 30=a\n", ["(code 1)", "30 = a"]),
    ("keys", "keycode 0 = a\n", ["(code 3)", "No key has keycode 0"]),
    ("keys", "keycode 30 =\n", ["(code 4)"]),
    ("keys", "keycode 30 = a\nkeymaps 0\n", ["(code 5)", "put all keymaps lines in front"]),
    ("keys", 'string F1 = "a\n', ["(code 6)"]),
    ("keys", 'include "pc"\n', ["(code 7)", "tools/keymap.py"]),
    ("keys", "alt_is_meta a\n", ["(code 9)"]),
    ("keys", "compose 'a' 'b' to 'c'\n" * 257, ["in:257:1: ", "(code 10)"]),
    ("keys", 'string F1 = "' + "x" * 256 + '"\n', ["(code 11)"]),
    ("keys", "capsshift keycode 3 = a\n", ["vt has eight"]),
    ("play", "rows = 2\nrows = 3\n", ["(code 20)", "    rows = 3"]),
    ("play", "rowz = 3\n", ["in:1:1: ", "(code 21 at 0:0", "    rowz = 3\n    ^^^^\n", "is it rows"]),
    ("play", f"{PROCESS}[[process]]\nhom = 1\n", ["in:4:1: ", "process 2", "is it home?"]),
    ("check", f"rowz = 3\n{JOURNAL}%end 3 192\n", ["in:1:1: ", "is it rows"]),
    ("type", "mode = 1\nrows = 2\n", ["(code 21", "mode is a key of tables for `vt type`"]),
    ("play", "rows = 'a'\n", ["in:1:1: ", "(code 22 at 0:1", "The key rows has to be an integer from 1 to 255."]),
    ("play", f"turns = ['p1 once']\n{PROCESS}", ["(code 22 at 0:10", "tools/turns.py"]),
    ("play", f"{PROCESS}script = 'open 1'\n", ["in:3:1: ", "(code 22 at 1:3: process 1", "an array of at most 10,240"]),
    ("type", "mode = 9\n", ["(code 23 at 0:1", "The key mode has to be an integer from 0 to 4."]),
    ("play", "consoles = [1, 1]\n", ["(code 23 at 0:3", "none twice"]),
    ("play", "keymap = '''\nkeycode 30 = escape\n'''\n", ["(code 24 at 1:14)", "             ^^^^^^", "Is it Escape?"]),
    ("play", f"{PROCESS}script = ['open 1', 'opne 2']\n",
        ["in:3:21: ", "(code 25 at 1:2: process 1, item 2 of script)", "\n" + " " * 24 + "^^^^^^^^\n", "is it `open N`"]),
    (
        "play", f"{PROCESS}script = ['getkbtype 0']\n",
        ["There is no call getkbtype: docs/reference/journal.md has the calls."],
    ),
    ("play", f"{PROCESS}script = ['VT_ACTIVATE 0 2']\n", ["VT_ACTIVATE is the call `activate FD N`."]),
    ("play", f"{PROCESS}script = ['kdgkbtype 0']\n", ["vt has no call for KDGKBTYPE"]),
    ("play", f"{PROCESS}script = ['open 1 2']\n", ["The call is `open N`. Words after its name: 1; here: 2."]),
    ("play", f"{PROCESS}script = ['open 01']\n", ["'01' is no N of `open N`: a number up to 65,535"]),
    ("play", f"{PROCESS}script = ['write 0 6A']\n", ["'6A' is no B of `write FD B`: two lower-case"]),
    ("play", f"{PROCESS}script = ['say 0']\n", ["`say FD TEXT`"]),
    ("play", f"{PROCESS}script = ['signals']\n", ["signals is no item of a script: a process makes it after each"]),
    ("play", f"{PROCESS}hooks = ['10 dips 0 1']\n", ["in:3:10: ", "(code 26 at 1:1", "The hook is `10 disp FD A`"]),
    ("play", f"{PROCESS}hooks = ['10 leave', '10 leave']\n", ["(code 26 at 1:2", "Signal 10 has a hook already."]),
    ("play", f"{PROCESS}hooks = ['9 leave']\n", ["a number from 1 to 64 except 9"]),
    ("play", "keys = '1e 9'\n", ["in:1:12: ", "(code 27 at 0:2: item 2 of keys)", "'9' is no byte"]),
    ("play", f"turns = [0, 2]\n{PROCESS}", ["(code 28 at 0:2", "Item 2 is 2. The session has the callers 0, 1."]),
    ("type", f"keys = '{'1e ' * 100_000}1e'\n", ["(code 29 at 0:4", "at most 100,000 scan bytes"]),
    ("play", "more_keys = ['1e', '1e zz']\n", ["in:1:24: ", "(code 30 at 2:2: item 2 of text 2 of more_keys)"]),
    ("upgrade", "%journal 3\n", ["(code 40)"]),
    ("upgrade", "%journal 1\n0 0 exit = OK\n", ["in:2: ", "(code 41)", "    0 0 exit = OK\n"]),
    ("upgrade", "%journal 1\n0 0 exit = ok\n", ["(code 42)"]),
    ("upgrade", "%journal 1\n%end 0 0\nx\n", ["(code 43)"]),
    ("accept", SWITCHES + JOURNAL + "p1 2 activate 0 2 = ok\np1 3 signals = sigs 0\np1 4 exit = ok\n%end 6 384\n"
        "%explain 1\n3 0 1 2 freed\n", ["(code 45)"]),
    ("check", f"{OPENS}%journal 2\np2 0 exit = ok\n%end 1 64\n", ["(reason 1)", "    p2 0 exit = ok\n"]),
    ("check", f"{OPENS}{JOURNAL}p1 2 activate 0 1 = ok\n%end 4 256\n",
        ["at entry 3", "(reason 2)", "    p1 2 activate 0 1 = ok\n", "The next call of p1 is `activate 0 70`."]),
    ("check", f"{OPENS}%journal 2\nk0 0 exit = ok\nk0 1 exit = ok\n%end 2 128\n",
        ["(reason 2)", "k0 makes no call there"]),
    ("check", f"{OPENS}{JOURNAL}p1 2 activate 0 70 = ok\n%end 4 256\n",
        ["(reason 3)", "The machine gives `err 6` (ENXIO), and the journal has `ok`."]),
    ("check", f"turns = [1]\n{OPENS}{JOURNAL}p1 2 activate 0 70 = ok\n%end 4 256\n", ["The machine gives `err 6`"]),
    ("check", "rows = 2\n%journal 1\n0 0 exit = num 1\n%end 1 64\n", ["The machine gives `ok`"]),
    ("check", f"{OPENS}{JOURNAL}%end 3 192\n", ["(reason 4)"]),
    ("check", "rows = 2\n%journal 2\nk0 0 exit = ok\n%end 2 64\n", ["(reason 5)"]),
    ("accept", SWITCHES + JOURNAL + "p1 2 activate 0 2 = ok\np1 3 signals = sigs 0\np1 4 exit = ok\n%end 6 384\n"
        "%explain 0\n", ["(reason 6)"]),
]  # fmt: skip
# Pieces of sessions to put where they don't belong.
PIECES = [
    "'open 01'", "'opne 1'", "'say 0'", "'exit'", "'10 leave'", "'9 nothing'", "300", "-1", "true", "'zz'", "''", " ",
    ",", "[[process]]\n", "home = 9\n", "rows = 0\n", "hom = 1\n", "keys = '1e  9e'\n", "turns = [0, 70]\n",
    "consoles = []\n", "more_keys = ['1e', 'x']\n", "'", '"', "[", "]", "#", "\n",
]  # fmt: skip


def run(command, given=b""):
    return subprocess.run(command, input=given, capture_output=True, timeout=SECONDS, check=False)


def explained_faults(program):
    """Gives a fault, or None, for each input of EXPLAINED."""
    with tempfile.TemporaryDirectory() as folder:
        path = pathlib.Path(folder) / "in"
        for command, text, parts in EXPLAINED:
            path.write_text(text, encoding="utf-8")
            err = run([program, command], text.encode()).stderr
            ran = run([sys.executable, TOP / "tools/why.py", "--vt", program, path], err)
            told = ran.stdout.decode()
            missing = [part for part in parts if part not in told]
            shown = f"{command} {text[-60:]!r}: no {missing} in {told!r} {ran.stderr!r}"
            yield shown if missing or ran.returncode else None


def coverage_faults():
    """Gives a fault, or None, for each code and each reason without an input of EXPLAINED."""
    named = " ".join(part for _, _, parts in EXPLAINED for part in parts)
    # Texts included more than eight deep, over 1,000 of them, and over 1,000,000 entries make large inputs. The programs
    # have no bound on the bytes of included texts, which is code 13.
    for code in sorted({*why.KEYMAP_CODES, *why.TABLE_CODES, *why.JOURNAL_CODES} - {2, 8, 12, 13, 44}):
        yield None if re.search(rf"\(code {code}\b", named) else f"code {code} has no input"
    for reason in why.REASONS:
        yield None if f"(reason {reason})" in named else f"reason {reason} has no input"


def damaged(rng, text):
    """Returns a session with one to three of its parts taken out, or put where they don't belong."""
    for _ in range(rng.randint(1, 3)):
        at, size = rng.randint(0, len(text)), rng.choice([1, 2, 8])
        text = text[:at] + (rng.choice(PIECES) if rng.randrange(3) else "") + text[at + rng.choice([0, size]) :]
    return text


def damage_faults(program, count):
    """Gives a fault, or None, for each damaged session that is refused as a table."""
    seeds = [path.read_text(encoding="utf-8") for path in sorted((TOP / "examples/switches").glob("*.toml"))]
    for i in range(count):
        rng = random.Random(f"session {i}")
        text = damaged(rng, rng.choice(seeds))
        err = run([program, "play"], text.encode()).stderr.decode()
        if not re.match(r"vt: refused (?!20 |24 )", err):
            continue
        told = list(why.explained(program, "in", text.encode(), err))
        is_found = told and not any("is it what vt read?" in line for line in told)
        yield None if is_found or not is_read(text) else f"session {i}: {err.strip()}: {told}"


def is_read(text):
    """Whether Python's reader takes a document."""
    try:
        why.tomllib.loads(text)
    except ValueError:
        return False
    return True


def main():
    parser = argparse.ArgumentParser(description="Checks tools/why.py.")
    parser.add_argument("count", nargs="?", type=int, default=300, help="how many damaged sessions (default: 300)")
    parser.add_argument("--vt", metavar="PROGRAM", help="the program vt")
    asked = parser.parse_args()
    program = find_for_check("vt", asked.vt)
    results = list(itertools.chain(explained_faults(program), coverage_faults(), damage_faults(program, asked.count)))
    faults = [it for it in results if it]
    for fault in faults:
        print(fault)
    print(f"{len(results) - len(faults)} passed, {len(faults)} failed")
    return 1 if faults else 0


if __name__ == "__main__":
    sys.exit(main())
