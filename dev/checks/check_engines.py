#!/usr/bin/env python3
"""Checks engines.py and the recording of a Linux console in the conformance corpus.

usage: check_engines.py [--kernel FILE]

A made adapter answers some cases as the corpus wants them, except for five: the table, `--page`, the exit status, the
line that counts the answers like those of the Linux console, and the page in HTML have to show these. A slow adapter
hangs by `--seconds`. Lines that aren't of the form of a case are refused with their place. Cells, rows and attribute
bytes are those of vcs(4). The figures of the corpus's README and of the guide are those of the corpus. A made machine
in place of qemu shows a screen, refuses, ends and answers nonsense. If a kernel is given (and qemu-system-x86_64 is
installed), its console is asked in 60 cases, and has to show what is recorded.

Prints a line a kind and last 'N passed, M failed'; ends with status 1 if one fails.
"""
import argparse
import json
import os
import pathlib
import random
import re
import shutil
import subprocess
import sys
import tempfile

sys.dont_write_bytecode = True
sys.path.insert(0, str(pathlib.Path(__file__).resolve().parents[1]))

import repository  # noqa: E402,F401: it has the folders of the modules below
from conformance import kernel, vcs, words  # noqa: E402
from conformance.forms import CORPUS, RECORDED_ON, TOP, Case, Fault, read_corpus  # noqa: E402
from conformance.sequences import MACHINE_WIDE  # noqa: E402

ENGINES = TOP / "tools/engines.py"
GUIDE = TOP / "docs/guide/write-a-terminal.md"
SECONDS, ASKED = 120, 60

# The made adapter: the answers of its file, by the text of a case.
ADAPTER = """
import json, sys, time
answers = json.load(open(sys.argv[1]))
for line in sys.stdin:
    case = json.loads(line)
    key = "".join(case["pieces"])
    time.sleep(float(sys.argv[2]) if key == "slow" else 0)
    print(json.dumps({"case": case["case"], **answers[key]}), flush=True)
"""

# The made machine: what it answers to a case of one byte; at FF it ends. The first answer is /dev/vcsa with two cells,
# a letter and a blank, and the cursor in the second; /dev/vcsu; and a report.
MACHINE = """
import sys
answers = {"61": "0102010061072007 6100000020000000 1b5b306e", "01": "refuses TIOCSWINSZ: no", "02": "what"}
print("kernel 6.1.0-made #1", flush=True)
for line in sys.stdin:
    word, *words = line.split()
    if words[-1] == "ff":
        break
    print(f"map {len(words) // 2}" if word == "map" else answers[words[-1]], flush=True)
"""
TEXTS = {"shown": "a", "refused": "\x01", "nonsense": "\x02", "ended": "\xff"}

# A cell's character by that of /dev/vcsu, its glyph, the wanted character, and this font map: A, a line, U+FFFD.
MAP = {0x41: 0x41, 0x2500: 0xC4, 0xFFFD: 0x01}
CELLS = [
    ("the glyph of its character", (0x41, 0x41, 0x20), 0x41),
    ("a line that a table made of q", (0x71, 0xC4, 0x2500), 0x2500),
    ("a byte straight to the font", (0xE9, 0xE9, 0xF0E9), 0xF0E9),
    ("a byte without a glyph of its own", (0xC0, 0xC0, 0xC0), 0xC0),
    ("a character without a glyph", (0x20AC, 0x01, 0x20AC), 0x20AC),
    ("a glyph of no character", (0x41, 0x80, 0x41), 0xF080),
]
ROWS = [
    ("a wide character and its blank", [0x4E2D, 0x20, 0x61], "中a"),
    ("a wide character without its blank", [0x4E2D, 0x61], "中\ufffea"),
    ("a wide character in the last column", [0x61, 0x4E2D], "a中\ufffe"),
    ("blanks at the end", [0x61, 0x20, 0x20], "a"),
]
# Attribute bytes of a VGA: blue 1, green 2, red 4; bold 8; the background four bits higher; blink in the highest bit.
PENS = [
    (0x07, "white on black"), (0x1E, "yellow on blue, bold"), (0x84, "red on black, blink"),
    (0xBB, "cyan on cyan, bold, blink"),
]  # fmt: skip

WHOLE = {
    "name": "a/b", "source": "page", "paragraph": "console_codes(4), a", "rows": 1, "columns": 2, "bytes": "a",
    "after": {"text": ["a"], "cursor": [0, 1], "attributes": [], "reports": "", "bells": 0}, "linux": {"text": ["b"]},
}  # fmt: skip
# Cases that are refused: what is other than in the whole one, and what the message has.
REFUSED = [
    ({"source": "own"}, '"source" has to be "page"'),
    ({"source": "page", "paragraph": "this project's own (a), with b"}, '"source" has to be "own"'),
    ({"source": None}, '"source" has to be "page"'),
    ({"linux": None}, '"linux" has to be an object'),
    ({"linux": {"bells": 1}}, '"linux" has to be an object with some of text, cursor, attributes, reports'),
    ({"linux": {"text": ["a", "b"]}}, '"text" has to be 1 strings'),
    ({"linux": {"cursor": [0, 2]}}, '"cursor" has to be'),
    ({"linus": {}}, '"linus" is no key of a case'),
]


def run(*given, path=None):
    """Runs engines.py: its status, and what it prints."""
    env = {**os.environ, "PATH": path} if path else None
    words_of_run = [sys.executable, ENGINES, *map(str, given)]
    ran = subprocess.run(words_of_run, capture_output=True, text=True, timeout=SECONDS, env=env, check=False)
    return ran.returncode, ran.stdout + ran.stderr


def wanted(what, shown, expected):
    """Why something isn't as expected, or None."""
    return None if shown == expected else f"{what}: wanted {expected!r}, there is {shown!r}"


def holds(what, text, part):
    """Why a text doesn't have this part, or None."""
    return None if part in text else f"{what}: wanted {part!r} in {text[-400:]!r}"


def looked_up():
    """Cells, rows and pens."""
    for what, (code, glyph, character), expected in CELLS:
        yield wanted(what, vcs.character_of(code, glyph, character, MAP), expected)
    for what, cells, expected in ROWS:
        yield wanted(what, vcs.row_of(cells), expected)
    for byte, expected in PENS:
        yield wanted(f"the attribute byte {byte:02X}", words.pen_in_words(byte), expected)
    case = Case("a", "b", 2, 4, b"")
    told = list(words.pens_in_words(case, [[1, 1, 2, 0x1E]], [[1, 2, 2, 0x1E]]))
    there = "wanted white on black; there is yellow on blue, bold"
    away = "wanted yellow on blue, bold; there is white on black"
    expected = [f"attributes: row 1, column 1: {away}", f"attributes: row 1, column 3: {there}"]
    yield wanted("runs in words", told, expected)


def of_files():
    """The answers that the files of a console make: with a font map, without one, and without characters."""
    case = Case("a", "b", 1, 3, b"", after={"text": ["─中"]})
    shown = bytes([1, 3, 2, 0, 0xC4, 0x1E, 0x01, 0x07, 0x20, 0x07])
    codes = b"".join(code.to_bytes(4, "little") for code in (0x71, 0x4E2D, 0x20))
    rest = {"cursor": [0, 2], "attributes": [[0, 0, 1, 0x1E]], "reports": "\x1b[0n"}
    for what, its_codes, glyphs, text in (
        ("with a font map", codes, MAP, {"text": ["─中"]}), ("without a font map", codes, None, {"text": ["q中"]}),
        ("without characters", None, None, {}),
    ):  # fmt: skip
        yield wanted(what, vcs.answer_of(case, shown, its_codes, b"\x1b[0n", glyphs), {**text, **rest})


def corpus():
    """The recording has differences alone, none of cases that change the machine, and the README has its figures."""
    cases = read_corpus([])
    text = " ".join((CORPUS / "README.md").read_text(encoding="utf-8").split())
    same = [case.name for case in cases for part, value in (case.linux or {}).items() if value == case.after[part]]
    yield wanted("parts of the recording that don't differ", same, [])
    changing = [case.name for case in cases if MACHINE_WIDE.search(case.data) and case.linux is not None]
    yield wanted("recorded cases that change the machine", changing, [])
    by_page = [case for case in cases if case.source == "page"]
    asked = [case for case in cases if case.linux is not None]
    other = [case for case in asked if case.linux]
    other_by_page = [case for case in other if case.source == "page"]
    yield holds("cases of a page", text, f"decides, as in {len(by_page):,} cases")
    yield holds("cases of its own", text, f"decides too, as in {len(cases) - len(by_page):,} |")
    counts = f"in {len(asked):,} cases, and shows {len(other)} of them otherwise: {len(other_by_page)} whose source is"
    yield holds("recorded cases", text, counts)
    yield holds("cases that weren't asked", text, f"{len(cases) - len(asked)} cases were left out")
    yield wanted("cases of a page that differ", {case.group for case in other_by_page}, {"TBC"})
    yield holds("the kernel", text, RECORDED_ON.read_text(encoding="utf-8").split(" #")[0])
    alike = [len([case for case in asked if case.source == source and not case.linux]) for source in ("page", "own")]
    guide = " ".join(GUIDE.read_text(encoding="utf-8").split())
    counts = f"does as `vt` in {sum(alike):,}: in {alike[0]:,} of a page and in {alike[1]:,} with an own rule"
    yield holds("cases in which Linux does as vt", guide, counts)


def without(after, part):
    """An answer that leaves a part out."""
    return {name: value for name, value in after.items() if name != part}


def chosen_cases():
    """Five cases that aren't answered as they have to be, and forty that are, half of them of a page."""
    cases = [case for case in read_corpus([]) if case.rows == 6 and not case.cuts]
    found = lambda source, *parts: [it for it in cases if it.source == source and set(it.linux or {}) == set(parts)]
    planted = [found("page")[0], found("own")[0], found("own", "text", "cursor")[0], *found("own", "text")[:2]]
    others = [[it for it in found(source) if it.after["attributes"]][1:21] for source in ("page", "own")]
    return planted, [*others[0], *others[1]]


def answers_of(planted, others):
    """What the made adapter answers to the five, and no attributes to one of the others."""
    page, own, linux, third, moved = planted
    answers = {case.data.decode("latin-1"): case.after for case in others}
    answers[others[0].data.decode("latin-1")] = without(others[0].after, "attributes")
    red = [[0, 0, 1, 0x84]]
    told = [
        (page, {**page.after, "attributes": red}), (own, {**own.after, "cursor": [5, 11]}),
        (moved, {**moved.after, "cursor": [5, 11]}),
        (linux, {**linux.after, **{part: linux.linux[part] for part in ("text", "cursor")}}),
        (third, {**third.after, "text": ["third", "", "", "", "", ""]}),
    ]  # fmt: skip
    return answers | {case.data.decode("latin-1"): answer for case, answer in told}


def counted():
    """The table, the page and the status for the made adapter."""
    planted, others = chosen_cases()
    with tempfile.TemporaryDirectory() as folder:
        at = pathlib.Path(folder)
        (at / "adapter.py").write_text(ADAPTER, encoding="utf-8")
        (at / "answers").write_text(json.dumps(answers_of(planted, others)), encoding="utf-8")
        lines = "".join(case.line() + "\n" for case in [*planted, *others])
        (at / "cases").write_text(lines, encoding="utf-8")
        command = f"{sys.executable} {at}/adapter.py {at}/answers 0"
        given = ["--command", command, "--corpus", at / "cases"]
        status, printed = run(*given, "--html", at / "page.html")
        page = (at / "page.html").read_text(encoding="utf-8") if (at / "page.html").exists() else ""
        yield wanted("the status", status, 1)
        yield wanted("all", re.findall("(?m)^all +(.*)$", printed), ["39    1    2     2   1"])
        yield holds("as Linux", printed, "as the Linux console: 1 of the 2 cases in linux")
        yield wanted("the sections", page.count("<section>"), 5)
        yield wanted("the screens", page.count("<figure>"), 2 + 2 + 3 + 3 + 3)
        yield holds("attributes in words", page, "row 0, column 0: wanted white on black; there is red on black, blink")
        yield holds("a screen in colours", page, '<mark><span class="f4 b0 k">')
        yield holds("a style of it", page, ".f4 { color: #a00 }")
        status, printed = run(*given, "--page")
        yield wanted("the status by pages", status, 1)
        yield wanted("all by pages", re.findall("(?m)^all +(.*)$", printed), ["19    1   1"])
        status, printed = run(*given, "--only", others[1].name)
        yield wanted("the status of a case that is the same", status, 0)
        status, printed = run("linux", "--corpus", at / "cases", "--only", planted[2].name)
        yield holds("the recorded console", printed, "as the Linux console: 1 of the 1 cases in linux")


def hanging():
    """A slow adapter, with a short limit and with a long one."""
    slow = {**WHOLE, "name": "slow/a", "bytes": "slow", "linux": {}}
    with tempfile.TemporaryDirectory() as folder:
        at = pathlib.Path(folder)
        (at / "adapter.py").write_text(ADAPTER, encoding="utf-8")
        (at / "answers").write_text(json.dumps({"slow": slow["after"]}), encoding="utf-8")
        (at / "cases").write_text(json.dumps(slow) + "\n", encoding="utf-8")
        given = ["--command", f"{sys.executable} {at}/adapter.py {at}/answers 3", "--corpus", at / "cases"]
        status, printed = run(*given, "--seconds", "0.5")
        yield wanted("the status of one that hangs", status, 1)
        yield holds("a short limit", printed, "hangs: no answer within 0.5 s: slow/a")
        yield wanted("a long limit", run(*given, "--seconds", "60")[0], 0)
    for seconds in ("0", "-1", "nan", "9999"):
        status, printed = run("linux", f"--seconds={seconds}")
        yield wanted(f"--seconds {seconds}", (status, printed.startswith(f"engines.py: --seconds {seconds}: ")), (2, True))


def refused():
    """Cases that aren't of the form."""
    for other, message in REFUSED:
        with tempfile.TemporaryDirectory() as folder:
            path = pathlib.Path(folder) / "cases"
            made = {key: value for key, value in {**WHOLE, **other}.items() if key != "source" or value}
            path.write_text(json.dumps(WHOLE) + "\n" + json.dumps(made) + "\n", encoding="utf-8")
            status, printed = run("linux", "--corpus", path)
            yield wanted(f"{other}: status", status, 2)
            yield holds(str(other), printed, f"engines.py: {path}:2: {message}")


def machine():
    """A made machine in place of qemu; its kernel is any file."""
    with tempfile.TemporaryDirectory() as folder:
        at = pathlib.Path(folder)
        (at / kernel.QEMU).write_text(f"#!{sys.executable}\n{MACHINE}", encoding="utf-8")
        (at / kernel.QEMU).chmod(0o755)
        shown = {**WHOLE["after"], "reports": "\x1b[0n"}
        cases = [{**WHOLE, "name": name, "bytes": text, "after": shown, "linux": {}} for name, text in TEXTS.items()]
        (at / "cases").write_text("".join(json.dumps(case) + "\n" for case in cases), encoding="utf-8")
        given = ["--kernel", at / "cases", "--corpus", at / "cases"]
        path = f"{folder}:{os.environ['PATH']}"
        status, printed = run(*given, path=path)
        yield wanted("the status of a machine", status, 1)
        yield wanted("what it shows", re.findall("(?m)^shown +(.*)$", printed), ["1    0    0     0   0"])
        yield holds("a refusal", printed, "kernel: refuses TIOCSWINSZ: no: refused")
        nonsense = "kernel: nonsense: three words of bytes were wanted, and there is 'what': nonsense"
        yield holds("nonsense", printed, nonsense)
        yield holds("an end", printed, "kernel: died: it ended with 0: ended")
        (at / kernel.QEMU).write_text(f"#!{sys.executable}\n", encoding="utf-8")
        status, printed = run(*given, path=path)
        yield wanted("a machine that ends at once", status, 2)
        yield holds("why", printed, "a kernel that starts kernel_init.c was wanted: died")
    status, printed = run("--kernel", "nosuch")
    yield wanted("a kernel that isn't there", (status, printed.startswith("engines.py: nosuch:")), (2, True))


def asked(path):
    """The console of a kernel, in some cases."""
    cases = [case for case in read_corpus([]) if case.linux is not None]
    some = random.Random("kernel").sample(cases, ASKED)
    engine = kernel.Kernel(path, SECONDS)
    engine.glyphs = vcs.glyphs_of(cases)
    for case, shown in zip(some, engine.answers(some), strict=True):
        yield wanted(case.name, shown, case.recorded())
    engine.stop()


def main():
    form = argparse.ArgumentParser(description=__doc__, formatter_class=argparse.RawDescriptionHelpFormatter)
    form.add_argument("--kernel", metavar="FILE")
    given = form.parse_args()
    kinds = {
        "cells, rows and pens": looked_up(), "a console's files": of_files(), "the corpus": corpus(),
        "cases that are counted": counted(), "the limit of seconds": hanging(), "cases refused": refused(),
        "a made machine": machine() if shutil.which("cc") or shutil.which("gcc") else None,
        "a kernel's console": asked(given.kernel) if given.kernel else None,
    }  # fmt: skip
    passed = failed = 0
    for kind, results in kinds.items():
        if results is None:
            print(f"skipped: {kind}: there is no {'kernel' if 'kernel' in kind else 'C compiler'}")
            continue
        results = list(results)
        bad = [why for why in results if why]
        passed, failed = passed + len(results) - len(bad), failed + len(bad)
        shown = "".join(f"\n    {why}" for why in bad)
        print(f"{kind}: {len(results) - len(bad)} of {len(results)}{shown}", flush=True)
    print(f"{passed} passed, {failed} failed")
    return 1 if failed else 0


if __name__ == "__main__":
    try:
        sys.exit(main())
    except Fault as fault:
        print(f"check_engines: {fault}", file=sys.stderr)
        sys.exit(2)
