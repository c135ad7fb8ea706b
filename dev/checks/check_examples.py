#!/usr/bin/env python3
"""Checks the examples of examples/ by the program: what each prints, and that the sessions' journals are legal.

usage: dev/checks/check_examples.py

Each example has its input, the words, and the file that has to come of it. The dump of a session's keymap, read again,
has the same tables. The sessions are raced too: each race ends with status 0 within a minute, and its journal is a legal
one of the session, as the stored one is. Prints a line for each fault, and ends with status 1 if there is one, and with
2 if there is no program.
"""
import pathlib
import re
import subprocess
import sys

sys.dont_write_bytecode = True
sys.path.insert(0, str(pathlib.Path(__file__).resolve().parents[1]))

from repository import TOP  # noqa: E402: after the folder that it stands in
from programs import find_for_check  # noqa: E402

FOLDER = TOP / "examples"
SECONDS = 60
RECORDINGS = ("listing", "pager", "editor", "monitor", "dialog", "progress")
# The input, what has to come of it, and the words.
EXAMPLES = [
    ("session.toml", "session.journal", ["play"]),
    ("tour.toml", "tour.journal", ["play"]),
    ("keymap", "keymap.listing", ["keys"]),
    ("stream", "stream.rows", ["screen", "2", "5"]),
    *((f"recordings/{name}", f"recordings/{name}.rows", ["screen", "25", "80"]) for name in RECORDINGS),
]
SESSIONS = ("session", "tour")


class Fault(Exception):
    """What isn't so."""


def printed(words, given):
    """What the program prints; it has to end by itself, with status 0."""
    try:
        ran = subprocess.run([find_for_check("vt"), *words], input=given, capture_output=True, timeout=SECONDS, check=False)
    except OSError as fault:
        raise Fault(f"vt: {fault.strerror}") from None
    except subprocess.TimeoutExpired:
        raise Fault(f"vt {' '.join(words)} doesn't end in {SECONDS} seconds") from None
    if ran.returncode != 0:
        raise Fault(f"vt {' '.join(words)} ends with status {ran.returncode}: {ran.stderr.decode(errors='replace').strip()}")
    return ran.stdout


def example_faults():
    for name, wanted, words in EXAMPLES:
        if printed(words, (FOLDER / name).read_bytes()) != (FOLDER / wanted).read_bytes():
            yield f"examples/{name} doesn't give examples/{wanted}"


def keymap_faults():
    """The keymap of the session, its dump, and the dump's dump have the same tables."""
    text = (FOLDER / "session.toml").read_text(encoding="utf-8")
    keymap = re.search(r"^keymap = '''\n(.*?)^'''$", text, re.M | re.S)[1].encode()
    if printed(["keys"], printed(["dumpkeys"], keymap)) != printed(["keys"], keymap):
        yield "the dump of the session's keymap has other tables"


def judged(session, journal):
    """What `check` prints of a session's journal, and what it has to print."""
    found = re.match(rb".*?^%end (\d+) \d+\n", journal, re.M | re.S)
    if not found:
        return b"it has no line %end", b""
    return printed(["check"], session + found[0]).strip(), b"legal " + found[1]


def session_faults():
    for name in SESSIONS:
        session, journal = (FOLDER / f"{name}.toml").read_bytes(), (FOLDER / f"{name}.journal").read_bytes()
        for kind, text in (("stored journal", journal), ("race", printed(["race"], session))):
            found, wanted = judged(session, text)
            if found != wanted:
                yield f"examples/{name}.toml: its {kind} isn't legal: {found.decode()}"


def main():
    failed = 0
    for part in (example_faults, keymap_faults, session_faults):
        try:
            for fault in part():
                failed += 1
                print(fault)
        except Fault as fault:
            failed += 1
            print(fault)
    return 1 if failed else 0


if __name__ == "__main__":
    sys.exit(main())
