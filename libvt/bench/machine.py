#!/usr/bin/env python3
"""Measures the calls of a machine through the C library beside the same calls in `vt play`.

usage: machine.py VT [--library OUT] [--items N] [--runs N] [--most RATIO] [--least CALLS] [--unproved]

The session is that of dev/bench/sessions.py: 64 processes with N script items each (200). `vt play` plays it; then
libvt/bench/machine_calls.c makes the calls of its journal, one by one and with a journal. OUT is a folder that
libvt/tools/build_c.sh filled (out/c in the clone). Prints the calls a second of processor time, the best of so many
runs (5); and what a call takes in instructions, by callgrind: inside vt_machine_call, and inside a turn of `vt play`,
which chooses the caller, reads its next call from the script, makes it and enters it in the journal. Status 1: the
ratio of the two is over RATIO (1.5), or there are fewer than CALLS a second (300,000). A VT or a library that
tools/build.py made without proofs is refused without --unproved, with status 2.
"""
import argparse
import io
import pathlib
import re
import subprocess
import sys
import tempfile

sys.dont_write_bytecode = True
sys.path.insert(0, str(pathlib.Path(__file__).resolve().parents[2] / "dev"))

from repository import TOP  # noqa: E402: after the folder that it stands in
import sessions  # noqa: E402
from c_library.machines import words_of  # noqa: E402
from programs import Missing, to_measure  # noqa: E402

PROCESSES, SEED = 64, 1
CALL, TURN = "vt_machine_call", "*Player::turn*"


def instructions(function, words, given, folder):
    """What callgrind counts inside a function, with all that it calls."""
    path = folder / "given"
    path.write_bytes(given)
    with open(path, "rb") as source:
        said = subprocess.run(
            ["valgrind", "--tool=callgrind", f"--callgrind-out-file={folder}/out", f"--toggle-collect={function}", *words],
            stdin=source, stdout=subprocess.DEVNULL, stderr=subprocess.PIPE, text=True, check=True).stderr
    return int(re.search(r"Collected : (\d+)", said)[1])


def compiled(folder, library):
    words = ["cc", "-O2", "-Wall", "-Wextra", "-o", folder / "machine_calls", TOP / "libvt/bench/machine_calls.c",
             f"-I{library}/include", library / "lib/libvt.a"]
    subprocess.run(words, check=True)
    return str(folder / "machine_calls")


def calls_a_second(words, journal, runs):
    """How many calls a second of processor time a run makes, the best of several, and how many there are."""
    best, count = 0.0, 0
    for _ in range(runs):
        said = subprocess.run(words, input=journal, capture_output=True, check=True).stdout.decode()
        found = re.match(r"(\d+) calls, ([\d.]+) seconds", said)
        count, best = int(found[1]), max(best, int(found[1]) / float(found[2]))
    return count, best


def measure(given, vt, folder):
    """Prints the figures; whether they are within their limits."""
    text = io.StringIO()
    sessions.session(PROCESSES, given.items, SEED, text)
    session = text.getvalue().encode()
    played = subprocess.run([vt, "play"], input=session, capture_output=True, check=True).stdout
    journal = re.match(rb"(?s).*?\n%(?:end|full)[^\n]*\n", played)[0]
    words = [compiled(folder, given.library), *map(str, words_of(session.decode(), folder / "keymap"))]
    count, best = calls_a_second(words, journal, given.runs)
    own, turns = (instructions(*it, folder) for it in ((CALL, words, journal), (TURN, [vt, "play"], session)))
    print(f"{count} calls: {best:,.0f} a second through libvt")
    print(f"instructions a call: {own / count:,.0f} in {CALL}, {turns / count:,.0f} in a turn of vt play, ratio {own / turns:.2f}")
    return own / turns <= given.most and best >= given.least


def main():
    words = argparse.ArgumentParser(description=__doc__.split("\n\n")[0])
    words.add_argument("vt", metavar="VT")
    words.add_argument("--library", default=TOP / "out/c", type=pathlib.Path, metavar="OUT")
    words.add_argument("--items", default=200, type=int, metavar="N")
    words.add_argument("--runs", default=5, type=int, metavar="N")
    words.add_argument("--most", default=1.5, type=float, metavar="RATIO")
    words.add_argument("--least", default=300_000, type=float, metavar="CALLS")
    words.add_argument("--unproved", action="store_true")
    given = words.parse_args()
    try:
        vt = to_measure(given.vt, given.unproved)
    except Missing as missing:
        print(f"machine.py: {missing}", file=sys.stderr)
        sys.exit(missing.status)
    if not given.unproved and "not proved" in (given.library / "BUILD").read_text(encoding="utf-8"):
        print(f"machine.py: {given.library} isn't proved", file=sys.stderr)
        sys.exit(2)
    with tempfile.TemporaryDirectory() as name:
        sys.exit(0 if measure(given, str(vt), pathlib.Path(name)) else 1)


if __name__ == "__main__":
    main()
