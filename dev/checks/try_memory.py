#!/usr/bin/env python3
"""Refuses the built program each of its requests for memory in turn, and looks at how each run ends.

usage: try_memory.py [PROGRAM]

Each run has to end as if nothing had been refused, or with status 4, that status's line on err, and on out a prefix of what
is printed otherwise. The first four requests may be those of the words themselves, before there is a call to tell anything:
then nothing is on err. Raced runs are left out: they may wait for ever. Wants a C compiler (cc), and isn't a part of the
gate. Prints a line a run, and last 'N passed, M failed'; ends with status 1 if one fails, and 2 if there is no program.
"""
import pathlib
import subprocess
import sys
import tempfile

sys.dont_write_bytecode = True
sys.path.insert(0, str(pathlib.Path(__file__).resolve().parents[1]))

from repository import TOP  # noqa: E402: after the folder that it stands in
from programs import find_for_check  # noqa: E402

SECONDS = 20

KEYMAP = b"keymaps 0-1,4\nkeycode 30 = a\n"
HANDSHAKE = b"""rows = 2
cols = 5
consoles = [1, 2]
[[process]]
home = 1
script = ['open 1', 'setmode 0 1 0 10 12 0', 'waitsignal']
hooks = ['10 disp 0 1']
[[process]]
home = 2
script = ['open 2', 'activate 0 2', 'waitactive 0 2', 'say 0 hi']
"""
HANDOVER = b"""rows = 2
cols = 5
consoles = [1, 2]
[[process]]
home = 1
script = ['open 1', 'setmode 0 1 0 10 12 0', 'waitsignal']
hooks = ['10 disp 0 1']
[[process]]
home = 2
script = ['open 2', 'activate 0 2']
"""
COMPOSED = b"keymap = '''\ncompose as usual\nkeycode 40 = dead_acute\nkeycode 18 = e\n'''\nkeys = '28 a8 12 92'\n"
TYPED = b"keymap = '''\nkeymaps 0-1,4\nkeycode 30 = a\nkeycode 42 = Shift\n'''\nkeys = '2a 1e 9e aa'\n"


def runs(program):
    """Each run's name, words and input."""
    session = (TOP / "examples/session.toml").read_bytes()
    journal = (TOP / "examples/session.journal").read_bytes()
    played = plain(program, ["play"], HANDSHAKE)[1]
    yield "keys", ["keys"], KEYMAP
    yield "dumpkeys", ["dumpkeys"], KEYMAP
    yield "type", ["type"], TYPED
    yield "an accent typed", ["type"], COMPOSED
    handed_over = to_end(plain(program, ["play"], HANDOVER)[1])
    yield "a handover played", ["play"], HANDOVER
    yield "its journal checked", ["check"], HANDOVER + handed_over
    yield "with two entries exchanged", ["check"], HANDOVER + exchanged(handed_over, 6)
    yield "with another two", ["check"], HANDOVER + exchanged(handed_over, 7)
    yield "without its last entry", ["check"], HANDOVER + shortened(handed_over)
    yield "a handshake played", ["play"], HANDSHAKE
    yield "its journal checked", ["check"], HANDSHAKE + to_end(played)
    yield "the example played", ["play"], session
    yield "its journal checked", ["check"], session + to_end(journal)
    yield "a drill", ["drill", "3", "7"], b""
    yield "its journal reviewed", ["review", "7", "0"], session + to_end(journal)
    yield "why its display changed", ["explain"], session + to_end(journal)
    yield "that certificate", ["accept"], session + to_end(journal) + plain(program, ["explain"], session + to_end(journal))[1]
    yield "a journal upgraded", ["upgrade"], b"%journal 1\n0 0 scan 1e = ok\n1 0 read 0 64 = bytes 6162\n%end 2 193\n"
    yield "cooked lines", ["cook"], b"ab\x7fc\nx\x03\x04"
    yield "screen", ["screen", "25", "80"], (TOP / "examples/recordings/pager").read_bytes()


def to_end(journal):
    """The journal itself, without the screens after it."""
    lines = journal.splitlines(keepends=True)
    return b"".join(lines[: next(n for n, line in enumerate(lines) if line.startswith((b"%end", b"%full"))) + 1])


def exchanged(journal, i):
    """The journal with entries i and i + 1 in the other order, counted from 0."""
    lines = journal.splitlines(keepends=True)
    return b"".join([*lines[: i + 1], lines[i + 2], lines[i + 1], *lines[i + 3 :]])


def shortened(journal):
    """The journal without its last entry, which counts for 64, and with the end of what is left."""
    *entries, _, end = journal.splitlines(keepends=True)
    _, events, counted = end.split()
    return b"".join([*entries, b"%%end %d %d\n" % (int(events) - 1, int(counted) - 64)])


def plain(program, words, given, more=None):
    """Status, out and err of a run with this environment."""
    ran = subprocess.run([program, *words], input=given, capture_output=True, timeout=SECONDS, env=more or {}, check=False)
    return ran.returncode, ran.stdout, ran.stderr


def main():
    program = str(find_for_check("vt", sys.argv[1] if len(sys.argv) > 1 else None))
    passed = failed = 0
    with tempfile.TemporaryDirectory() as folder:
        shim, count = f"{folder}/refuse_memory.so", f"{folder}/count"
        source = TOP / "dev/checks/refuse_memory.c"
        subprocess.run(["cc", "-O1", "-shared", "-fPIC", "-o", shim, str(source)], check=True)
        for name, words, given in runs(program):
            wanted = plain(program, words, given, {"LD_PRELOAD": shim, "COUNT": count})
            requests = int(pathlib.Path(count).read_text())
            refused = wrong = 0
            for number in range(1, requests + 1):
                status, out, err = plain(program, words, given, {"LD_PRELOAD": shim, "REFUSE": str(number)})
                is_refused = status == 4 and wanted[1].startswith(out) and err in (b"vt: no memory\n", b"" if number <= 4 else None)
                refused += is_refused
                if not is_refused and (status, out, err) != wanted:
                    wrong += 1
                    print(f"  {name}, request {number}: status {status}, {err!r}, {len(out)} bytes on out")
            print(f"{name}: {requests} requests, each refused once: {refused} times status 4, {wrong} wrong")
            passed += requests - wrong
            failed += wrong
    print(f"{passed} passed, {failed} failed")
    return 1 if failed or not passed else 0


if __name__ == "__main__":
    sys.exit(main())
