#!/usr/bin/env python3
"""Gives the built program some thousands of damaged inputs, and looks at how each run ends.

Mutated sessions, keymaps, type tables, journals and byte streams, all made from fixed seeds. Each run has to end by itself,
within its time, with a named status and exactly that status's line on err; where the status says that nothing is
printed, out has to be empty. `play` of the same input gives the same bytes twice. What a process writes in two pieces, cut
anywhere, is shown as `screen` shows the whole. Prints a line a kind and last 'N passed, M failed'; ends with status 1 if one
fails. With a number as its word it does so many runs of each kind (100 is what the gate does).
"""
import pathlib
import random
import re
import subprocess
import sys

sys.dont_write_bytecode = True
sys.path.insert(0, str(pathlib.Path(__file__).resolve().parents[1]))

from repository import TOP  # noqa: E402: after the folder that it stands in
from programs import find_for_check  # noqa: E402

SECONDS = 20

# By the statuses of README.md: the line on err, and whether out may hold anything.
LINES = {
    0: (rb"", True),
    1: (rb"vt: usage: [^\n]*\n", False),
    2: (rb"vt: read failed\n", False),
    3: (rb"vt: write failed\n", True),
    5: (rb"vt: refused \d+ at \d+:\d+\n", False),
    6: (rb"vt: input too long\n", False),
    7: (rb"vt: journal full \d+ \d+ \d+\n", True),
    8: (rb"vt: illegal \d+ \d+\n", False),
}

# Words, numbers and bytes that the formats know, to put where they don't belong.
PIECES = [
    b"[[process]]\n", b"home = 1\n", b"home = 64\n", b"script = [\"open 1\", \"waitinput 0\"]\n", b"privileged = true\n",
    b"events = 3\n", b"bytes = 64\n", b"turns = [1, 0, 2]\n", b"consoles = [1, 63]\n", b"rows = 255\n", b"cols = 1\n",
    b"hooks = [\"10 leave\"]\n", b"keys = \"e1 1d 45 e1 9d c5\"\n", b"keymaps 0-255\n", b"keycode 255 = U+FFFF\n",
    b"string F1 = \"\\377\"\n", b"compose as usual\n", b"include \"a\"\n", b"alt_is_meta\n", b"plain keycode 1 = Escape\n",
    b"%journal 1\n", b"%journal 2\n", b"%end 0 0\n", b"%full 1 64 64\n", b"1 0 open 1 = num 0\n", b"0 0 exit = ok\n", b"= err 3\n",
    b"p1 0 open 1 = num 0\n", b"k0 0 exit = ok\n", b"p", b"k",
    b"\x1b[", b"\x1b]P", b"\x1bc", b"\x1b#8", b"\x9b", b"\x1b[?7l", b"\x1b[99999;99999H", b"\xf0\x9f\x92\xa9", b"\xed\xa0\x80",
    b"\xff", b"\0", b"\r\n", b"\\\n", b"'''", b"\"", b"]", b"-", b"18446744073709551616", b"4294967296", b"65536", b"00",
]  # fmt: skip


def mutated(rng, text):
    """The text with one to six of its parts taken out, doubled, exchanged, or changed."""
    text = bytearray(text)
    for _ in range(rng.randint(1, 6)):
        at, size = rng.randint(0, len(text)), min(rng.choice([1, 1, 1, 4, 16, 64]), len(text))
        part = bytes(text[at : at + size])
        how = rng.randrange(6)
        if how == 0:
            del text[at : at + size]
        elif how == 1:
            text[at:at] = part
        elif how == 2:
            text[at:at] = rng.choice(PIECES)
        elif how == 3 and at < len(text):
            text[at] = rng.randrange(256)
        elif how == 4:
            text[at : at + size] = bytes(reversed(part))
        else:
            del text[at:]
    return bytes(text)


def stream(rng, size):
    """Bytes as a program writes them: text, control characters and sequences, whole and broken."""
    made = bytearray()
    while len(made) < size:
        how = rng.randrange(7)
        if how == 0:
            made += bytes(rng.choices(b"abc xyz0123456789", k=rng.randint(1, 40)))
        elif how == 1:
            numbers = b";".join(b"%d" % rng.choice([0, 1, 2, 5, 38, 48, 80, 999, 70000]) for _ in range(rng.randrange(4)))
            made += b"\x1b[" + rng.choice([b"", b"", b"?"]) + numbers + bytes([rng.randrange(0x40, 0x7F)])
        elif how == 2:
            made += b"\x1b" + bytes([rng.randrange(0x20, 0x7F)])
        elif how == 3:
            made += chr(rng.choice([0xE9, 0x4E2D, 0x1F4A9, 0x301, 0x9B, 0xFFFD])).encode()
        elif how == 4:
            made += bytes([rng.randrange(32)])
        elif how == 5:
            made += rng.choice(PIECES)
        else:
            made += bytes(rng.randrange(256) for _ in range(rng.randint(1, 8)))
    return bytes(made[:size])


def run(words, given):
    try:
        words = [find_for_check("vt"), *words]
        return subprocess.run(words, input=given, capture_output=True, timeout=SECONDS, check=False)
    except subprocess.TimeoutExpired:
        return None


def fault_of(ran):
    """Why the run ended as no run may, or None."""
    if ran is None:
        return f"didn't end within {SECONDS} s"
    if ran.returncode not in LINES:
        return f"ended with {ran.returncode}"
    line, has_text = LINES[ran.returncode]
    if not re.fullmatch(line, ran.stderr):
        return f"status {ran.returncode} with {ran.stderr[:100]!r} on err"
    if ran.stdout and not has_text:
        return f"status {ran.returncode} with {len(ran.stdout)} bytes on out"
    return None


def many(words, seeds, count, name):
    """Runs with each seed damaged so many times, evenly; gives the faults."""
    for i in range(count):
        rng = random.Random(f"{name} {i}")
        given = mutated(rng, rng.choice(seeds))
        why = fault_of(run(words, given))
        yield (f"{name} {i}: {why}" if why else None)


def plays(seeds, count):
    """The same session gives the same bytes."""
    for i in range(count):
        rng = random.Random(f"twice {i}")
        given = mutated(rng, rng.choice(seeds))
        first, second = run(["play"], given), run(["play"], given)
        why = fault_of(first)
        if not why and (first.stdout, first.returncode) != (second.stdout, second.returncode):
            why = "two plays differ"
        yield (f"twice {i}: {why}" if why else None)


def screens(count):
    """Streams drawn at many sizes."""
    for i in range(count):
        rng = random.Random(f"stream {i}")
        size = [str(rng.choice([1, 2, 3, 25, 255])), str(rng.choice([1, 2, 5, 80, 255]))]
        given = stream(rng, rng.choice([1, 10, 100, 3000]))
        ran = run(["screen", *size], given)
        why = fault_of(ran)
        if not why and ran.returncode:
            why = f"status {ran.returncode}"
        if not why and ran.stdout.count(b"\n") != int(size[0]):
            why = "another number of rows"
        yield (f"stream {i}: {why}" if why else None)


def cuts(count):
    """A process that writes a text in two pieces shows what `screen` shows of the whole."""
    for i in range(count):
        rng = random.Random(f"cut {i}")
        rows, cols = rng.choice([(2, 5), (25, 80), (1, 1), (7, 33)])
        text = stream(rng, rng.choice([2, 20, 200]))
        # (requests for another console would move the display and nothing else; reports go into the queue)
        cut = rng.randint(0, len(text))
        writes = ", ".join(f'"write 0 {part.hex() or "-"}"' for part in (text[:cut], text[cut:]))
        session = f'rows = {rows}\ncols = {cols}\nconsoles = [1]\n[[process]]\nhome = 1\nscript = ["open 1", {writes}]\n'
        played, drawn = run(["play"], session.encode()), run(["screen", str(rows), str(cols)], text)
        why = fault_of(played) or fault_of(drawn)
        if not why:
            shown = re.search(rb"\n%screen 1 [^\n]*\n(.*?)%queue 1 ", played.stdout, re.S)
            if not shown or shown[1] != drawn.stdout:
                why = f"cut at {cut} it shows something else"
        yield (f"cut {i}: {why}" if why else None)


def upgrades(played, count):
    """A journal written in version 1 upgrades to what it was, and a damaged one ends as it may."""
    new = played[: played.index(b"\n", played.index(b"\n%end ") + 1) + 1]
    old = re.sub(rb"^(?:k(?=0 )|p(?=\d))", b"", new.replace(b"%journal 2", b"%journal 1", 1), flags=re.M)
    ran = run(["upgrade"], old)
    why = fault_of(ran)
    if not why and ran.stdout != new:
        why = "it isn't the journal of version 2"
    yield (f"upgrade: {why}" if why else None)
    yield from many(["upgrade"], [old], count, "upgrade")


def cut_journals(session, played):
    """A journal cut after each byte from its first line on, but the last: 41 inside a line, 42 after a whole one."""
    journal = played[: played.index(b"\n", played.index(b"\n%end ") + 1) + 1]
    for end in range(journal.index(b"\n") + 1, len(journal)):
        cut = journal[:end]
        lines = cut.count(b"\n")
        wanted = b"42 at %d:1" % lines if cut.endswith(b"\n") else b"41 at %d:1" % (lines + 1)
        ran = run(["check"], session + cut)
        why = fault_of(ran)
        if not why and ran.stderr != b"vt: refused " + wanted + b"\n":
            why = f"{ran.stderr!r}, where {wanted!r} is right"
        yield (f"cut after byte {end}: {why}" if why else None)


def main():
    count = int(sys.argv[1]) if len(sys.argv) > 1 else 100
    read = lambda *names: [(TOP / "examples" / name).read_bytes() for name in names]
    sessions, keymaps = read("session.toml", "tour.toml"), read("keymap")
    tables = [b"keys = \"1e 9e 2a 1e 9e aa\"\nmode = 3\nkeymap = '''\n" + keymap + b"'''\n" for keymap in keymaps]
    journals = [a + b for a, b in zip(sessions, read("session.journal", "tour.journal"), strict=True)]
    kinds = {
        "sessions played": many(["play"], sessions, 4 * count, "play"),
        "sessions raced": many(["race"], sessions, count, "race"),
        "keymaps": many(["keys"], keymaps, 4 * count, "keys"),
        "keymaps dumped": many(["dumpkeys"], keymaps, 2 * count, "dumpkeys"),
        "type tables": many(["type"], tables, 4 * count, "type"),
        "journals": many(["check"], journals, 4 * count, "check"),
        "journals upgraded": upgrades(read("session.journal")[0], 2 * count),
        "played twice": plays(sessions, count),
        "streams": screens(4 * count),
        "cut writes": cuts(4 * count),
        "cut journals": cut_journals(sessions[0], read("session.journal")[0]),
    }
    passed = failed = 0
    for kind, results in kinds.items():
        results = list(results)
        bad = [why for why in results if why]
        passed, failed = passed + len(results) - len(bad), failed + len(bad)
        print(f"{kind}: {len(results) - len(bad)} of {len(results)}" + "".join(f"\n    {why}" for why in bad[:5]), flush=True)
    print(f"{passed} passed, {failed} failed")
    return 1 if failed else 0


if __name__ == "__main__":
    sys.exit(main())
