"""What is drawn by the library beside what `vt screen` draws, and what a text asks for."""
import concurrent.futures
import os
import random
import sys

import inputs

from .bench import EXAMPLES, TESTS, TOP, VALGRIND

RECORDINGS = ["listing", "pager", "editor", "monitor", "dialog", "progress"]
PIECES = [1, 7, 64, 4096, 0]
ROOMS = [0, 1, 2, 64, 5000]
WORKLOAD_BYTES = 1 << 16
ITEMS = 41_000
LEAST_OUTS = 20_000
CUTS = [(1, 1), (7, 1), (64, 2), (64, 64), (4096, 1), (4096, 5000), (0, 3), (0, 20_000)]


def recorded():
    """The recorded texts: name, rows, columns, text, and the rows that they must leave."""
    folder = TOP / "examples"
    yield "stream", 2, 5, (folder / "stream").read_bytes(), (folder / "stream.rows").read_bytes()
    for name in RECORDINGS:
        text = (folder / "recordings" / name).read_bytes()
        yield name, 25, 80, text, (folder / "recordings" / f"{name}.rows").read_bytes()


def workload(kind, length=WORKLOAD_BYTES):
    """The beginning of a workload of dev/bench/inputs.py."""
    return inputs.make(kind, length, "1")


def asking(seed):
    """A text of many items, and what each asks for by console_codes(4): kind, number and bytes."""
    draw, text, wanted = random.Random(seed), b"", []
    for _ in range(ITEMS):
        kind, n, row, col = draw.randrange(14), draw.randrange(1, 64), draw.randrange(1, 26), draw.randrange(1, 81)
        if kind == 0:
            text, out = text + b"\a", (5, 0, b"")
        elif kind == 1:
            text, out = text + b"\x1b[5n", (1, 0, b"\x1b[0n")
        elif kind == 2:
            text, out = text + b"\x1b[%d;%dH\x1b[6n" % (row, col), (1, 0, b"\x1b[%d;%dR" % (row, col))
        elif kind == 3:
            text, out = text + draw.choice([b"\x1b[c", b"\x1bZ"]), (1, 0, b"\x1b[?6c")
        elif kind == 4:
            lamp = draw.randrange(4)
            text, out = text + b"\x1b[%dq" % lamp, (4, [0, 1, 2, 4][lamp], b"")
        elif kind == 5:
            text, out = text + b"\x1b[12;%d]" % n, (2, n, b"")
        elif kind == 6:
            text, out = text + b"\x1b[15]", (3, 0, b"")
        else:
            text, out = text + draw.choice([b"word ", b"\r\n", b"\x1b[3%dm" % (n % 8), b"\x1b[K", b"\xc3\xa9"]), None
        wanted += [out] if out else []
    return text, wanted


def cuts(bench):
    """The program that draws in cuts."""
    return bench.compiled("cuts", [TESTS / "cuts.c"])


def check_cuts(bench):
    """The recordings in all cuts and rooms."""
    program = cuts(bench)
    if not program:
        return
    tries = [(*it, piece, room) for it in recorded() for piece in PIECES for room in ROOMS]

    def drawn(number, name, rows, cols, text, wanted, piece, room):
        file = bench.folder / f"outs.{number}"
        ran = bench.run([program, rows, cols, piece, room, file], text)
        outs = file.read_bytes()
        file.unlink()
        return ran.returncode == 0 and ran.stdout == wanted, (name, room), outs

    with concurrent.futures.ThreadPoolExecutor(os.cpu_count()) as pool:
        found = list(pool.map(lambda it: drawn(it[0], *it[1]), enumerate(tries)))
    first = {}
    for one, (is_same, (name, room), outs) in zip(tries, found, strict=True):
        bench.holds(is_same, f"{name} in pieces of {one[5]} with room {one[6]} is drawn as vt screen draws it")
        wanted = first.setdefault(name, outs) if room else b""
        bench.holds(outs == wanted, f"{name} in pieces of {one[5]} with room {one[6]} asks for the same")


def check_cuts_by_valgrind(bench):
    """The recordings once more under valgrind."""
    bench.needs("valgrind")
    program = cuts(bench)
    if not program:
        return
    for name, rows, cols, text, wanted in recorded():
        for piece in (1, 7, 4096):
            words = [*VALGRIND, program, rows, cols, piece, 2, "/dev/null"]
            ran = bench.ends_well(words, f"{name} in pieces of {piece} under valgrind", text)
            bench.holds(ran.stdout == wanted, f"{name} in pieces of {piece} under valgrind is drawn")


def check_outs(bench):
    """A text that asks for thousands of things, in eight cuts."""
    program = cuts(bench)
    if not program:
        return
    text, wanted = asking(1)
    bench.holds(len(wanted) >= LEAST_OUTS, f"the text asks for {len(wanted)} things")
    lines = "".join(f"{kind} {number} {out.hex()}\n" for kind, number, out in wanted).encode()
    rows = bench.run([bench.vt, "screen", 25, 80], text).stdout
    for piece, room in CUTS:
        file = bench.folder / "outs"
        ran = bench.ends_well([program, 25, 80, piece, room, file], "cuts", text)
        bench.holds(file.read_bytes() == lines, f"{len(wanted)} outs in order, in pieces of {piece} with room {room}")
        bench.holds(ran.stdout == rows, f"the text of the outs in pieces of {piece} is drawn as vt screen draws it")


def check_workloads(bench):
    """The ten workloads, in the program's pieces and in bad ones, by the test and by libvt/examples/screen.c."""
    program, screen = cuts(bench), bench.compiled("screen", [EXAMPLES / "screen.c"])
    if not program or not screen:
        return
    for kind in inputs.KINDS:
        text = workload(kind)
        wanted = bench.run([bench.vt, "screen", 25, 80], text).stdout
        bench.holds(len(wanted) > 25 * 80, f"vt screen draws {kind}")
        ran = bench.ends_well([screen, 25, 80], f"screen.c on {kind}", text)
        bench.holds(ran.stdout == wanted, f"screen.c draws {kind} as vt screen does")
        for piece, room in ((1, 1), (63, 1), (4096, 64), (0, 5000), (1000, 0)):
            ran = bench.run([program, 25, 80, piece, room, "/dev/null"], text)
            bench.holds(ran.stdout == wanted, f"{kind} in pieces of {piece} with room {room} is drawn")
    for words, status in ((["0", "5"], 1), (["25"], 1), (["25", "256"], 1), (["25", "x"], 1), (["25", "80", "1"], 1)):
        bench.holds(bench.run([screen, *words]).returncode == status, f"screen.c ends with {status} for {words}")
    with open("/dev/full", "wb") as full:
        ran = bench.run([screen, 2, 5], b"a", capture_output=False, stdout=full, stderr=full)
    bench.holds(ran.returncode == 3, "screen.c ends with 3 if a write fails")
    closed = bench.run(["sh", "-c", '"$0" 2 5 <&-', screen])
    bench.holds(closed.returncode == 2, "screen.c ends with 2 if a read fails")
