#!/usr/bin/env python3
"""Counts the instructions of the C library beside those of `vt screen`, libvterm and libtsm.

usage: c_library.py VT [--library OUT] [--only KIND,..] [--most RATIO] [--unproved]

OUT is a folder that libvt/tools/build_c.sh filled (out/c in the clone). The programs are dev/engines/libvt.c,
libvterm.c and libtsm.c over the same dev/engines/screen.h, compiled by cc -O3; an engine that isn't installed is left
out. Each reads the first MiB of the ten kinds of text of inputs.py (`scroll` an eighth, `erase` and `lines` a
sixteenth) at 25 by 80, and callgrind counts, less what an empty input takes. `single bytes` is libvt.c with a call for
every byte; what that takes more than in long pieces is a call's own cost. Prints a table, the greatest ratio to `vt
screen`, and what a scan byte of `vt_keys_scan` takes for three keys and for a byte that types none
(dev/engines/keys.c); the status is 1 if that ratio is over RATIO, or if the rows of libvt aren't those of `vt screen`.
A VT that tools/build.py made without proofs is refused without --unproved, with status 2.
"""
import argparse
import os
import pathlib
import subprocess
import sys
import tempfile

sys.dont_write_bytecode = True
sys.path.insert(0, str(pathlib.Path(__file__).resolve().parents[2] / "dev"))

from repository import TOP  # noqa: E402: after the folder that it stands in
import inputs  # noqa: E402
from screens import instructions, table  # noqa: E402
from programs import Missing, to_measure  # noqa: E402

SIZE = ["screen", "25", "80"]
KEYS = ["E0", "a", "Shift", "F1"]
TYPED = 1000
SINGLE = "single bytes"


def compiled(folder, name, source, *options):
    """The program of an engine, or None if it isn't compiled."""
    words = ["cc", "-O3", "-Wall", "-Wextra", "-o", folder / name, TOP / "dev/engines" / f"{source}.c", *options]
    ran = subprocess.run(words, capture_output=True, text=True, check=False)
    return [str(folder / name), *SIZE] if ran.returncode == 0 else None


def typed(folder, *options):
    """The rows of a table: for each key, the instructions of a scan byte, half of them down and half up."""
    words = ["cc", "-O3", "-Wall", "-Wextra", "-o", folder / "keys", TOP / "dev/engines/keys.c", *options]
    subprocess.run(words, check=True)
    rows = []
    for key in KEYS:
        more, less = (instructions([str(folder / "keys"), key, str(count)], os.devnull) for count in (TYPED, 0))
        rows.append([f"`{key}`", f"{(more - less) / (2 * TYPED):,.0f}"])
    return rows


def rows_of(command, path):
    """What a program prints of an input."""
    with open(path, "rb") as source:
        return subprocess.run(command, stdin=source, capture_output=True, check=True).stdout


def main():
    words = argparse.ArgumentParser(description=__doc__.split("\n\n")[0])
    words.add_argument("vt", metavar="VT")
    words.add_argument("--library", default=TOP / "out/c", type=pathlib.Path, metavar="OUT")
    words.add_argument("--only", default=",".join(inputs.KINDS), metavar="KIND,..")
    words.add_argument("--most", default=1.04, type=float, metavar="RATIO")
    words.add_argument("--unproved", action="store_true")
    given = words.parse_args()
    try:
        vt = to_measure(given.vt, given.unproved)
    except Missing as missing:
        print(f"c_library.py: {missing}", file=sys.stderr)
        sys.exit(missing.status)
    archive, include = given.library / "lib/libvt.a", f"-I{given.library}/include"
    lines, worst = [], 0.0
    with tempfile.TemporaryDirectory() as name:
        folder = pathlib.Path(name)
        programs = {"vt screen": [str(vt), *SIZE]}
        programs["libvt"] = compiled(folder, "libvt", "libvt", archive, include)
        programs[SINGLE] = compiled(folder, "single", "libvt", "-DCUT=1", archive, include)
        for engine in ("libvterm", "libtsm"):
            programs[engine] = compiled(folder, engine, engine, f"-l{engine.removeprefix('lib')}")
        programs = {name: command for name, command in programs.items() if command}
        if "libvt" not in programs:
            sys.exit(f"c_library.py: dev/engines/libvt.c isn't compiled with {archive}")
        empty = {name: instructions(command, os.devnull) for name, command in programs.items()}
        for kind in given.only.split(","):
            path = folder / "input"
            path.write_bytes(inputs.make(kind, (1 << 20) // inputs.PART.get(kind, 1), "1"))
            if rows_of(programs["libvt"], path) != rows_of(programs["vt screen"], path):
                sys.exit(f"c_library.py: {kind}: the rows of libvt aren't those of vt screen")
            size = path.stat().st_size
            count = {name: (instructions(command, path) - empty[name]) / size for name, command in programs.items()}
            ratio = count["libvt"] / count["vt screen"]
            worst = max(worst, ratio)
            lines.append([f"`{kind}`", *(f"{count[name]:,.1f}" for name in programs), f"{ratio:.3f}"])
            print(f"{kind} done", file=sys.stderr)
        keys = typed(folder, archive, include)
    print(table(["input", *programs, "libvt to vt screen"], lines))
    print(f"\nthe greatest ratio to vt screen: {worst:.3f}\n")
    print(table(["key", "instructions of a scan byte"], keys))
    return 1 if worst > given.most else 0


if __name__ == "__main__":
    sys.exit(main())
