#!/usr/bin/env python3
"""Times `vt screen R C` beside other terminal engines, on the ten kinds of text of inputs.py.

usage: screens.py VT [--rows R] [--cols C] [--mib N] [--runs N] [--seed S] [--only KIND,..] [--count] [--unproved]

The engines are those that dev/engines/build.sh has built; one that isn't there is left out. So is `plain`, which is no engine
but dev/engines/plain.c, plain C for these inputs, with a ratio of its own. Each program reads a file and prints the rows; all run by turns on each input, so that a busy machine slows all alike, and the least processor time
and the least wall time of a program's runs count. MB is 10^6 bytes. --count takes instructions too, on the first MiB,
less those of an empty input (valgrind's callgrind). A VT that tools/build.py made without proofs is refused without --unproved, with status 2.
"""
import argparse
import os
import pathlib
import re
import subprocess
import sys
import tempfile
import time

sys.dont_write_bytecode = True
sys.path.insert(0, str(pathlib.Path(__file__).resolve().parents[1]))

from repository import TOP  # noqa: E402: after the folder that it stands in
import inputs  # noqa: E402
from programs import Missing, to_measure  # noqa: E402

# Debian's packages, by the name of the program that stands on each.
ENGINES = {
    "alacritty": "librust-alacritty-terminal-dev",
    "vt100": "librust-vt100-dev",
    "libtsm": "libtsm-dev",
    "libvterm": "libvterm-dev",
}
# What plain C takes for the same screens.
PLAIN = "plain"


def timed(command, path):
    """Wall time, processor time and the rows, or None where the program failed."""
    with open(path, "rb") as source, tempfile.TemporaryFile() as rows:
        start = time.perf_counter()
        program = subprocess.Popen(command, stdin=source, stdout=rows)
        _, status, used = os.wait4(program.pid, 0)
        wall = time.perf_counter() - start
        program.returncode = status
        rows.seek(0)
        return None if status else (wall, used.ru_utime + used.ru_stime, rows.read())


def instructions(command, path):
    """What callgrind counts of one run."""
    with tempfile.TemporaryDirectory() as folder, open(path, "rb") as source:
        said = subprocess.run(
            ["valgrind", "--tool=callgrind", f"--callgrind-out-file={folder}/out", *command],
            stdin=source, stdout=subprocess.DEVNULL, stderr=subprocess.PIPE, text=True, check=True).stderr
        return int(re.search(r"Collected : (\d+)", said)[1])


def table(head, rows):
    """A table as Markdown has it."""
    widths = [max(len(row[n]) for row in [head, *rows]) for n in range(len(head))]
    lines = [[word.rjust(width) for word, width in zip(row, widths)] for row in [head, *rows]]
    lines.insert(1, ["-" * (width - 1) + ":" for width in widths])
    return "\n".join("| " + " | ".join(line) + " |" for line in lines)


def measure(commands, path, runs):
    """The least wall and processor time of each program, and the rows that it printed."""
    best = {}
    for _ in range(runs):
        for name, command in commands.items():
            got = timed(command, path)
            if got:
                wall, processor, rows = got
                old = best.get(name, (wall, processor, rows))
                best[name] = (min(wall, old[0]), min(processor, old[1]), rows)
    return best


def main():
    words = argparse.ArgumentParser(description=__doc__, formatter_class=argparse.RawDescriptionHelpFormatter)
    words.add_argument("vt")
    words.add_argument("--rows", type=int, default=25)
    words.add_argument("--cols", type=int, default=80)
    words.add_argument("--mib", type=float, default=16)
    words.add_argument("--runs", type=int, default=5)
    words.add_argument("--seed", default="1")
    words.add_argument("--only", default=",".join(inputs.KINDS))
    words.add_argument("--count", action="store_true")
    words.add_argument("--unproved", action="store_true")
    said = words.parse_args()
    size = ["screen", str(said.rows), str(said.cols)]
    try:
        programs = {"vt": to_measure(said.vt, said.unproved)}
    except Missing as missing:
        print(f"screens.py: {missing}", file=sys.stderr)
        sys.exit(missing.status)
    programs |= {name: TOP / "dev/engines/built" / name for name in [*ENGINES, PLAIN]}
    commands = {name: [str(path), *size] for name, path in programs.items() if path.exists()}
    print(f"{said.rows} by {said.cols}, {said.mib:g} MiB, least of {said.runs} runs by turns;",
          f"load {os.getloadavg()[0]:.1f}\n")
    lines = []
    with tempfile.TemporaryDirectory() as folder:
        for kind in said.only.split(","):
            text = inputs.make(kind, int(said.mib * (1 << 20)) // inputs.PART.get(kind, 1), said.seed)
            path = pathlib.Path(folder) / kind
            path.write_bytes(text)
            best = measure(commands, path, said.runs)
            rivals = [name for name in best if name in ENGINES]
            line = [kind, f"{len(text) / best['vt'][0] / 1e6:.1f}", f"{len(text) / best['vt'][1] / 1e6:.1f}"]
            if rivals:
                first = min(rivals, key=lambda name: best[name][1])
                same = [name for name in rivals if best[name][2] == best["vt"][2]]
                line += [first, f"{best[first][0] / best['vt'][0]:.1f}", f"{best[first][1] / best['vt'][1]:.1f}",
                         " ".join(same) or "none"]
            if PLAIN in best:
                line.append(f"{best[PLAIN][1] / best['vt'][1]:.2f}" if best[PLAIN][2] == best["vt"][2] else "other rows")
            if said.count:
                path.write_bytes(inputs.make(kind, (1 << 20) // inputs.PART.get(kind, 1), said.seed))
                taken = instructions(commands["vt"], path) - instructions(commands["vt"], os.devnull)
                line.append(f"{taken / path.stat().st_size:.1f}")
            lines.append(line)
            print(f"{kind} done", file=sys.stderr)
    head = ["input", "MB/s", "by processor time"]
    head += ["quickest engine", "ratio", "by processor time", "same rows"] if commands.keys() & ENGINES.keys() else []
    head += ["plain C by processor time"] if PLAIN in commands else []
    head += ["instructions a byte"] if said.count else []
    print(table(head, lines))


if __name__ == "__main__":
    main()
