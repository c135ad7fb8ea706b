#!/usr/bin/env python3
"""Writes the conformance corpus, examples/conformance/*.jsonl: 3,000 cases, and what stands after each by `vt play`.

What a Linux console shows is kept of each case whose text is as before. `--record KERNEL` records it anew: that kernel
runs in qemu, by software. `--check` writes nothing: it ends with status 1 if a stored file isn't what would be written.
`--more SEED` prints cases made from that number instead, 100,000 of them or as many as `--count` names. `--vt PROGRAM`
is the program; without it, the one that tools/programs.py finds. examples/conformance/README.md describes the form of a
case.
"""
import argparse
import itertools
import os
import pathlib
import sys
from dataclasses import replace

if sys.version_info < (3, 10):
    print("make_conformance: Python 3.10 or later was wanted", file=sys.stderr)
    sys.exit(2)

sys.dont_write_bytecode = True
sys.path.insert(0, str(pathlib.Path(__file__).resolve().parents[1]))

import repository  # noqa: E402,F401: it has the folders of the modules below
from conformance import cases, judge  # noqa: E402
from conformance.adapters import CaseFault  # noqa: E402
from conformance.forms import CORPUS, RECORDED_ON, Fault, read_corpus  # noqa: E402
from conformance.kernel import Kernel  # noqa: E402
from programs import Missing, find  # noqa: E402

MORE = 100_000
AT_A_TIME = 63 * 32
MOST_BYTES = 3_000_000
SECONDS = 30


def judged(program, made):
    """These cases, with what stands after each."""
    afters = judge.judge(program, made)
    return [replace(case, after=after) for case, after in zip(made, afters, strict=True)]


def stored_recording():
    """What a Linux console showed after each stored case, by the case's name and text."""
    stored = read_corpus([]) if any(CORPUS.glob("*.jsonl")) else []
    return {text_of(case): case.recorded() for case in stored if case.linux is not None}


def text_of(case):
    """All that an engine is given of a case, and its name."""
    return case.name, case.rows, case.columns, case.data, case.cuts


def recorded_by(kernel, made):
    """What the console of this kernel shows after each case, except those that change the machine."""
    found = {}
    for case, shown in zip(made, kernel.answers(made), strict=True):
        if isinstance(shown, CaseFault):
            raise Fault(f"{case.name}: the kernel has no answer: {shown}")
        if shown:
            found[text_of(case)] = shown
    return found


def texts(program, kernel=None):
    """The text of each file of the corpus; with a kernel, its console is asked anew."""
    families = cases.stored()
    made = judged(program, [case for family in families.values() for case in family])
    recording = recorded_by(kernel, made) if kernel else stored_recording()
    lines, at, found = [], 0, {}
    for case in made:
        shown = recording.get(text_of(case))
        lines.append((case.with_recorded(shown) if shown else case).line() + "\n")
    for name, family in families.items():
        found[f"{name}.jsonl"] = "".join(lines[at : at + len(family)])
        at += len(family)
    return found


def difference(path, text):
    """The first place where the stored file isn't this text, or None."""
    if not path.exists():
        return f"{path}:1: a file of cases was wanted, and there is none"
    stored = path.read_text(encoding="utf-8", errors="replace").splitlines(keepends=True)
    for number, (old, new) in enumerate(itertools.zip_longest(stored, text.splitlines(keepends=True), fillvalue=""), 1):
        if old != new:
            wanted = new.strip()[:200] or "nothing"
            return f"{path}:{number}: it isn't what dev/gen/make_conformance.py writes: {wanted}"
    return None


def check(program):
    """Whether the stored corpus is the one that would be written; prints where it isn't."""
    wanted = texts(program)
    faults = [difference(CORPUS / name, text) for name, text in wanted.items()]
    others = [path for path in sorted(CORPUS.glob("*.jsonl")) if path.name not in wanted]
    faults += [f"{path}: it is no file of the corpus" for path in others]
    for fault in faults:
        if fault:
            print(fault)
    return 1 if any(faults) else 0


def write(program, kernel=None):
    """Writes the files, and prints how many cases and bytes they have."""
    wanted = texts(program, kernel)
    size = sum(len(text) for text in wanted.values())
    if size > MOST_BYTES:
        raise Fault(f"{CORPUS}: at most {MOST_BYTES} bytes were wanted, and the cases have {size}")
    CORPUS.mkdir(parents=True, exist_ok=True)
    for name, text in wanted.items():
        (CORPUS / name).write_text(text, encoding="utf-8")
    if kernel:
        RECORDED_ON.write_text(f"Linux {kernel.version}\n", encoding="utf-8")
    lines = [line for text in wanted.values() for line in text.splitlines()]
    count = sum('"linux": {' in line for line in lines)
    print(f"{len(lines)} cases, {count} of them recorded on a Linux console, {size} bytes")
    return 0


def more(program, seed, count):
    """Prints so many cases that are made from a seed."""
    for at in range(0, count, AT_A_TIME):
        made = [cases.random_case(seed, number) for number in range(at + 1, min(at + AT_A_TIME, count) + 1)]
        sys.stdout.write("".join(case.line() + "\n" for case in judged(program, made)))
    return 0


def main():
    words = argparse.ArgumentParser(description=__doc__.split("\n\n")[0])
    words.add_argument("--vt", metavar="PROGRAM", help="the program vt; the one that tools/programs.py finds without it")
    words.add_argument("--check", action="store_true", help="write nothing, compare the stored files")
    words.add_argument("--record", metavar="KERNEL", help="record the console of this Linux kernel, as vmlinuz")
    words.add_argument("--more", type=int, metavar="SEED", help="print cases made from a number")
    words.add_argument("--count", type=int, default=MORE, help="how many cases --more prints")
    given = words.parse_args()
    try:
        if given.count < 1:
            raise Fault(f"--count {given.count}: a number from 1 was wanted")
        given.vt = find("vt", given.vt)
        if given.more is not None:
            return more(given.vt, given.more, given.count)
        if given.check:
            return check(given.vt)
        return write(given.vt, Kernel(given.record, SECONDS) if given.record else None)
    except BrokenPipeError:
        os.dup2(os.open(os.devnull, os.O_WRONLY), sys.stdout.fileno())
        return 2
    except (Fault, Missing, OSError) as fault:
        print(f"make_conformance: {fault}", file=sys.stderr)
        return 2


if __name__ == "__main__":
    sys.exit(main())
