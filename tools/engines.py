#!/usr/bin/env python3
"""Compares engines with the conformance corpus, and prints a table: each sequence, and each engine's cases.

    tools/engines.py [ENGINE ..] [--command 'PROGRAM ..'] [--device N] [--kernel FILE] [options]

The engines are vt, libvt (the C library), pyte, libvterm, tmux, and linux, the console that was recorded; without any,
vt. `--command` names a program with the protocol of lines that docs/guide/write-a-terminal.md describes, `--device` a
console of this machine, `--kernel` a Linux kernel for a virtual machine. Each case is the same, differs, or isn't
compared whole, since the engine doesn't know all that has to stand. Cases that differ are counted as `linux` if a Linux
console has another value too in each part that differs; otherwise as `page` or `own`, by the source of the case's rule.
`--page` leaves out all other cases than those of pages, and what Linux does. Ends with status 1 if an engine differs in
a case, or has a fault there; with status 2 if something that was named is missing or damaged.
"""
import argparse
import os
import pathlib
import signal
import sys
from dataclasses import replace

sys.dont_write_bytecode = True

from package import called  # noqa: E402: after the line that keeps tools/ clean

if sys.version_info < (3, 10):
    print(f"{called()}: Python 3.10 or later was wanted", file=sys.stderr)
    sys.exit(2)

from programs import TOP, Missing, find  # noqa: E402: needs this Python
from tool_files import run as run_tool  # noqa: E402

sys.path.insert(1, str(TOP / "dev/engines"))
from conformance import compare, cutdown, engine_list, page  # noqa: E402: after its folder
from conformance.adapters import SECONDS  # noqa: E402
from conformance.forms import PAGE, Fault, read_corpus  # noqa: E402
from conformance.words import in_words, part_in_words  # noqa: E402

MOST_SECONDS = 3600


def chosen(cases, name, only_page):
    """The cases of this name, and those whose names begin with it and a slash; or those of them that a page decides."""
    start = name.rstrip("/") + "/"
    found = [case for case in cases if not name or case.name == name or case.name.startswith(start)]
    if not found:
        raise Fault(f"--only {name}: a case or a sequence of the corpus was wanted")
    if not only_page:
        return found
    found = [replace(case, linux=None) for case in found if case.source == PAGE]
    if not found:
        raise Fault("--page: cases that a page decides were wanted, and there are none")
    return found


def shortest(program, engine, found):
    """The lines of the shortest differing case, cut down."""
    differing = [it for it in found if it.parts]
    if not differing:
        return [f"{engine.name}: no case differs"]
    first = min(differing, key=lambda it: len(it.case.data))
    least = cutdown.cut_down(program, engine, first)
    lines = [f"{engine.name}: {first.case.name}, cut down from {len(first.case.data)} bytes to {len(least.case.data)}"]
    lines.append(f"    {least.case.rows} rows, {least.case.columns} columns: {in_words(least.case)}")
    lines.append(f"    {least.case.paragraph}")
    for part in least.parts:
        lines += [f"    {line}" for line in part_in_words(least.case, part, least.case.after[part], least.answer[part])]
    return lines


def run(given):
    """Runs what was named; gives the status."""
    if not 0 < given.seconds <= MOST_SECONDS:
        raise Fault(f"--seconds {given.seconds:g}: a number above 0 was wanted, at most {MOST_SECONDS}")
    cases = chosen(read_corpus(given.corpus), given.only, given.page)
    kinds = compare.PAGE_KINDS if given.page else compare.KINDS
    program = find("vt", given.vt) if given.first else None
    engines = engine_list.engines(given)
    target = pathlib.Path(given.html or "page.html").absolute()
    if target.is_dir() or not target.parent.is_dir():
        raise Fault(f"--html {given.html}: a file in a folder that is there was wanted")
    tried = [case.bytewise() for case in cases] if given.cut else cases
    results = {}
    for engine in engines:
        results[engine.name] = [compare.compared(*it) for it in zip(tried, engine.answers(tried), strict=True)]
    lines = compare.table(cases, results, kinds)
    for engine in engines:
        lines += compare.notes(engine.name, results[engine.name])
        lines += shortest(program, engine, results[engine.name]) if given.first else []
    lines += compare.agreed(results) if given.agreed else []
    if given.html:
        target.write_text(page.html(results, kinds), encoding="utf-8", errors="backslashreplace")
    print("\n".join(lines), flush=True)
    return 1 if any(compare.differing(found) for found in results.values()) else 0


def main():
    words = argparse.ArgumentParser(description=__doc__.split("\n\n")[0])
    words.add_argument("engine", nargs="*", metavar="ENGINE", help="vt, libvt, pyte, libvterm, tmux or linux")
    words.add_argument("--vt", metavar="PROGRAM", help="the program vt; without it that of VT, of the clone or of PATH")
    words.add_argument("--command", action="append", default=[], metavar="'PROGRAM ..'", help="an engine of your own")
    words.add_argument("--device", type=int, metavar="N", help="console N of this machine")
    words.add_argument("--kernel", metavar="FILE", help="a Linux kernel, run in qemu")
    words.add_argument("--seconds", type=float, default=SECONDS, metavar="N", help="how long an engine may take a case")
    words.add_argument("--page", action="store_true", help="only the cases that a page or a standard decides")
    words.add_argument("--corpus", nargs="+", default=[], metavar="FILE", help="other files of cases")
    words.add_argument("--only", default="", metavar="NAME", help="one sequence or one case")
    words.add_argument("--cut", action="store_true", help="write each case byte by byte")
    words.add_argument("--agreed", action="store_true", help="name cases in which engines agree, not with the corpus")
    words.add_argument("--first", action="store_true", help="show the shortest differing case, cut down")
    words.add_argument("--html", metavar="FILE", help="write a page of the differing cases")
    sys.stdout.reconfigure(errors="backslashreplace")
    signal.signal(signal.SIGTERM, lambda *_: sys.exit(2))  # so that engines are stopped
    try:
        return run(words.parse_args())
    except BrokenPipeError:
        os.dup2(os.open(os.devnull, os.O_WRONLY), sys.stdout.fileno())
        return 2
    except (Fault, Missing, OSError) as fault:
        print(f"{called()}: {fault}", file=sys.stderr)
        return 2


if __name__ == "__main__":
    sys.exit(run_tool(main, 2))
