#!/usr/bin/env python3
"""Builds the programs and the C library without proofs, in some two minutes.

usage: tools/build.py [--jobs N] [--out FOLDER] [--modules FOLDER] [PART ..]

PART is vt, watch, picture, redraw, explore, cases (which answers the worked cases of crates/cases) or c (the C
library, and vtrun, which stands on it). Without one, all are built, and c only if there is a C compiler. FOLDER (out in
the clone) gets the programs as FOLDER/bin/PART, and the library as FOLDER/c, in the folders of
libvt/tools/build_c.sh. A part whose sources are those
of its last build stays. If FOLDER/c has a library that was proved, that stays. FOLDER/bin/BUILD and FOLDER/c/BUILD name
what was built, of which commit, and by which toolchain.

The toolchain's compiler reads the sources of all parts at once, on one processor; then a compiler of its own makes each
part, N of them side by side (as many as there are processors). With --modules all parts are built, and the folder after
it gets the code of each, with its checks, as a text of LLVM: PART.ll. A build of all parts takes 1 GB of memory, and
200 MB below TMPDIR.

Nothing here is proved. An index out of bounds, an overflow and a failed cast end the program by a signal. `rt run` in
crates/vt proves and builds the program `vt`.

Statuses: 0 all parts are there; 1 a source isn't compiled, or a step failed; 2 the words aren't of the form, or the
toolchain isn't there or can't do this.
"""
import argparse
import concurrent.futures
import hashlib
import json
import os
import pathlib
import signal
import subprocess
import sys
import tempfile
import time

sys.dont_write_bytecode = True

from programs import TOP  # noqa: E402: after the line that keeps tools/ clean
from tool_files import Stop, reason  # noqa: E402
from unproved.compiler import LEVEL, Compiler, build_vtrun, link_library, stop_all  # noqa: E402
from unproved.crates import PARTS, has_c, rows, source_files, toolchain, toolchain_name  # noqa: E402
from unproved.module import Module  # noqa: E402

STARTED = time.monotonic()
# How long the sources of all parts are read, until a build has measured it.
READING = 50.0
# The parts by how long the compiler takes for each, the longest first.
SLOWEST = ("explore", "vt", "cases", "watch", "c", "redraw", "picture")
END = "these parts are not proved; `rt run` in crates/vt proves and builds vt (docs/guide/install.md has the rest)"


class Words(argparse.ArgumentParser):
    """The words of the command line; what isn't of the form ends with status 2."""

    def error(self, message):
        raise Stop(2, f"{message}; build.py --help has the form")


def say(text):
    """Prints a line with the seconds since the start."""
    print(f"{time.monotonic() - STARTED:4.0f} s  {text}", flush=True)


def commit():
    """The commit of the clone, with a word if files were changed since."""
    words = ["git", "-C", str(TOP), "describe", "--always", "--dirty=, changed", "--abbrev=40", "--exclude=*"]
    try:
        ran = subprocess.run(words, capture_output=True, text=True, check=False)
    except OSError:
        return "unknown"
    return ran.stdout.strip() or "unknown"


def sum_of(part, kit_name, uses):
    """A sum over everything that a part is made of."""
    total = hashlib.sha256(repr((part, kit_name, LEVEL, os.environ.get("CC"))).encode())
    for file in source_files(part, uses):
        total.update(f"{file.relative_to(TOP)}\n".encode())
        total.update(hashlib.sha256(file.read_bytes()).digest())
    return total.hexdigest()


class Kept:
    """What earlier builds left in a folder: the sums of the parts, and how long the sources were read."""

    def __init__(self, out):
        self.out, self.file = out, out / "bin/.build.json"
        try:
            found = json.loads(self.file.read_text(encoding="utf-8"))
            self.parts, self.reading = dict(found["parts"]), dict(found["reading"])
        except (OSError, ValueError, TypeError, KeyError):
            self.parts, self.reading = {}, {}

    def place(self, part):
        """The file that shows whether a part is there."""
        return self.out / ("c/lib/libvt.a" if part == "c" else f"bin/{part}")

    def has(self, part, total):
        """Whether a part is there, made of this."""
        return self.place(part).is_file() and self.parts.get(part, {}).get("sum") == total

    def is_other_library(self):
        """Whether the C library that is there was made by another tool."""
        try:
            line = (self.out / "c/BUILD").read_text(encoding="utf-8")
        except OSError:
            return self.place("c").is_file()
        return "not proved" not in line

    def write(self):
        """Writes both files."""
        whole = {"parts": self.parts, "reading": self.reading}
        self.file.write_text(json.dumps(whole, indent=1) + "\n", encoding="utf-8")
        lines = [f"{part}: {found['line']}\n" for part, found in self.parts.items() if part != "c"]
        (self.out / "bin/BUILD").write_text("".join(lines), encoding="utf-8")


def keep_module(folder, part, text):
    """Keeps the text of a part's module, if somebody wants it."""
    if folder:
        folder.mkdir(parents=True, exist_ok=True)
        (folder / f"{part}.ll").write_text(text, encoding="utf-8")


def built_parts(kit, parts, given, kept, uses):
    """Builds these parts, and gives each when it is in its place."""
    (kept.out / "bin").mkdir(parents=True, exist_ok=True)
    key = " ".join(parts)
    with tempfile.TemporaryDirectory(prefix="vt-build-") as room:
        compiler = Compiler(kit, room, say)
        say(f"reading the sources of {', '.join(parts)}, on one processor, with 1 GB of memory")
        kept.reading[key] = compiler.read_sources(parts, uses, kept.reading.get(key, READING))
        module = Module(compiler.module_text())
        say(f"{len(module.functions)} functions were read; up to {given.jobs} parts are compiled at a time")

        def finish(part):
            say(f"compiling {part}")
            text = module.of_part(part)
            keep_module(given.modules, part, text)
            made = compiler.compile(part, text)
            if part == "c":
                link_library(made, kept.out / "c")
            else:
                compiler.link_program(made, kept.place(part))
            return part

        pool = concurrent.futures.ThreadPoolExecutor(given.jobs)
        try:
            # (so that none that takes long is left for the end)
            tasks = [pool.submit(finish, part) for part in sorted(parts, key=SLOWEST.index)]
            for task in concurrent.futures.as_completed(tasks):
                yield task.result()
        finally:
            stop_all()
            pool.shutdown(cancel_futures=True)


def wanted_parts(parts, kept, sums, is_anew):
    """The parts that have to be built: those that changed, or all; prints a line for each other one."""
    wanted = []
    for part in parts:
        if part == "c" and kept.is_other_library():
            say(f"{kept.out}/c wasn't built by this tool, and stays as it is")
        elif kept.has(part, sums[part]) and not is_anew:
            say(f"{kept.place(part)} is up to date")
        else:
            wanted.append(part)
    return wanted


def build(given):
    """Builds what has changed of the parts."""
    kit, uses, kept = toolchain(), rows(), Kept(given.out)
    kit_name = toolchain_name(kit)
    sums = {part: sum_of(part, kit_name, uses) for part in given.parts}
    wanted = wanted_parts(given.parts, kept, sums, bool(given.modules))
    line = f"not proved, commit {commit()}, {kit_name}, {LEVEL}, {time.strftime('%Y-%m-%d %H:%M %z')}"
    for count, part in enumerate(built_parts(kit, wanted, given, kept, uses) if wanted else (), 1):
        kept.parts[part] = {"sum": sums[part], "line": line}
        kept.write()
        say(f"{kept.place(part)} ({count} of {len(wanted)})")
    if "c" in given.parts:
        say(build_vtrun(given.out))
    say(END)


def words_of(words):
    """The words of the command line: the parts, the folders and the number of jobs."""
    form = Words(prog="build.py", description=__doc__, formatter_class=argparse.RawDescriptionHelpFormatter)
    form.add_argument("--jobs", type=int, default=len(os.sched_getaffinity(0)), metavar="N")
    form.add_argument("--out", type=pathlib.Path, default=TOP / "out", metavar="FOLDER")
    form.add_argument("--modules", type=pathlib.Path, metavar="FOLDER")
    form.add_argument("parts", nargs="*", metavar="PART")
    given = form.parse_args(words)
    unknown = [part for part in given.parts if part not in PARTS]
    if unknown:
        raise Stop(2, f"{unknown[0]}: one of {', '.join(PARTS)} was wanted")
    if given.jobs < 1:
        raise Stop(2, f"--jobs {given.jobs}: a number from 1 was wanted")
    is_whole = not given.parts
    given.parts, given.out = [part for part in PARTS if part in given.parts or is_whole], given.out.absolute()
    if is_whole and not has_c():
        say("the C library is left out, since there is no C compiler (CC or cc, ld, ar, objcopy)")
        given.parts.remove("c")
    return given


def main():
    signal.signal(signal.SIGTERM, lambda number, _: sys.exit(128 + number))
    try:
        build(words_of(sys.argv[1:]))
    except (Stop, OSError) as fault:
        message = str(fault) if isinstance(fault, Stop) else f"{fault.filename}: {reason(fault)}"
        print(f"build.py: {message}", file=sys.stderr)
        return getattr(fault, "status", 1)
    except KeyboardInterrupt:
        print("build.py: interrupted", file=sys.stderr)
        return 1
    return 0


if __name__ == "__main__":
    sys.exit(main())
