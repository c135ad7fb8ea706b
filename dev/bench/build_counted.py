#!/usr/bin/env python3
"""Builds the C library without proofs, as an object whose code counts what a fuzzer reaches in it.

usage: dev/bench/build_counted.py [FOLDER]

FOLDER (out/counted in the clone) gets vt.o: the calls of the crates, to be linked with libvt/src/heap.c,
libvt/src/calls.c and a program that clang made with -fsanitize=fuzzer. It stays if it was made of the same sources.
tools/build.py has how code is made without proofs; libvt/tools/fuzz_c.sh fuzzes it.

Statuses: 0 the object is there; 1 a source isn't compiled, or a step failed; 2 the words aren't of the form, or the
toolchain isn't there or can't do this.
"""
import hashlib
import pathlib
import shutil
import sys
import tempfile

sys.dont_write_bytecode = True
sys.path.insert(0, str(pathlib.Path(__file__).resolve().parents[1]))

import repository  # noqa: E402,F401: it has the folders of the modules below
from programs import TOP  # noqa: E402
from tool_files import Stop, reason  # noqa: E402
from unproved.compiler import LEVEL, Compiler  # noqa: E402
from unproved.crates import rows, source_files, toolchain, toolchain_name  # noqa: E402
from unproved.module import Module  # noqa: E402

# The counters of libFuzzer, and the operands of comparisons, from which it makes inputs.
COUNTED = "-fsanitize-coverage=inline-8bit-counters,pc-table,trace-cmp"
SECONDS = 30.0


def say(text):
    print(text, file=sys.stderr, flush=True)


def sum_of(kit, uses):
    """A sum over everything that the object is made of."""
    total = hashlib.sha256(repr((toolchain_name(kit), LEVEL, COUNTED)).encode())
    for file in [*source_files("c", uses), pathlib.Path(__file__)]:
        total.update(file.read_bytes())
    return total.hexdigest()


def make(kit, uses, room):
    """The object, in this room."""
    compiler = Compiler(kit, room, say)
    compiler.read_sources(["c"], uses, SECONDS)
    text = Module(compiler.module_text()).of_part("c")
    compiler.flags.append(COUNTED)
    return compiler.compile("c", text)


def build(folder):
    """Makes the object, unless it is there."""
    kit, uses = toolchain(), rows()
    made, mark, total = folder / "vt.o", folder / "sum", sum_of(kit, uses)
    if made.is_file() and mark.is_file() and mark.read_text(encoding="utf-8") == total:
        return
    folder.mkdir(parents=True, exist_ok=True)
    mark.unlink(missing_ok=True)
    with tempfile.TemporaryDirectory(prefix="vt-build-") as room:
        shutil.copyfile(make(kit, uses, room), made)
    mark.write_text(total, encoding="utf-8")


def main():
    words = sys.argv[1:]
    if len(words) > 1 or words[:1] and words[0].startswith("-"):
        print("usage: build_counted.py [FOLDER]", file=sys.stderr)
        return 2
    try:
        build(pathlib.Path(words[0] if words else TOP / "out/counted").absolute())
    except (Stop, OSError) as fault:
        message = str(fault) if isinstance(fault, Stop) else f"{fault.filename}: {reason(fault)}"
        print(f"build_counted.py: {message}", file=sys.stderr)
        return getattr(fault, "status", 1)
    return 0


if __name__ == "__main__":
    sys.exit(main())
