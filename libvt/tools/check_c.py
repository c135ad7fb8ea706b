#!/usr/bin/env python3
"""Builds the C library from this clone and checks it, its examples and its bindings.

usage: check_c.py [--library OUT | --gate] [--vt PROGRAM] [--only CHECK,..] [--add-interface] [--runs N] [--sessions N]

- `header`: vt.h is C99 to C2x and C++11 to C++23, by the compilers cc, c++, clang and clang++, also after <term.h>, and
  has each line of libvt/src/interface.txt; the library has the calls of vt.h and no other symbol, and vt(3) their
  prototypes; the Python package has its layout.
- `codes`: each code of each call, plainly, with sanitizers, and under valgrind without a leak.
- `machines`: N generated sessions (300) are called one by one on a machine: the journal, the screens, the display and
  the queues are those of `vt play`, byte for byte. And calls in any order: `watch free` finds their journal legal.
- `cuts`, `outs`, `workloads`: the recordings of examples/ in pieces of 1, 7, 64, 4,096 bytes and whole, with room for
  0, 1, 2, 64 and 5,000 outs; a text that asks for thousands of things in eight cuts; the ten workloads of
  dev/bench/inputs.py. The rows are those that `vt screen` prints.
- `steps`: 200 runs of random texts and resizes: after each step the screen is that of a console of `vt play`, and so
  are those that redraws make on another screen; the changed rows are those that differ from the mark.
- `memory`: each request for memory refused, alone and with all that follow. `threads`: handles that go between
  threads, and eight threads that read one handle at once, under helgrind too.
- `keys`, `consoles`, `faults`: random runs of keys (1,000, or --runs) are typed as `vt type` does, and 200 over several
  consoles with their key states and modes as `vt play` does; faults of keymaps are those of `vt keys`.
- `terminal`: libvt/examples/term.c on a pseudo-terminal. `programs`: vim, less, htop, dialog and mc in it, in tmux.
- `python`, `rust`: the tests of the bindings. `fuzz`: the fuzzer's corpus (libvt/tools/fuzz_c.sh looks for more).
- `install`: tools/install.sh into a folder, and programs that are linked by pkg-config there, with the shared object
  and with the archive alone.
- `guide`: the files and commands of docs/library/c.md, in an empty folder.

OUT is a folder that libvt/tools/build_c.sh filled; without it the library is built first, with --gate over the crates
that `rt ci` just left.
If a tool isn't there, a line names the check that is skipped. Prints a line for each thing that isn't so and last 'N
passed, M failed'; ends with status 1 if one fails, and with 2 if the library isn't built or a file is missing.
"""
import argparse
import ctypes
import importlib
import os
import pathlib
import re
import shutil
import subprocess
import sys
import tempfile

sys.dont_write_bytecode = True
sys.path.insert(0, str(pathlib.Path(__file__).resolve().parents[2] / "dev"))

import repository  # noqa: E402,F401: it has the folders of the modules below
import package  # noqa: E402
from c_library import drawn, guide, interface, machines, programs, steps, terminal, typed  # noqa: E402
from c_library.bench import (  # noqa: E402
    EXAMPLES, SANITIZERS, TESTS, TOP, VALGRIND, WARNINGS, Bench, Missing)
from programs import find_for_check  # noqa: E402
from tool_files import Stop, number  # noqa: E402

HEADER = TOP / "libvt/include/vt.h"
# The standards of the header, and the compilers with the warnings that are faults in it.
STANDARDS = {"c": "c99 c11 c17 c2x", "c++": "c++11 c++14 c++17 c++20 c++2b"}
STRICT = [*WARNINGS, "-pedantic", "-Wconversion", "-Wshadow"]
EVERY = ["-Weverything", "-Werror", "-Wno-unused-macros"]
COMPILERS = {
    "cc": ("c", [*STRICT, "-Wstrict-prototypes"]), "c++": ("c++", [*STRICT, "-Wold-style-cast"]),
    "clang": ("c", EVERY), "clang++": ("c++", EVERY),
}  # fmt: skip
# What a program makes of the header's macros.
USES = b"""#include <vt.h>
size_t most(uint32_t rows, uint32_t cols);
size_t most(uint32_t rows, uint32_t cols)
{
    const struct vt_modes modes = VT_MODES_START;
    const struct vt_key_state state = VT_KEY_STATE_START;
    return VT_REDRAW_MOST(rows, cols) + modes.repeat + vt_key_lights(&state);
}
"""
# How a program is linked with the installed library.
LINKS = {
    "shared": "$(pkg-config --cflags --libs vt)",
    "static": "-Wl,-Bstatic $(pkg-config --static --cflags --libs vt) -Wl,-Bdynamic",
}
# Instructions of SSE3 and later, as x86-64-v2 has them, and those of AVX.
LATER = re.compile(
    r"v(?!err|erw)\w+|pshufb|palignr|pabs[bwd]|ph(add|sub)\w+|pmaddubsw|pmulhrsw|psign[bwd]|p?blend\w+|pmov[sz]x\w+|"
    r"pinsr[bdq]|pextr[bdq]|insertps|extractps|ptest|pmulld|pmuldq|pm(in|ax)(sb|uw|ud|sd)|round[sp][sd]|pcmp(eq|gt)q|"
    r"pcmp[ei]str\w|packusdw|mpsadbw|dpp[sd]|movntdqa|crc32\w?|popcnt\w?|lddqu|movs[hl]dup|movddup|h(add|sub)p[sd]|"
    r"addsubp[sd]|cmpxchg16b|[ls]ahf")
WRAPPED = [f"-Wl,--wrap={name}" for name in ("malloc", "realloc", "free")]


def calls_of_header():
    """The names of the calls that vt.h has."""
    return set(re.findall(r"^(?:uint8_t|uint32_t|void) (vt_\w+)\(", HEADER.read_text(encoding="utf-8"), re.M))


def binding(bench):
    """The module with the calls of the Python package, over this library."""
    os.environ["VT_LIBRARY"] = str(bench.library / "lib/libvt.so.1")
    sys.path.insert(0, str(package.FOLDER))
    return importlib.import_module("libvt.calls")


def check_header(bench):
    bench.needs("nm", "readelf")
    for compiler, (language, warnings) in COMPILERS.items():
        if not shutil.which(compiler):
            bench.skip(f"vt.h by {compiler}", f"{compiler} isn't there")
            continue
        for standard in STANDARDS[language].split():
            words = [compiler, "-x", language, f"-std={standard}", *warnings, "-fsyntax-only", "-I", HEADER.parent, "-"]
            bench.ends_well(words, f"vt.h as {standard} by {compiler}", USES)
    check_header_beside(bench)
    calls = calls_of_header()
    for name, option in (("libvt.a", "-g"), ("libvt.so.1", "-D")):
        ran = bench.run(["nm", option, "--defined-only", bench.library / "lib" / name])
        symbols = {line.split()[-1].partition("@")[0] for line in ran.stdout.decode().splitlines() if re.search(r" [TDBRVW] ", line)}
        bench.holds(symbols == calls, f"the symbols of {name} are the calls of vt.h: {sorted(symbols ^ calls)}")
    said = bench.run(["readelf", "-d", bench.library / "lib/libvt.so.1"]).stdout.decode()
    needed = re.findall(r"NEEDED.*\[(.*)\]", said)
    is_so = "soname: [libvt.so.1]" in said and needed == ["libc.so.6"]
    bench.holds(is_so, f"libvt.so.1 needs the C library alone: {needed}")
    bench.holds("TEXTREL" not in said, "libvt.so.1 has no relocations in its text")
    bench.holds("NOW" in said, "libvt.so.1 binds all symbols when it is loaded (-z now)")
    check_instructions(bench)
    layout = bench.compiled("layout", [TESTS / "layout.c"])
    if layout:
        lines = bench.run([layout]).stdout.decode().splitlines()
        compare_layout(bench, lines)
        if interface.ADDS:
            interface.add(lines)
            interface.add_symbols(calls)
        found = interface.faults(lines)
        bench.holds(not found, "the interface of libvt.so.1 is that of the file:\n" + "\n".join(found))
        listed = set(interface.package_calls())
        bench.holds(listed == calls, f"debian/libvt1.symbols has the calls of vt.h: {sorted(listed ^ calls)}")
    synopsis, header = interface.prototypes_of_manual(), interface.prototypes_of_header()
    differing = sorted(set(synopsis) ^ set(header))
    bench.holds(sorted(synopsis) == sorted(header), f"the synopsis of vt(3) has the calls of vt.h: {differing}")
    version = re.search(r'^\.Os "vt (\d+)\.(\d+)\.(\d+)"$', (TOP / "man/vt.3").read_text(encoding="utf-8"), re.M)
    wanted = int(version[1]) << 16 | int(version[2]) << 8 | int(version[3])
    bench.holds(f"#define VT_VERSION {wanted:#08x}\n" in HEADER.read_text(encoding="utf-8"), "VT_VERSION is that of vt(3)")


def check_instructions(bench):
    """The library runs on every x86-64: it has no instruction that came later."""
    bench.needs("objdump")
    said = bench.run(["objdump", "-d", "--no-show-raw-insn", bench.library / "lib/libvt.so.1"]).stdout.decode()
    names = set(re.findall(r"^ +[0-9a-f]+:\s+([a-z]\w*)", said, re.M))
    later = sorted(name for name in names if LATER.fullmatch(name))
    bench.holds(len(names) > 50 and not later, f"libvt.so.1 has the instructions of x86-64 alone, and not {later}")


def check_header_beside(bench):
    """The header after those of terminfo and of the console, whose macros stay clear of it."""
    text = b"#include <linux/vt.h>\n#include <linux/kd.h>\n#include <linux/keyboard.h>\n#include <vt.h>\n"
    words = ["cc", "-x", "c", *WARNINGS, "-fsyntax-only", "-I", HEADER.parent, "-"]
    bench.ends_well(words, "vt.h after the headers of the console", text)
    if bench.run(words, b"#include <term.h>\n").returncode == 0:
        bench.ends_well(words, "vt.h after term.h", b"#include <curses.h>\n#include <term.h>\n#include <vt.h>\n")
    else:
        bench.skip("vt.h after term.h", "term.h isn't there; Debian's package libncurses-dev has it")


def compare_layout(bench, lines):
    """The structs of the Python package have the sizes and the places of fields that C gives them."""
    calls = binding(bench)
    names = {"vt_screen": "_Handle", "vt_keys": "_Handle", "vt_machine": "_Handle"}
    for line in lines:
        name, value = line.split()
        struct, _, field = name.partition(".")
        python = names.get(struct) or "_" + "".join(part.title() for part in struct.split("_")[1:])
        kind = getattr(calls, python)
        is_so = getattr(kind, field).offset == int(value) if field else ctypes.sizeof(kind) == int(value)
        bench.holds(is_so, f"{python} of the Python package has the layout of {name}: {value}")


def check_codes(bench):
    for name in ("screen_codes", "rows", "keys_codes", "machine_codes", "machine_starts"):
        plain = bench.compiled(name, [TESTS / f"{name}.c"])
        sanitized = bench.compiled(f"{name}.san", [TESTS / f"{name}.c"], SANITIZERS)
        if plain and sanitized:
            bench.ends_well([plain], f"{name}.c")
            bench.ends_well([sanitized], f"{name}.c with sanitizers")
            bench.needs("valgrind")
            bench.ends_well([*VALGRIND, plain], f"{name}.c under valgrind")


def check_memory(bench):
    for name in ("memory", "machine_memory"):
        plain = bench.compiled(name, [TESTS / f"{name}.c"], WRAPPED)
        sanitized = bench.compiled(f"{name}.san", [TESTS / f"{name}.c"], [*WRAPPED, *SANITIZERS])
        if plain and sanitized:
            ran = bench.ends_well([plain], f"{name}.c")
            print(ran.stdout.decode().splitlines()[0] if ran.stdout else "no output", flush=True)
            bench.ends_well([sanitized], f"{name}.c with sanitizers")
            bench.needs("valgrind")
            bench.ends_well([*VALGRIND, plain], f"{name}.c under valgrind")


def check_threads(bench):
    for name in ("threads", "readers"):
        program = bench.compiled(name, [TESTS / f"{name}.c"], ["-pthread"])
        if program:
            bench.ends_well([program, *["2000"] * (name == "readers")], f"{name}.c")
            bench.needs("valgrind")
            words = ["valgrind", "-q", "--tool=helgrind", "--error-exitcode=99", program]
            bench.ends_well(words, f"{name}.c under helgrind")


def check_python(bench):
    library = str(bench.library / "lib/libvt.so.1")
    for name in ("test_calls", "test_machine"):
        words = [sys.executable, "-B", package.FOLDER / f"tests/{name}.py"]
        bench.ends_well(words, f"{name}.py of the Python package", env={**os.environ, "VT_LIBRARY": library})


def check_rust(bench):
    bench.needs("cargo")
    folder = bench.folder / "rust"
    more = {"cwd": TOP / "libvt/bindings/rust", "timeout": 900}
    environment = {**os.environ, "CARGO_TARGET_DIR": str(folder), "VT_LIB_DIR": str(bench.library / "lib")}
    lock = TOP / "libvt/bindings/rust/Cargo.lock"
    was_there = lock.exists()
    bench.ends_well(["cargo", "test", "--offline", "-q"], "cargo test", env=environment, **more)
    text = drawn.workload("sgr")
    words = ["cargo", "run", "--offline", "-q", "-p", "vt-screen", "--example", "screen", "25", "80"]
    ran = bench.ends_well(words, "the example of Rust", text, env=environment, **more)
    wanted = bench.run([bench.vt, "screen", 25, 80], text).stdout
    bench.holds(ran.stdout == wanted, "the example of Rust draws as vt screen does")
    if not was_there:
        lock.unlink(missing_ok=True)


def check_fuzz(bench):
    bench.needs("clang")
    words = [TOP / "libvt/tools/fuzz_c.sh", "--library", bench.library, "0"]
    ran = bench.run(words)
    if ran.returncode == 77:
        raise Missing("clang has no libFuzzer")
    said = (ran.stdout + ran.stderr).decode("utf-8", "replace")[-2000:]
    bench.holds(ran.returncode == 0, f"the fuzzer's corpus runs:\n{said}")


def check_link(bench, kind):
    """A program is linked with the library in the folder `here`, and draws; without the shared object if it is static."""
    program, folder = bench.folder / f"screen.{kind}", bench.folder / "here/lib"
    environment = {**os.environ, "PKG_CONFIG_PATH": str(folder / "pkgconfig")}
    words = ["sh", "-c", f"cc -o {program} {EXAMPLES}/screen.c {LINKS[kind]}"]
    if bench.ends_well(words, f"screen.c by pkg-config, {kind}", env=environment).returncode:
        return
    said = bench.run(["readelf", "-d", program]).stdout.decode()
    needed = re.findall(r"NEEDED.*\[(libvt.*)\]", said)
    bench.holds(needed == ["libvt.so.1"] * (kind == "shared"), f"a {kind} program needs the shared object or not: {needed}")
    run = {**os.environ, "LD_LIBRARY_PATH": str(folder) if kind == "shared" else ""}
    ran = bench.run([program, 2, 5], b"abcdefghijk", env=run)
    bench.holds(ran.stdout == b"|fghij|\n|k    |\n", f"a {kind} program draws")


def check_install(bench):
    bench.needs("pkg-config", "readelf")
    below = bench.folder / "below"
    # The tool takes what stands in out/c of its clone.
    built = TOP / "out/c/lib/libvt.a"
    if not built.exists():
        raise Missing("out/c isn't built; libvt/tools/build_c.sh makes it")
    environment = {**os.environ, "DESTDIR": str(below)}
    install = [TOP / "tools/install.sh", "--unproved"]
    ran = bench.ends_well([*install, "/opt/vt"], "install.sh", env=environment)
    library = ["include/vt.h", "lib/libvt.a", "lib/libvt.so", "lib/libvt.so.1", "lib/pkgconfig/vt.pc"]
    for name in [*library, "share/vt/keymaps/us.map", "share/man/man3/vt.3", "share/man/man1/vt.1"]:
        bench.holds((below / "opt/vt" / name).exists() and name in ran.stdout.decode(), f"install.sh installs {name}")
    prefix = (below / "opt/vt/lib/pkgconfig/vt.pc").read_text().splitlines()[0]
    bench.holds(prefix == "prefix=/opt/vt", f"vt.pc has the prefix: {prefix}")
    bench.ends_well([*install, bench.folder / "here"], "install.sh without DESTDIR")
    for kind in LINKS:
        check_link(bench, kind)
    for words in (["-x"], ["a", "b"]):
        ran = bench.run([TOP / "libvt/tools/build_c.sh", *words])
        bench.holds(ran.returncode == 1 and b"usage" in ran.stderr, f"build_c.sh {words} ends with 1")


CHECKS = {
    "header": check_header,
    "codes": check_codes,
    "cuts": drawn.check_cuts,
    "cuts by valgrind": drawn.check_cuts_by_valgrind,
    "outs": drawn.check_outs,
    "workloads": drawn.check_workloads,
    "steps": steps.check_steps,
    "memory": check_memory,
    "threads": check_threads,
    "keys": typed.check_keys,
    "consoles": typed.check_consoles,
    "faults": typed.check_faults,
    "machines": machines.check_machines,
    "terminal": lambda bench: terminal.check_terminal(bench, binding(bench)),
    "programs": programs.check_programs,
    "python": check_python,
    "rust": check_rust,
    "fuzz": check_fuzz,
    "install": check_install,
    "guide": guide.check_guide,
}


def build(options):
    """The folder of the library, built with these options."""
    if not shutil.which("cc"):
        print("skipped: the C library: no C compiler (cc) is there")
        sys.exit(0)
    ran = subprocess.run([TOP / "libvt/tools/build_c.sh", *options], capture_output=True, text=True, check=False)
    if ran.returncode:
        raise Stop(2, ran.stderr.strip())
    return TOP / "out/c"


def main():
    words = argparse.ArgumentParser(description=__doc__.split("\n\n")[0])
    words.add_argument("--library", metavar="OUT", help="a folder that libvt/tools/build_c.sh filled")
    words.add_argument("--gate", action="store_true", help="the library is built over the crates that rt ci just left")
    words.add_argument("--vt", metavar="PROGRAM", help="the program vt; the one that tools/programs.py finds without it")
    words.add_argument("--only", default=",".join(CHECKS), metavar="CHECK,..", help=", ".join(CHECKS))
    words.add_argument("--add-interface", action="store_true", help="libvt/src/interface.txt gets what vt.h has more")
    words.add_argument("--runs", default="1000", metavar="N", help="how many random runs of keys")
    words.add_argument("--sessions", default="300", metavar="N", help="how many generated sessions")
    given = words.parse_args()
    interface.ADDS = given.add_interface
    names = given.only.split(",")
    unknown = [name for name in names if name not in CHECKS]
    if unknown:
        raise Stop(2, f"{unknown[0]}: one of {', '.join(CHECKS)} was wanted")
    try:
        typed.RUNS = number(given.runs, 1, 100_000, "runs")
        machines.RUNS = number(given.sessions, 1, 100_000, "sessions")
    except ValueError as fault:
        raise Stop(2, f"check_c.py: {fault}") from None
    library = pathlib.Path(given.library or build(["--gate"] * given.gate)).absolute()
    program = find_for_check("vt", given.vt)
    for file in (library / "lib/libvt.a", library / "lib/libvt.so.1"):
        if not file.exists():
            raise Stop(2, f"{file} isn't there")
    with tempfile.TemporaryDirectory() as folder:
        bench = Bench(library, folder, program)
        for name in names:
            try:
                CHECKS[name](bench)
            except Missing as missing:
                bench.skip(name, missing)
            except subprocess.TimeoutExpired as late:
                bench.holds(False, f"{name} ends: {late}")
    skipped = f", {len(bench.skipped)} skipped" if bench.skipped else ""
    print(f"{bench.passed} passed, {bench.failed} failed{skipped}")
    return 1 if bench.failed or not bench.passed else 0


if __name__ == "__main__":
    try:
        sys.exit(main())
    except Stop as stop:
        print(f"check_c.py: {stop}", file=sys.stderr)
        sys.exit(stop.status)
