"""The page docs/library/c.md as a stranger follows it: its files and commands in an empty folder; and vt.3's example."""
import os
import pathlib
import re
import shutil
import sys

from check_pages import fits

from .bench import TOP, Missing

PAGE = TOP / "docs/library/c.md"
MANUAL = TOP / "man/vt.3"
BUILD = "~/vt/libvt/tools/build_c.sh"
FILE = re.compile(r"`([\w/.-]+\.(?:c|py|rs|toml))`")


def blocks(text):
    """Gives each indented block with the file that the paragraph before it names last, if that ends with a colon."""
    paragraph, block, is_over = [], [], False
    for line in [*text.splitlines(), "end"]:
        if line.startswith("    ") or (block and not line.strip()):
            block.append(line[4:])
            continue
        if block:
            names = FILE.findall(" ".join(paragraph)) if paragraph and paragraph[-1].endswith(":") else []
            while not block[-1]:
                block.pop()
            yield (names[-1] if names else None), block
            paragraph, block = [], []
        if not line.strip():
            is_over = True
        else:
            paragraph, is_over = [*([] if is_over else paragraph), line.rstrip()], False


def commands(block):
    """Gives each command of a block with the lines that it prints."""
    found = []
    for line in block:
        if line.startswith("$ "):
            found.append((line[2:], []))
        elif found:
            found[-1][1].append(line)
    return found


def check_manual(bench):
    """Compiles the example of the manual page, which prints the first row that `vt screen` prints of its text."""
    block = re.search(r"^\.Bd -literal.*\n(#include(?:.*\n)*?)\.Ed$", MANUAL.read_text(encoding="utf-8"), re.M)[1]
    source = bench.folder / "manual.c"
    source.write_text(block.replace("\\e", "\\"), encoding="utf-8")
    program = bench.compiled("manual", [source])
    if program:
        row = bench.run([bench.vt, "screen", "2", "5"], b"abcdefghijk").stdout.splitlines()[0].strip(b"|")
        printed = bench.ends_well([program], "the example of vt.3").stdout
        bench.holds(printed == row + b"\n", f"the example of vt.3 prints {row}, and not {printed}")


def check_guide(bench):
    """Writes the files of the page and runs its commands; `~/vt` is this clone."""
    check_manual(bench)
    if bench.library != TOP / "out/c":
        raise Missing("the library of the guide stands in out/c, and this one doesn't")
    home = bench.folder / "home"
    home.mkdir()
    (home / "vt").symlink_to(TOP)
    old = pathlib.Path.home()
    environment = {
        "CARGO_HOME": str(old / ".cargo"), "RUSTUP_HOME": str(old / ".rustup"), **os.environ, "HOME": str(home),
        "PYTHONDONTWRITEBYTECODE": "1"}
    ran_any = 0
    for file, block in blocks(PAGE.read_text(encoding="utf-8")):
        lines = commands(block)
        if file and not lines:
            (home / file).parent.mkdir(exist_ok=True)
            (home / file).write_text("\n".join(block) + "\n", encoding="utf-8")
        for command, wanted in lines:
            if command == BUILD:
                continue
            if "cargo" in command and not shutil.which("cargo"):
                bench.skip(f"`{command}` of the guide", "cargo isn't there")
                continue
            ran = bench.run(["bash", "-c", command], cwd=home, env=environment)
            printed = (ran.stdout + ran.stderr).decode("utf-8", "replace").splitlines()
            bench.holds(fits(wanted, printed), f"`{command}` of the guide prints:\n" + "\n".join(printed[:20]))
            ran_any += 1
    bench.holds(ran_any >= 5, f"the guide's commands are run: {ran_any}")
