#!/usr/bin/env python3
"""Finds what checks each code block of each page, and checks the blocks that no other tool does.

usage: dev/checks/check_blocks.py [--list]

A code block is a run of lines indented by four, on README.md, CONTRIBUTING.md, the pages of docs/ (without those that
dev/gen/api.py writes) and those of examples/ and dev/models/. Each block is one of these:

- It has commands (`$ COMMAND`): dev/checks/check_pages.py runs it, or the tool of ELSEWHERE for its page.
- It has lines of a journal, on a page of QUOTES: the tool there looks for them in the journal.
- The paragraph before it ends with a colon and names a file of this repository last, in backquotes: its lines stand in
  that file, one after another; a line `..` stands for any lines.
- It is a command `(cd crates/NAME && .. rt run -- WORDS)`, or with `rt try`: the built program does the same, and its
  rows are those that the next paragraph has in backquotes, if it has any.
- It is a session (it begins with `rows = `): `vt play` accepts it. It is a journal (it begins with `%journal`): it is
  well formed.
- It stands in LEFT, with the reason why nothing runs it.

The literal blocks of man/ have commands, or are in MANUALS with what checks them; dev/checks/check_pages.py gives those
of vt-session(5) and vt-keymap(5) to `vt`.

`--list` prints each block with what checks it. Prints a line for each fault, and ends with status 1 if there is one.
"""
import pathlib
import re
import subprocess
import sys

sys.dont_write_bytecode = True
sys.path.insert(0, str(pathlib.Path(__file__).resolve().parents[1]))

import repository  # noqa: E402,F401: it has the folders of the modules below
from check_pages import SECONDS, TOP  # noqa: E402
from check_snippets import stands_in  # noqa: E402
from programs import CRATES, find_for_check  # noqa: E402

DRAWING, FORM, USAGE = "a drawing", "the form of lines, with names for their parts", "a usage line with names for its parts"
BUILD = "a build of all programs; check_build.py builds one of them"
# The tools that check the commands and files of a page in a folder of its own.
ELSEWHERE = {
    "docs/guide/test-a-terminal-program.md": "check_expect.py",
    "docs/guide/from-pyte-and-pexpect.md": "check_expect.py",
    "docs/guide/from-libvterm.md": "check_expect.py",
    "docs/guide/embed-a-crate.md": "check_snippets.py",
    "docs/guide/display-server.md": "check_watch.py",
    "docs/guide/run-real-programs.md": "check_vtrun.py",
    "docs/library/c.md": "check_c.py",
}
# What checks the blocks of man/ that have no commands.
MANUALS = {
    "vt-session.5": "check_pages.py", "vt-keymap.5": "check_pages.py", "vt.3": "check_c.py",
    "vt-journal.5": f"nothing: {FORM}", "vtrun.1": "check_vtrun.py",
}  # fmt: skip
# The tools that check single blocks, by their first words.
OTHERS = {"docs/guide/write-a-terminal.md": {"import json": "check_pages.py"}}
# The tools that look for the quoted lines of a journal.
QUOTES = {"docs/guide/tour.md": "check_pages.py", "docs/guide/display-server.md": "check_switches.py, check_watch.py"}
QUOTED = re.compile(r"[kp]\d+ \d+ .* = .*")
FILE = re.compile(r"`((?:crates|examples|include)/[\w/.-]+)`")
NAMED = re.compile(r"`[\w/.-]+\.\w+`")
# The first words of blocks that nothing runs, with the reason.
LEFT = {
    "README.md": {"keyboard    a": DRAWING, "tools/build.py &&": BUILD},
    "docs/reference/explore.md": {"explore [--json]": USAGE},
    "docs/reference/redraw.md": {"redraw 25 80": USAGE, "modes that the rows need": "the order of the parts of a text"},
    "docs/reference/review.md": {"A E display N": FORM},
    "docs/reference/vtrun.md": {"ok LENGTH": FORM, "def ask(": "check_vtrun.py speaks the protocol with this function"},
    "docs/reference/watch.md": {"watch < FILE": USAGE, "now: front F": FORM},
    "docs/contributing/architecture.md": {
        "src/        one type": "the folders of a crate",
        "vt screen 25 80 < file": USAGE, "vt keys < keymap": USAGE, "vt type < table": USAGE, "vt cook < bytes": USAGE,
        "vt play < session.toml": USAGE, "vt race < session.toml": USAGE, "cat session.toml journal": USAGE,
    },
    "docs/contributing/gate.md": {
        "fn my_first::bump": "what a failed proof prints",
        "apt-get install": "it changes the machine",
    },
    "docs/contributing/performance.md": {"dev/bench/": "a measurement of many minutes"},
    "docs/guide/display-server.md": {"asks for console 2": DRAWING},
    "docs/guide/embed-a-crate.md": {
        "cd my-console/crates/first && rt check": "a proof of some minutes; check_snippets.py compiles and runs the program",
    },
    "docs/guide/install.md": {
        "tools/build.py": BUILD, "PATH=": "check_pages.py sets such a path",
        "tools/copy_crates.py": "a proof of all programs",
        "tools/install.sh": "check_install.py installs into a folder of its own",
        "dpkg-buildpackage": "libvt/tools/check_packages.sh builds the packages",
    },
    "docs/guide/run-real-programs.md": {
        "PATH=": "check_vtrun.py sets such a path", "vtrun --socket": "it wants a terminal; check_vtrun.py attaches to one",
        "export SEATD_VTBOUND": "check_vtrun.py runs seatd with other waits", "- run:": "lines of a service's file",
    },
    "docs/guide/test-a-terminal-program.md": {"PATH=": "check_expect.py sets such a path"},
    "docs/guide/tour.md": {"console 1  ====": DRAWING},
    "docs/guide/write-a-terminal.md": {"sequence          pyte": "measured figures of other engines"},
    "docs/library/c.md": {
        "struct vt_cell shown": "a part of a program; libvt/tests/machine_codes.c makes these calls",
        "libvt/bench/c_library.py": "a measurement of many minutes", "pip wheel": "check_python.py makes a wheel in a folder of its own",
    },
    "examples/conformance/README.md": {"dev/gen/make_conformance.py --more": "it writes 100,000 cases"},
    "examples/pictures/README.md": {
        "../../tools/record.py": "it records a program of Debian 12, with keys and times", "[Layout]": "lines of another program",
    },
    "examples/recordings/README.md": {"../../tools/record.py": "it records the programs of Debian 12, with keys and times"},
    "examples/tests/README.md": {"../../tools/record.py": "it records the programs of Debian 12, with keys and times"},
    "dev/models/README.md": {"dev/checks/check_models.py": "`.ci/run` runs it; `--long` takes hours"},
}  # fmt: skip


def pages():
    docs = [page for page in sorted((TOP / "docs").rglob("*.md")) if "api" not in page.parts]
    others = [*sorted((TOP / "examples").glob("*/README.md")), TOP / "dev/models/README.md"]
    return [TOP / "README.md", TOP / "CONTRIBUTING.md", *docs, *others]


def blocks(text):
    """Gives each block with the number of its line, the paragraph before it and the one after it."""
    lines = [*text.splitlines(), "end"]
    at, paragraph, listed = 0, [], False
    while at < len(lines):
        if lines[at].startswith("    ") and not listed:
            first = at
            while lines[at].startswith("    ") or (not lines[at].strip() and lines[at + 1].startswith("    ")):
                at += 1
            after = "\n".join(lines[at:]).lstrip("\n").split("\n\n")[0]
            yield first + 1, [line[4:] for line in lines[first:at]], " ".join(paragraph), after
            paragraph = []
            continue
        if lines[at].strip():
            listed = bool(re.match(r"\s*(?:-|\d+\.) ", lines[at])) or (listed and lines[at].startswith(" "))
            paragraph = [*(paragraph if at and lines[at - 1].strip() else []), lines[at]]
        at += 1


def run(command, given=b""):
    ran = subprocess.run(command, input=given, capture_output=True, timeout=SECONDS, check=False, cwd=TOP)
    return ran.returncode, (ran.stdout + ran.stderr).decode("utf-8", "replace")


def named_file(block, before):
    """The file whose lines the block has, if the paragraph before it names one last."""
    names = FILE.findall(before) if before.endswith(":") else []
    return names[-1] if names and (TOP / names[-1]).is_file() and not block[0].startswith("$ ") else None


def program_faults(block, after):
    """Runs the built program as the block runs it; the page has the lines that it prints after the block."""
    folder, command, words = re.fullmatch(r"\(cd (crates/\w+) && (.*?)rt (?:run|try) -- (.*)\)", block[0]).groups()
    name = next((name for name, crate in CRATES.items() if folder == f"crates/{crate}"), None)
    if not name:
        return [f"tools/programs.py has no program of {folder}"]
    status, printed = run(["bash", "-c", f"cd {folder} && {command}{find_for_check(name)} {words}"])
    rows = re.findall(r"`(\|.*?\|)`", after)
    good = status == 0 and rows in ([], printed.split("\n")[:-1])
    return [] if good else [f"it ends with {status} and prints\n{printed}"]


def checked_by(page, block, before, after):
    """Gives what checks the block, and its faults."""
    if any(line.startswith("$ ") for line in block):
        return ELSEWHERE.get(page, "check_pages.py"), []
    if page in QUOTES and any(QUOTED.fullmatch(line) for line in block):
        return QUOTES[page], []
    for words, why in LEFT.get(page, {}).items():
        if block[0].startswith(words):
            return f"nothing: {why}", []
    if block[0].startswith("(cd crates/") and "rt " in block[0]:
        return "this tool: the built program", program_faults(block, after)
    file = named_file(block, before)
    if file:
        good = stands_in("\n".join(block), TOP / file)
        return f"this tool: {file}", [] if good else [f"these lines don't stand in {file}"]
    if block[0].startswith("rows = "):
        status, printed = run([find_for_check("vt"), "play"], "\n".join(block).encode())
        return "this tool: vt play", [] if status == 0 else [f"`vt play` refuses it: {printed}"]
    if block[0].startswith("%journal"):
        status, printed = run([find_for_check("vt"), "check"], ("rows = 1\n" + "\n".join(block) + "\n").encode())
        return "this tool: vt check", [] if status in (0, 8) else [f"`vt check` refuses it: {printed}"]
    if page in ELSEWHERE and before.endswith(":") and NAMED.search(before):
        return ELSEWHERE[page], []
    for words, tool in OTHERS.get(page, {}).items():
        if block[0].startswith(words):
            return tool, []
    return "nothing", ["no check has it"]


def main():
    find_for_check("vt")
    faults, used = [], set()
    for path in pages():
        page = str(path.relative_to(TOP))
        for number, block, before, after in blocks(path.read_text(encoding="utf-8")):
            by, found = checked_by(page, block, before, after)
            used.add((page, by))
            if "--list" in sys.argv[1:]:
                print(f"{page}:{number}: {block[0][:60]}: {by}")
            faults += [f"{page}:{number}: {fault}" for fault in found]
    for path in sorted((TOP / "man").iterdir()):
        for block in re.findall(r"^\.Bd -literal.*\n((?:.*\n)*?)\.Ed$", path.read_text(encoding="utf-8"), re.M):
            by = "check_pages.py" if block.startswith("$ ") else MANUALS.get(path.name)
            if "--list" in sys.argv[1:]:
                print(f"man/{path.name}: {block.splitlines()[0][:60]}: {by}")
            faults += [] if by else [f"man/{path.name}: no check has the block\n{block}"]
    for page, words in LEFT.items():
        faults += [f"{page}: no block begins with {it}" for it, why in words.items() if (page, f"nothing: {why}") not in used]
    for fault in faults:
        print(fault)
    return 1 if faults else 0


if __name__ == "__main__":
    sys.exit(main())
