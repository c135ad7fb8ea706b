#!/usr/bin/env python3
"""Checks that the examples of the pages print what the pages show.

In README.md, the pages of docs/ and those of examples/ each indented line `$ COMMAND` is run from the top of the
repository, with the programs that tools/programs.py finds, and the indented lines after it have to be what it prints; a
line `..` stands for any lines. So is each line `$ COMMAND` of an example in man/; the examples of a session and of a
keymap there have to be accepted, and each command of vt(1) has an example. docs/reference/codes.md has a row for each
code of tools/why.py. The words of tools/session_words.py are those of the tables of docs/reference/journal.md,
docs/reference/sessions.md and docs/reference/typing.md; its requests of ioctl_console(2), with their calls, are the
rows of docs/reference/compatibility.md, docs/reference/switching.md and docs/reference/journal.md name the same calls
for them, and vt-journal(5) lists those without. The adapter of docs/guide/write-a-terminal.md answers a case. The lines
of a journal that docs/guide/tour.md quotes have to stand in examples/tour.journal, in the same order.
docs/guide/test-a-terminal-program.md is run by dev/checks/check_expect.py, docs/guide/run-real-programs.md by
dev/checks/check_vtrun.py, the programs of docs/guide/embed-a-crate.md by dev/checks/check_snippets.py, and docs/library/c.md by libvt/tools/check_c.py. Prints a line for each difference. The
status is 1 if there is one, and 2 if a program isn't built.
"""
import json
import os
import pathlib
import re
import subprocess
import sys
import textwrap

sys.dont_write_bytecode = True
sys.path.insert(0, str(pathlib.Path(__file__).resolve().parents[1]))

from repository import TOP  # noqa: E402: after the folder that it stands in
import session_words  # noqa: E402
from programs import find_for_check, search_path  # noqa: E402

SECONDS = 60
# Pages whose commands another check runs, in a folder of their own.
RUN_ELSEWHERE = (
    "test-a-terminal-program.md", "from-pyte-and-pexpect.md", "from-libvterm.md", "embed-a-crate.md",
    "display-server.md", "c.md", "run-real-programs.md",
)  # fmt: skip


def examples(text):
    """Gives each command of a page with the lines that it prints there."""
    found = []
    for line in text.splitlines():
        if line.startswith("    $ "):
            found.append((line[6:], []))
        elif line.startswith("    ") and found and found[-1][1] is not None:
            found[-1][1].append(line[4:])
        elif line.strip() and found:
            found.append(("", None))
    return [(command, lines) for command, lines in found if lines is not None]


def fits(lines, printed):
    """Whether the lines are what was printed, empty ones left out; `..` stands for any lines."""
    parts = ["(?:.*\n)*?" if line == ".." else re.escape(line.rstrip()) + "\n" for line in lines if line.strip()]
    return re.fullmatch("".join(parts), "".join(line.rstrip() + "\n" for line in printed if line.strip())) is not None


def differences(page, examples_of_page, path=None):
    path = path or search_path()
    for command, lines in examples_of_page:
        run = {"cwd": TOP, "env": {**os.environ, "PATH": path}, "stdin": subprocess.DEVNULL, "capture_output": True}
        try:
            ran = subprocess.run(["bash", "-c", command], timeout=SECONDS, check=False, **run)
        except subprocess.TimeoutExpired:
            yield f"{page.name}: `{command}` runs for over {SECONDS} seconds"
            continue
        printed = (ran.stdout + ran.stderr).decode("utf-8", "replace").splitlines()
        if not fits(lines, printed):
            yield f"{page.name}: `{command}` prints something else:\n" + "\n".join(printed[:12])


def page_faults(page):
    return differences(page, examples(page.read_text(encoding="utf-8")))


# The command that takes what a page of man/ shows without one.
TAKEN_BY = {"vt-session.5": "play", "vt-keymap.5": "keys"}


def manual_faults(page):
    text = page.read_text(encoding="utf-8").replace("\\e", "\\").replace("\\&", "")
    for block in re.findall(r"\.Bd -literal.*\n((?:.*\n)*?)\.Ed\n", text):
        if block.startswith("$ "):
            command, *lines = block[2:].splitlines()
            yield from differences(page, [(command, lines)])
        elif page.name in TAKEN_BY:
            words = [find_for_check("vt"), TAKEN_BY[page.name]]
            ran = subprocess.run(words, input=block.encode(), capture_output=True, timeout=SECONDS, check=False)
            if ran.returncode:
                yield f"{page.name}: its example is refused: {ran.stderr.decode('utf-8', 'replace')}"


def tour_faults():
    page, journal = TOP / "docs/guide/tour.md", TOP / "examples/tour.journal"
    if not page.exists():
        return
    left = journal.read_text(encoding="utf-8").splitlines()
    for line in page.read_text(encoding="utf-8").splitlines():
        quoted = re.fullmatch(r"    ([kp]\d+ \d+ .* = .*)", line)
        if not quoted:
            continue
        if quoted[1] not in left:
            yield f"tour.md: the journal has no line `{quoted[1]}` there"
        else:
            left = left[left.index(quoted[1]) + 1 :]


def command_faults(page):
    """Gives a fault for each command of vt(1) without an example."""
    text = page.read_text(encoding="utf-8")
    commands = re.findall(r"^\.It Nm Cm (\w+)", text, re.M)
    shown = re.search(r"^\.Sh EXAMPLES\n((?:(?!\.Sh ).*\n)*)", text, re.M)
    for command in commands:
        if not re.search(rf"\bvt {command}\b", shown[1] if shown else ""):
            yield f"{page.name}: the command {command} has no example"


def adapter_faults(page):
    """Runs the adapter that the page shows on one case."""
    block = re.search(r"^    import json, subprocess, sys\n(?:    .*\n|\n)*", page.read_text(encoding="utf-8"), re.M)
    if not block:
        yield f"{page.name}: no adapter"
        return
    path = search_path()
    case, wanted = {"case": 7, "rows": 2, "columns": 3, "pieces": ["a", "b\r\nc"]}, {"case": 7, "text": ["ab ", "c  "]}
    run = {"input": json.dumps(case) + "\n", "env": {**os.environ, "PATH": path}, "capture_output": True, "text": True}
    ran = subprocess.run([sys.executable, "-c", textwrap.dedent(block[0])], timeout=SECONDS, check=False, **run)
    if ran.stdout.strip() != json.dumps(wanted):
        yield f"{page.name}: the adapter answers something else:\n{ran.stdout}{ran.stderr}"


def code_faults():
    """Gives a fault for each code that tools/why.py explains and docs/reference/codes.md has no row for."""
    explained = re.findall(r"^    (\d+): ", (TOP / "tools/why.py").read_text(encoding="utf-8"), re.M)
    listed = re.findall(r"^\| (\d+) \|", (TOP / "docs/reference/codes.md").read_text(encoding="utf-8"), re.M)
    for code in sorted(set(explained) - set(listed), key=int):
        yield f"codes.md: code {code} has no row"


def rows_of(page, heading):
    """Gives the rows of the tables under a heading of a page, each as its cells."""
    text = (TOP / "docs/reference" / page).read_text(encoding="utf-8")
    part = re.search(rf"^(#+) {re.escape(heading)}\n((?:(?!#+ ).*\n)*)", text, re.M)
    for line in re.findall(r"^\|(.*)\|$", part[2] if part else "", re.M):
        cells = [it.strip() for it in line.split(" | ")]
        if not set(cells[0]) <= set("- |"):
            yield cells


def request_faults():
    """Gives a fault for each request of ioctl_console(2) that a page lacks, or has for another call."""
    wanted = [[name, f"`{call}`" if call else "none"] for name, call in session_words.REQUESTS.items()]
    found = [cells[:2] for cells in rows_of("compatibility.md", "The requests of ioctl_console(2)")][1:]
    for name, call in wanted:
        if [name, call] not in found:
            yield f"compatibility.md: no row of {name} with {call}"
    if [name for name, _ in found] != list(session_words.REQUESTS):
        yield "compatibility.md: the requests aren't those of ioctl_console(2), in its order"
    for page, heading in [("switching.md", "The table of calls"), ("journal.md", "The words of calls")]:
        named = {}
        for first, *others in rows_of(page, heading):
            requests = re.findall(r"\b(?:KD|VT_(?!AUTO|PROCESS)|[GP]IO_)[A-Z]+\b", " ".join([first, *others[:1]]))
            named.update(zip(requests, re.findall(r"`([a-z]+)[^`]*`", first)))
        for name, call in session_words.REQUESTS.items():
            if call != named.get(name, call) or (call and name not in named and name != "KDGKBDIACR"):
                yield f"{page}: {name} is {named.get(name)} there, and {call}"
    manual = (TOP / "man/vt-journal.5").read_text(encoding="utf-8").split("have no call:")[-1]
    if re.findall(r"[A-Z_]+", manual) != [name for name, call in session_words.REQUESTS.items() if not call]:
        yield "vt-journal.5: the requests without a call are others"


def word_faults():
    """Gives a fault for each list of words that isn't that of its page."""
    rows = rows_of("journal.md", "The words of calls")
    calls = [form for first, *_ in rows for form in re.findall("`([^`]+)`", first)]
    tables = [cells[1] for cells in rows_of("sessions.md", "The table") if cells[0].isdigit()]
    typing = [cells[0].strip("`") for cells in rows_of("typing.md", "`vt type`") if cells[1].isdigit()]
    for name, found, wanted in [
        ("journal.md: calls", calls, session_words.CALLS),
        ("sessions.md: keys", tables, [*session_words.TOP_KEYS, *session_words.PROCESS_KEYS]),
        ("typing.md: keys", typing, session_words.TYPE_KEYS),
    ]:
        if sorted(found) != sorted(wanted):
            yield f"{name} aren't those of tools/session_words.py: {sorted(set(found) ^ set(wanted))}"


def main():
    find_for_check("vt"), find_for_check("watch")
    pages = [TOP / "README.md", *sorted((TOP / "docs").rglob("*.md")), *sorted((TOP / "examples").glob("*/README.md"))]
    pages = [page for page in pages if page.name not in RUN_ELSEWHERE]
    manuals = sorted((TOP / "man").glob("*"))
    faults = [fault for page in pages for fault in page_faults(page)]
    faults += [fault for page in manuals for fault in manual_faults(page)] + list(tour_faults())
    faults += [*command_faults(TOP / "man/vt.1"), *code_faults(), *request_faults(), *word_faults()]
    faults += adapter_faults(TOP / "docs/guide/write-a-terminal.md")
    for fault in faults:
        print(fault)
    return 1 if faults else 0


if __name__ == "__main__":
    sys.exit(main())
