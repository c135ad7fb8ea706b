#!/usr/bin/env python3
"""Checks examples/switches, tools/turns.py and what docs/guide/display-server.md quotes.

Each session is played and has to print its journal, and that has to be a legal one. Each `.words` file has to become
its session by tools/turns.py, which has to refuse words that no play reaches, with the item's number, and a Python that
has no reader of TOML. Words of another form are refused with the list of the words, which is that of
docs/reference/sessions.md. The lines of a journal that the guide quotes have to stand in the journal of the session
named before them, in the same order. Prints a line for each fault, and ends with status 1 if there is one.
"""
import pathlib
import re
import subprocess
import sys

sys.dont_write_bytecode = True
sys.path.insert(0, str(pathlib.Path(__file__).resolve().parents[1]))

from repository import TOP  # noqa: E402: after the folder that it stands in
from programs import find_for_check  # noqa: E402

FOLDER = TOP / "examples/switches"
GUIDE = TOP / "docs/guide/display-server.md"
SESSIONS = TOP / "docs/reference/sessions.md"
PROCESSES = """
[[process]]
home = 1
script = ["open 1", "waitsignal", "getstate 0"]
[[process]]
script = ["open 1", "say 0 a"]
"""
# Words of turns, with the numbers that they become, or the message that refuses them.
WORDS = [
    ('["p1 until item 1", "p2 once"]', [1, 2]),
    ('["p2 3 times", "k0 until it is over"]', [2, 2, 2, 0]),
    ('["p1 until it waits", 2]', [1, 1, 1, 2]),
    ('["all but p2 k0 until they wait"]', [1, 1, 1]),
    ('["p2 until it is over"]', [2, 2, 2, 2, 2]),
    ('["p1 until item 3"]', "turns 1: p1 waits after 3 calls, so it doesn't reach item 3"),
    ('["p1 until it waits", "p1 once"]', "turns 2: p1 waits after 3 calls, 0 of the 1"),
    ('["p1 once", "p1 until item 1"]', "turns 2: p1 has called item 1 before"),
    ('["p2 until item 3"]', "turns 1: p2 has 2 items, and no item 3"),
    ('["p2 6 times"]', "turns 1: p2 is over after 5 calls, 5 of the 6"),
    ('["p2 until it waits"]', "turns 1: p2 is over after 5 calls, and doesn't begin a wait"),
    ('["p1 until it is over"]', "turns 1: p1 waits after 3 calls, so it isn't over"),
    ('["p3 once"]', "turns 1: the session has no p3"),
    ("[9]", "turns 1: neither a text nor the number of a caller"),
]


def run(command, given):
    ran = subprocess.run(command, input=given, capture_output=True, timeout=120, check=False)
    return ran.returncode, ran.stdout.decode(errors="replace"), ran.stderr.decode(errors="replace")


def session_faults(path):
    session = path.read_bytes()
    journal = path.with_suffix(".journal").read_text(encoding="utf-8")
    status, printed, _ = run([find_for_check("vt"), "play"], session)
    if status or printed != journal:
        yield f"{path.name} doesn't give {path.stem}.journal"
    lines = journal.split("\n")
    end = next((number for number, line in enumerate(lines) if line.startswith("%end ")), 0)
    given = session + "".join(line + "\n" for line in lines[: end + 1]).encode()
    status, printed, _ = run([find_for_check("vt"), "check"], given)
    if status or printed != f"legal {end - 1}\n":
        yield f"{path.stem}.journal isn't a legal one of {path.name}"


def turns_faults():
    turns = [TOP / "tools/turns.py", "--vt", find_for_check("vt")]
    for path in sorted(FOLDER.glob("*.words")):
        _, printed, message = run([*turns, path], b"")
        if printed != path.with_suffix(".toml").read_text(encoding="utf-8"):
            yield f"{path.name} doesn't become {path.stem}.toml: {message.strip()}"
    for words, wanted in WORDS:
        given = f"turns = {words}\n{PROCESSES}".encode()
        status, printed, message = run([*turns, "-"], given)
        if isinstance(wanted, str):
            good = (status, message) == (1, f"turns.py: {wanted}\n")
        else:
            numbers = [int(n) for n in re.findall(r"\d+", printed.split("]")[0])]
            good = (status, numbers) == (0, wanted) and printed.endswith(PROCESSES)
        if not good:
            yield f"turns = {words} gives {(printed or message).split(chr(10) + '[[')[0].strip()}, not {wanted}"


def listed_words(text, form):
    """The words of `turns` in a list, with one spelling for what may be repeated."""
    return [re.sub(r" \[CALLER \.\.\]| \.\.", "", words).strip() for words in re.findall(form, text, re.M)]


def word_list_faults():
    """Words of no form are refused with the words that there are, and those are the words of the page."""
    page = listed_words(SESSIONS.read_text(encoding="utf-8"), r"^\| `((?:CALLER|all) [^`]*)` \|")
    given = f'turns = ["p1 once", "p1 twice"]\n{PROCESSES}'.encode()
    for word in ("-", "--help"):
        status, printed, message = run([TOP / "tools/turns.py", "--vt", find_for_check("vt"), word], given)
        named = listed_words(printed + message, r"^    ((?:CALLER|all) .*?)(?:  .*)?$")
        if named != page or len(page) < 7:
            yield f"turns.py {word} has the words {named}, and {SESSIONS.name} {page}"
        if word == "-" and (status, message.split("\n")[0]) != (1, "turns.py: turns 2: no such words: p1 twice"):
            yield f"words of no form are refused otherwise: {message}"


def old_python_faults():
    """A Python under 3.11 has no module tomllib."""
    script = f"import runpy, sys; sys.path.insert(0, {str(TOP / 'tools')!r}); sys.modules['tomllib'] = None; "
    script += f"sys.argv = ['turns.py', '-']; runpy.run_path({str(TOP / 'tools/turns.py')!r}, run_name='__main__')"
    status, printed, message = run([sys.executable, "-c", script], b"turns = []\n")
    if (status, printed) != (2, "") or not re.fullmatch(r"turns\.py: wanted Python 3\.11 [^\n]*\n", message):
        yield f"without tomllib turns.py ends with status {status}: {message.strip()}"


def quote_faults():
    """Lines that are quoted below the name of a session, and aren't in its journal."""
    names = {path.stem for path in FOLDER.glob("*.toml")}
    left, name = [], None
    # (below this heading stand commands with what they print, which check_watch.py runs)
    text = GUIDE.read_text(encoding="utf-8").partition("\n## Every order\n")[0]
    for number, line in enumerate(text.split("\n"), 1):
        if re.fullmatch(r"    [kp]\d+ \d+ .* = .*", line):
            if line.strip() not in left:
                yield f"{GUIDE.name}:{number}: not a line of {name}.journal after the lines before: {line.strip()}"
                continue
            left = left[left.index(line.strip()) + 1 :]
        else:
            for found in re.findall(r"`([a-z-]+)`", line):
                if found in names:
                    name = found
                    left = (FOLDER / f"{name}.journal").read_text(encoding="utf-8").split("\n")


def main():
    faults = [fault for path in sorted(FOLDER.glob("*.toml")) for fault in session_faults(path)]
    faults += [*turns_faults(), *word_list_faults(), *old_python_faults(), *quote_faults()]
    for fault in faults:
        print(fault)
    return 1 if faults else 0


if __name__ == "__main__":
    sys.exit(main())
