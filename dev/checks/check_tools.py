#!/usr/bin/env python3
"""Checks how the users' tools end on bad input: with a status and one line, and never with a traceback.

usage: dev/checks/check_tools.py

Each tool gets closed and full standard streams, a folder in place of a file, and an interrupt; tools/turns.py and
tools/keymap.py get numbers of many digits, a name that isn't UTF-8, and programs that print something else. It wants
the C library (tools/build.py c), which tools/expect.py loads. Prints a line for each run that ends otherwise and last
'N passed, M failed'; status 1 if one fails.
"""
import os
import pathlib
import re
import signal
import subprocess
import sys
import tempfile
import time

sys.dont_write_bytecode = True
sys.path.insert(0, str(pathlib.Path(__file__).resolve().parents[1]))

from repository import TOP  # noqa: E402: after the folder that it stands in

SECONDS, MOST_START = 300, 20
DIGITS = "9" * 5000
LATIN = os.fsdecode(b"caf\xe9.map")
PROCESS = '[[process]]\nscript = ["open 1"]\n'
FILES = {
    LATIN: "keycode 30 = a\n",
    "good.map": "keycode 30 = a\n",
    "digits.map": f"keycode {DIGITS} = a\n",
    "digits.toml": f"turns = [{DIGITS}]\n{PROCESS}",
    "once.toml": f'turns = ["p1 once"]\n{PROCESS}',
    "times.toml": f'turns = ["p1 {DIGITS} times"]\n{PROCESS}',
    "item.toml": f'turns = ["p1 until item {DIGITS}"]\n{PROCESS}',
}
# A program that plays each session as one with no calls.
PLAYER = "#!/bin/sh\necho '%journal 2'\necho '%end 0 0'\n"
# A shell's command with the name of each tool, its status, and what the line on err has.
RUNS = [
    ("keymap $LATIN", 0, ""),
    ("keymap good.map 2>&-", 0, ""),
    ("keymap good.map >&-", 1, "standard output: Bad file descriptor"),
    ("keymap good.map > /dev/full", 1, "standard output: No space left on device"),
    ("keymap - <&-", 1, "standard input: Bad file descriptor"),
    ("keymap .", 1, r"\.: can't be read: it is a folder"),
    ("keymap /dev/zero", 1, "/dev/zero: can't be read: it is no regular file"),
    ("keymap digits.map", 1, r"digits\.map:1: 9{57}\.\.\.: not a number"),
    ("keymap --charset nosuch good.map", 1, '--charset: charset "nosuch": kbd has no such character set'),
    ("turns digits.toml", 1, "the session is no TOML document: Exceeds the limit"),
    ("turns --vt ./player times.toml", 1, "turns 1: more than 1000000 turns"),
    ("turns --vt ./player item.toml", 1, r"turns 1: p1 has 1 items, and no item 9{57}\.\.\."),
    ("turns --vt ./player once.toml", 1, "turns 1: p1 waits after 0 calls, 0 of the 1"),
    ("turns --vt /bin/echo once.toml", 2, "/bin/echo play printed no journal"),
    ("turns --vt /bin/true once.toml", 2, "/bin/true play printed no journal"),
    ("turns - <&- >&-", 3, "standard input: Bad file descriptor"),
    ("turns --help > /dev/full", 3, "standard output: No space left on device"),
    ("timeline <&-", 3, "standard input: Bad file descriptor"),
    ("why good.map <&-", 2, "Bad file descriptor"),
    ("echo 'vt: refused 2 at 1:1' | why good.map >&-", 2, "standard output: Bad file descriptor"),
    ("echo 'vt: refused 2 at 1:1' | why good.map > /dev/full", 2, "standard output: No space left on device"),
    ("engines --help >&-", 2, "standard output: Bad file descriptor"),
    ("expect --help >&-", 2, "standard output: Bad file descriptor"),
    ("copy_crates vt_base repository >&-", 1, "standard output: Bad file descriptor"),
    ("user_tools > /dev/full", 1, "standard output: No space left on device"),
]
INTERRUPTED = [("keymap -", 1), ("turns -", 1), ("timeline -", 1), ("why good.map", 1)]


def command(words):
    """A command of the shell, with the path of its tool."""
    return re.sub(r"^(.*\| )?(\w+)(?= |$)", lambda it: f"{it[1] or ''}{TOP}/tools/{it[2]}.py", words)


def fault_of(words, folder, environment, status, said):
    """Why a run ended otherwise, or None."""
    ran = subprocess.run(
        ["sh", "-c", command(words)], cwd=folder, env=environment, stdin=subprocess.DEVNULL, capture_output=True,
        timeout=SECONDS, check=False,
    )  # fmt: skip
    err = ran.stderr.decode("utf-8", "backslashreplace")
    lines = err.splitlines()
    if ran.returncode != status or len(lines) > bool(said) or not re.search(said, err):
        return f"{words}: status {ran.returncode}, and on err: {err[-300:].strip() or 'nothing'}"
    return None


def interrupt_fault(words, folder, environment, status):
    """The same for a tool that reads standard input when it is interrupted."""
    # (a check in the background of a shell begins with interrupts ignored, and so would the tool)
    with subprocess.Popen(
        ["sh", "-c", f"exec {command(words)}"], cwd=folder, env=environment, stdin=subprocess.PIPE,
        stdout=subprocess.DEVNULL, stderr=subprocess.PIPE,
        preexec_fn=lambda: signal.signal(signal.SIGINT, signal.SIG_DFL),
    ) as ran:  # fmt: skip
        end = time.monotonic() + MOST_START
        # (it reads when it sleeps in a read of its standard input)
        while "pipe_read" not in waits_in(ran.pid) and time.monotonic() < end:
            time.sleep(0.05)
        ran.send_signal(signal.SIGINT)
        err = ran.communicate(timeout=SECONDS)[1].decode("utf-8", "backslashreplace")
    tool = words.partition(" ")[0]
    if (ran.returncode, err) != (status, f"{tool}.py: interrupted\n"):
        return f"{words}, interrupted: status {ran.returncode}, and on err: {err[-300:].strip()}"
    return None


def waits_in(pid):
    """Where in the kernel a process sleeps."""
    try:
        found = pathlib.Path(f"/proc/{pid}/wchan").read_text(encoding="ascii")
    except OSError:
        return ""
    return found


def main():
    # (some programs are made for this check, so any program has to count)
    environment = {
        name: value for name, value in os.environ.items() if not name.startswith("PYTHON") and name != "VT_PROVED"
    }
    environment |= {"LATIN": LATIN, "PYTHONDONTWRITEBYTECODE": "1"}
    with tempfile.TemporaryDirectory(prefix="check-tools-") as name:
        folder = pathlib.Path(name)
        for file, text in FILES.items():
            (folder / file).write_text(text, encoding="ascii")
        (folder / "player").write_text(PLAYER, encoding="ascii")
        (folder / "player").chmod(0o755)
        results = [fault_of(words, folder, environment, *wanted) for words, *wanted in RUNS]
        results += [interrupt_fault(words, folder, environment, status) for words, status in INTERRUPTED]
    faults = [why for why in results if why]
    for why in faults:
        print(why)
    print(f"{len(results) - len(faults)} passed, {len(faults)} failed")
    return 1 if faults else 0


if __name__ == "__main__":
    sys.exit(main())
