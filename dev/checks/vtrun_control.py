"""Parts of check_vtrun.py: the words that steer vtrun, typing, and the control socket's protocol."""
import json
import re
import socket
import sys
import textwrap

from programs import TOP
from vtrun_runs import TESTS, command, need

PAGE = TOP / "docs/reference/vtrun.md"
KEYS = "keycode 30 = a\nkeycode 31 = U+00e4\nkeycode 48 = b\n"
# The row of vtrun/tests/runs/odd_cells.py: U+FFFD in place of each character that no terminal may get.
ODD = "x\ufffd\ufffd\ufffd\ufffdx\n".encode()
# What is asked by vtrun/tests/runs/speaker.py, and its answer.
WANTED = {
    "hello": ["ok", "vtrun 1\n"],
    "front": ["ok", "1\n"],
    "consoles": ["ok", "1 25 80 0 0 1 0 0 0 0\n2 25 80 0 0 1 0 0 0 0\n"],
    "row 1 0": ["ok", "\n"],
    "row 1 25": ["no", "the screen of console 1 has no such row"],
    "snap 7": ["no", "console 7 isn't allocated"],
    "snap x": ["no", "a console from 0 to 63 was wanted"],
    "bogus": ["no", "bogus: no such request"],
    "wait front 2 10": ["no", "it didn't come in time"],
    "wait front 0 10": ["no", "`wait front N MS` was wanted"],
    "journal": ["no", "there is no journal: vtrun -j writes one"],
    "wait program 1 5": ["no", "`wait program K MS` was wanted, with a program that was started"],
    "scan 1": ["no", "1: bytes of two hexadecimal digits were wanted"],
    "scan 1e9e": ["no", "1e9e: bytes of two hexadecimal digits were wanted"],
    "scan": ["no", ": bytes of two hexadecimal digits were wanted"],
    "scan 1e ": ["no", ": bytes of two hexadecimal digits were wanted"],
    "hello 1": ["no", "`hello` was wanted, with no words after it"],
    "front ": ["no", "`front` was wanted, with no words after it"],
    "consoles 1": ["no", "`consoles` was wanted, with no words after it"],
    "processes 1": ["no", "`processes` was wanted, with no words after it"],
    "journal x": ["no", "`journal` was wanted, with no words after it"],
    "end now": ["no", "`end` was wanted, with no words after it"],
    "end\0now": ["no", "a line without null bytes was wanted"],
    "snap 1 2": ["no", "`snap N` was wanted"],
    "snap 1 ": ["no", "`snap N` was wanted"],
    "redraw 1 2": ["no", "`redraw N` was wanted"],
    "svg 1 2": ["no", "`svg N` was wanted"],
    "row 1 0 2": ["no", "`row N R` was wanted"],
    "wait front 1 1 1": ["no", "`wait front N MS` was wanted"],
    "type": ["no", "`type LENGTH` was wanted"],
    "type x": ["no", "`type LENGTH` was wanted"],
    "type 1 3": ["no", "`type LENGTH` was wanted"],
    "wait text 1 1 1 3": ["no", "`wait text N MS LENGTH` was wanted"],
    "typed": ["ok", ""],
    "front after": ["ok", "2\n"],
    "wait text": ["no", "it didn't come in time"],
    "run": ["ok", "1\n"],
    "wait text 2": ["ok", ""],
    "program": ["ok", "5\n"],
    "run bad": ["no", "`run N LENGTH` was wanted, and words with a null byte after each"],
    "svg": "<svg",
    "redraw": True,
    "half": "no 22\nit didn't come in time",
    "full": 20000,
    "big": "no 23",
    "still": ["ok", "2\n"],
    "attached": True,
    "attached switch": ["ok", ""],
}
STATUSES = [0, 1, 0, 1, 1, 0, 0, 1, 1, 0, 0, 3, 0, 1, 2, 2, 3, 3, 2, 0] + 3 * [0] + 22 * [2]
# What is said of an answer to /dev/full, then the statuses of this and of a closed standard output.
FULL = "vtrun: standard output can't be written: No space left on device"
UNWRITTEN = 2 * [FULL, "3", "3"] + [FULL, "125", "125"]
TYPED = 'aZ09 !~{|\\<"^M\t^[^[[A^[[[A^[[24~^[[[A^[[6~^[[3~^A^[x^[y^[#'


def check_protocol(check, place):
    """The protocol, as its page has it, and clients that don't keep to it."""
    function = re.search(r"(?m)^    def ask\(.*\n(?:    .*\n)+", PAGE.read_text(encoding="utf-8"))[0]
    text = (TESTS / "runs/speaker.py").read_text(encoding="utf-8")
    file = place.new("speaker")
    file.write_text(text.replace("\nASK\n", f"\n{textwrap.dedent(function)}\n"), encoding="utf-8")
    ran = place.run(f"exec {sys.executable} {file}", "--consoles", "1-2")
    try:
        seen = json.loads(ran.out)
    except ValueError:
        check.holds(False, f"the protocol: status {ran.status}: {ran.out} {ran.err}")
        return
    check.holds(seen.pop("type bad")[0] == "no", "a text that is no key is typed")
    for name, wanted in WANTED.items():
        check.holds(seen.get(name) == wanted, f"{name}: {seen.get(name)}, wanted {wanted}")


def check_words(check, place):
    """Each word ends with a status that a script can test."""
    ran = place.play("words", "--consoles", "1-2")
    wanted = [str(it) for it in STATUSES]
    check.holds(ran.lines()[: len(wanted)] == wanted, f"statuses: {ran.lines()}, wanted {STATUSES}")
    check.holds(ran.lines()[len(wanted) :] == UNWRITTEN, f"answers that can't be written: {ran.lines()[len(wanted):]}")


def check_odd_cells(check, place):
    """Texts of screens are UTF-8, and have no control characters, whatever a program draws."""
    ran = place.run(f"{sys.executable} {TESTS}/runs/odd_cells.py")
    check.holds(ran.lines() == [repr(ODD)], f"odd characters: {ran.lines()} {ran.err}")
    script = "printf 'a\\033\\303b c' > /proc/$$/comm; exec 3<> /dev/tty1; vtrun processes | cut -d ' ' -f 6-"
    ran = place.run(script)
    check.holds(ran.lines() == ["a??b c"], f"an odd name of a process: {ran.lines()} {ran.err}")


def check_typing(check, place):
    """Characters and names of keys, as programs get them; and after another keymap."""
    need("loadkeys")
    ran = place.play("typing", "--consoles", "1-2")
    check.holds(ran.lines()[:1] == [TYPED], f"typed keys: {ran.lines()}, wanted {TYPED} {ran.err}")
    check.holds(ran.lines()[-1:] == ["q"], f"a key that was loaded: {ran.lines()}")


def check_attach(check, place):
    """`vtrun attach` shows the console in front on a terminal, types its keys, and leaves it by Ctrl+]."""
    script = f"printf first > /dev/tty1; printf second > /dev/tty2; {sys.executable} {TESTS}/runs/attach.py"
    ran = place.run(script, "--consoles", "1-2")
    wanted = ["first True", "second True", "second True", "1049l True", "0"]
    check.holds(ran.lines() == wanted, f"attach: {ran.lines()} {ran.err}")
    keymap = place.new("keymap")
    keymap.write_text(KEYS, encoding="ascii")
    ran = place.run(f"{sys.executable} {TESTS}/runs/cut_keys.py", "--keymap", str(keymap))
    check.holds(ran.lines() == ["typed True"], f"a character in two pieces: {ran.lines()} {ran.err}")
    ran = command([sys.executable, TESTS / "runs/ends.py"], env=place.environment())
    wanted = ["gone True 0", "refused True 1", "resized True True"]
    check.holds(ran.stdout.splitlines() == wanted, f"attach at rare moments: {ran.stdout} {ran.stderr}")


def check_socket(check, place):
    """A socket that was named is taken away at the end, and one that is in use is refused."""
    path = place.folder / "control"
    ran = place.run("echo $VTRUN_SOCKET; vtrun --socket $VTRUN_SOCKET front", "--socket", str(path))
    check.holds(ran.lines() == [str(path), "1"] and not path.exists(), f"--socket: {ran.lines()} {ran.err}")
    with socket.socket(socket.AF_UNIX) as other:
        other.bind(str(path))
        ran = place.run("true", "--socket", str(path))
    check.holds(ran.status == 126 and "Address already in use" in ran.err, f"a socket in use: {ran.status} {ran.err}")
    ran = command([place.folder / "vtrun", "--socket", "x" * 200, "--", "true"])
    check.holds(ran.returncode == 2, f"a long path: {ran.returncode}")


PARTS = {
    "protocol": check_protocol, "words": check_words, "odd cells": check_odd_cells, "typing": check_typing,
    "attach": check_attach, "socket": check_socket,
}  # fmt: skip
