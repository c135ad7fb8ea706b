#!/usr/bin/env python3
"""Tests of Terminal: what it waits for, what its failures contain, and that no process is left."""
import functools
import os
import pathlib
import re
import signal
import subprocess
import sys
import tempfile
import time
import unittest
from unittest import mock

FOLDER = pathlib.Path(__file__).resolve().parent.parent
sys.path.insert(0, str(FOLDER))

import libvt  # noqa: E402: after its folder
from libvt import Failed  # noqa: E402
from libvt.keys import pieces_of  # noqa: E402
from libvt.waiting import Watch  # noqa: E402

# Of what has to come, in seconds: it takes so long only if something is wrong.
LIMIT = 100
Terminal = functools.partial(libvt.Terminal, timeout=LIMIT)
COUNTS = "import itertools, time\nfor n in itertools.count():\n  print(end=f'\\r{n}', flush=True); time.sleep(0.02)"
STARTS = """
import os, sys
from libvt import Terminal
it = Terminal('sleep 300', 2, 20)
print(it._session.watch.mark.decode().strip(chr(0)), flush=True)
it.wait_for('x', 0.2) if sys.argv[1] == 'fails' else os._exit(0)
"""
IGNORES = """
import signal
for number in (signal.SIGINT, signal.SIGQUIT, signal.SIGHUP):
    signal.signal(number, signal.SIG_IGN)
from libvt import Terminal
with Terminal(["sleep", "300"], 2, 20, timeout=100) as it:
    it.type("<C-c>")
    print(it.wait_exit())
with Terminal(["sh", "-c", "trap 'echo hung up' HUP; echo ready; read x"], 3, 20, timeout=100) as it:
    it.wait_for("ready")
    it.kill(signal.SIGHUP)
    it.wait_for("hung up")
"""


def shell(script, rows=2, cols=20, **how):
    """A terminal with a script of the shell."""
    return Terminal(["sh", "-c", script], rows, cols, **how)


def with_mark(mark):
    """The processes that have a mark in their environment."""
    return Watch(mark, None).processes()


class Waiting(unittest.TestCase):
    def fails(self, text, call, *arguments):
        """A call fails with a text; gives the whole text."""
        with self.assertRaises(Failed) as caught:
            call(*arguments)
        self.assertIn(text, str(caught.exception))
        return str(caught.exception)

    def test_a_look_waits_for_the_program(self):
        with shell('sleep 0.3; printf later; read x; printf "got $x"; sleep 5', 3) as it:
            self.assertEqual(it.screen.rows[0], "later")
            it.type("a b<Enter>")
            it.wait_for("got a b")

    def test_a_failure_has_the_screen(self):
        with shell("printf 'Save modified bufer?'; read x", 3, 40) as it:
            it.wait_for("bufer?")
            began = time.monotonic()
            wanted = '"Save modified buffer?" wasn\'t shown within 0.4 s; row 0 has "Save modified buf"'
            text = self.fails(wanted, it.wait_for, "Save modified buffer?", 0.4)
            self.assertTrue(0.4 <= time.monotonic() - began < LIMIT)
            self.assertIn("  0 |Save modified bufer?                    |", text)
            self.assertIn("cursor 0,20", text)

    def test_patterns_and_functions(self):
        with shell("printf 'one\\ntwo 22\\n'; read x", 4) as it:
            place = it.wait_for(re.compile(r"^two (\d+)$", re.M))
            self.assertEqual((place.row, place.column, place.match[1]), (1, 0, "22"))
            self.assertEqual(it.wait_for(lambda screen: len(screen.rows[1])), 6)

            def three(screen):
                assert screen.rows[2] == "three", "no three"
                return True

            self.fails("no three", it.wait_for, three, 0.2)
            self.fails("returned None", it.wait_for, lambda screen: None, 0.1)

    def test_a_moment_is_not_enough(self):
        script = "printf flash; sleep 0.1; printf '\\rother'; read x"
        with shell(script) as it, mock.patch("libvt.terminal.PATIENCE", LIMIT):
            self.fails("wasn't shown within 3 s", it.wait_for, "flash", 3)

    def test_an_end_ends_a_wait(self):
        began = time.monotonic()
        with shell("echo gone; exit 3") as it:
            self.fails("before the program ended with status 3", it.wait_for, "never", 2 * LIMIT)
            self.assertEqual((it.wait_exit(), it.screen.rows[0]), (3, "gone"))
            self.fails("ended before it was given all input", it.type, "x")
        self.assertLess(time.monotonic() - began, LIMIT)

    def test_signals_and_statuses(self):
        with Terminal(["sleep", "100"], 2, 20) as it:
            self.fails("didn't end within 0.2 s", it.wait_exit, 0.2)
            it.kill()
            self.assertEqual(it.wait_exit(), -signal.SIGTERM)

    def test_signals_are_not_ignored(self):
        environment = {**os.environ, "PYTHONPATH": str(FOLDER), "PYTHONDONTWRITEBYTECODE": "1"}
        words = [sys.executable, "-c", IGNORES]
        ran = subprocess.run(words, env=environment, capture_output=True, text=True, timeout=3 * LIMIT, check=False)
        self.assertEqual((ran.returncode, ran.stdout), (0, f"{-signal.SIGINT}\n"), ran.stderr)

    def test_programs_that_never_rest(self):
        with Terminal([sys.executable, "-S", "-E", "-c", COUNTS], 2, 20, timeout=1) as it:
            self.fails("didn't come to rest within 1 s", lambda: it.screen)
            self.assertTrue(it.wait_for(lambda screen: int(screen.rows[0] or 0) > 20, LIMIT))

    def test_much_output(self):
        with Terminal(["seq", "100000"], 5, 20) as it:
            self.assertEqual((it.wait_exit(), it.screen.rows[3]), (0, "100000"))

    def test_endless_output(self):
        began = time.monotonic()
        with Terminal("yes", 5, 20) as it:
            it.wait_for("y")
            self.fails("didn't come to rest", it.settle, 0.3)
            it.type("<C-c>")
            self.assertEqual(it.wait_exit(), -signal.SIGINT)
        self.assertLess(time.monotonic() - began, LIMIT)


class Console(unittest.TestCase):
    def test_reports_are_answered(self):
        script = r"stty -echo -icanon; printf 'ab\033[6n'; dd bs=1 count=6 2>/dev/null | od -c | head -1"
        with shell(script, 5, 60) as it:
            it.wait_for("[   1   ;   3   R")
            self.assertEqual(it.reports, b"\x1b[1;3R")

    def test_size_and_environment(self):
        script = "stty size; echo $TERM-$COLUMNS-$X-$HOME; tty; read x; stty size"
        with shell(script, 5, 40, env={"X": "y", "HOME": None}) as it:
            self.assertEqual(it.screen.rows[:2], ["5 40", "linux--y-"])
            self.assertTrue(it.screen.rows[2].startswith("/dev/pts/"))
            it.resize(6, 50)
            it.type("<Enter>")
            it.wait_for("6 50")

    def test_cooked_input_is_utf8(self):
        with shell("read x; echo got $x", 4) as it:
            it.type("aü<Backspace>b<Enter>")
            it.wait_for("got ab")

    def test_keys_follow_the_modes(self):
        script = r"stty -echo -icanon; printf '\033[?1h'; dd bs=1 count=6 2>/dev/null | od -c | head -1"
        with shell(script, 5, 60) as it:
            it.type("<Up><S-F1>")
            it.wait_for("033   O   A 033   [   2")

    def test_keys(self):
        text = b"".join(text for _, text in pieces_of("a<b <lt>x> <C-a><M-f><C-?>"))
        self.assertEqual(text, b"a<b <x> \x01\x1bf\x7f")
        self.assertEqual([text for _, text in pieces_of("\x1b[Bü")], [b"\x1b[B", "ü".encode()])
        for keys, wanted in (("<Foo>", "is no key"), ("<Entre>", "perhaps <enter>"), ("<C-é>", "send nothing")):
            with self.assertRaisesRegex(ValueError, wanted):
                pieces_of(keys)
        with shell("read x") as it, self.assertRaisesRegex(ValueError, "sends nothing on a console"):
            it.type("<C-F1>")

    def test_missing_programs(self):
        for command in ("nosuchprogram", [], ["./nosuch"]):
            with self.assertRaises(FileNotFoundError):
                Terminal(command)
        with tempfile.TemporaryDirectory() as folder:
            path = pathlib.Path(folder) / "here"
            path.write_text("#!/bin/sh\necho here\n", encoding="utf-8")
            path.chmod(0o755)
            with Terminal("./here", 2, 20, cwd=folder) as it:
                self.assertEqual((it.wait_exit(), it.screen.rows[0]), (0, "here"))


class Ends(unittest.TestCase):
    def test_no_process_is_left(self):
        it = shell("trap '' HUP TERM; setsid sleep 300 & (trap '' HUP; sleep 301) & printf ready; exec sleep 302")
        it.wait_for("ready")
        mark = it._session.watch.mark.decode().strip("\0")
        self.assertEqual(len(with_mark(mark)), 3)
        began = time.monotonic()
        it.close()
        self.assertEqual(with_mark(mark), [])
        self.assertLess(time.monotonic() - began, LIMIT)
        self.assertEqual(it.screen.rows[0], "ready")
        with self.assertRaises(ValueError):
            it.type("x")

    def test_no_descriptor_is_left(self):
        descriptors = len(os.listdir("/proc/self/fd"))
        for _ in range(20):
            with Terminal("true", 2, 20) as it:
                it.wait_exit()
        self.assertEqual(len(os.listdir("/proc/self/fd")), descriptors)

    def test_the_end_of_python_ends_programs(self):
        for how in ("fails", "exits"):
            environment = {**os.environ, "PYTHONPATH": str(FOLDER), "PYTHONDONTWRITEBYTECODE": "1"}
            ran = subprocess.run(
                [sys.executable, "-c", STARTS, how], env=environment, capture_output=True, text=True, timeout=LIMIT,
                check=False)  # fmt: skip
            self.assertTrue(ran.stdout.startswith("VT_TERMINAL="), ran.stderr)
            until = time.monotonic() + LIMIT
            while with_mark(ran.stdout.strip()) and time.monotonic() < until:
                time.sleep(0.02)
            self.assertEqual(with_mark(ran.stdout.strip()), [])


if __name__ == "__main__":
    unittest.main()
