#!/usr/bin/env python3
"""Tests of Consoles: what it waits for, what its failures contain, and that no process is left. They need vtrun."""
import functools
import os
import pathlib
import shutil
import signal
import subprocess
import sys
import tempfile
import time
import unittest
from unittest import mock

FOLDER = pathlib.Path(__file__).resolve().parent.parent
sys.path.insert(0, str(FOLDER))

import libvt  # noqa: E402: after its folder
from libvt import Failed, Unavailable  # noqa: E402
from libvt.waiting import Watch  # noqa: E402

# Of what has to come, in seconds: it takes so long only if something is wrong.
LIMIT = 100
Consoles = functools.partial(libvt.Consoles, timeout=LIMIT)
STARTS = """
import sys
from libvt import Consoles
it = Consoles([1, 2], 3, 20, timeout=100)
it.run("sleep 300", 2)
print(it._vtrun.watch.mark.decode().strip(chr(0)), it._vtrun.folder, flush=True)
sys.stdin.read()
"""


def setUpModule():
    try:
        Consoles().close()
    except Unavailable as why:
        raise unittest.SkipTest(str(why)) from None


def with_mark(mark):
    """The processes that have a mark in their environment."""
    return Watch(mark, None).processes()


class Programs(unittest.TestCase):
    def setUp(self):
        self.machine = Consoles([2, 3], 6, 40, env={"PS1": "$ ", "GONE": "here"})
        self.addCleanup(self.machine.close)

    def fails(self, text, call, *arguments):
        """A call fails with a text; gives the whole text."""
        with self.assertRaises(Failed) as caught:
            call(*arguments)
        self.assertIn(text, str(caught.exception))
        return str(caught.exception)

    def test_a_shell_on_each_console(self):
        it = self.machine
        for number in (1, 2, 3):
            it.run(["sh", "-c", f"echo console {number}; exec sh"], number)
        for number in (1, 2, 3):
            self.assertEqual(it.snap(number).rows[:3], [f"console {number}", "$", ""])
        self.assertEqual(it.front, 1)
        it.type("<A-F2>echo a b<Enter>")
        it.wait_front(2)
        self.assertEqual((it.row(2), it.row(2, 2), it.row(1, 1)), ("a b", "a b", "$"))
        it.type("cat<Enter>c<C-c>echo $?<Enter>")
        self.assertEqual(it.row(4), "130")

    def test_screens_have_colours_and_bells(self):
        it = self.machine
        it.run(["sh", "-c", r"printf '\033[31mred\a\033[m\n\033[?25l中'; read x"], 3)
        shown = it.snap(3)
        self.assertEqual((shown.rows[:2], shown.size, shown.bells), (["red", "中"], (6, 40), 1))
        self.assertEqual((shown.cell(0, 0).words, shown.cursor), ("red black", (1, 2, False)))
        self.assertEqual(it.wait_text("ed", 3)[:2], (0, 1))
        state = it.states()[3]
        self.assertEqual((state.bells, state.is_visible, state.row, state.owner), (1, False, 1, 0))
        self.assertEqual(sorted(it.states()), [1, 2, 3])

    def test_programs_end(self):
        it = self.machine
        with tempfile.TemporaryDirectory() as folder:
            ran = it.run(["sh", "-c", "pwd; echo $X-$GONE-$TERM; exit 7"], 2, env={"X": "y", "GONE": None}, cwd=folder)
            self.assertEqual(ran.wait_exit(), 7)
            self.assertEqual(it.text(2).split(), [folder, "y--linux"])
        slept = it.run("sleep 100", 2)
        self.assertIsNone(slept.exit_status)
        self.fails("sleep 100 didn't end within 0.1 s", slept.wait_exit, 0.1)
        self.assertIn(("sleep", (2,)), [(process.name, process.consoles) for process in it.processes()])
        slept.kill(signal.SIGKILL)
        self.assertEqual((slept.wait_exit(), slept.exit_status), (137, 137))
        with self.assertRaises(ProcessLookupError):
            slept.kill()
        for command in ("nosuchprogram", []):
            with self.assertRaises(FileNotFoundError):
                it.run(command)

    def test_failures_have_the_screens(self):
        it = self.machine
        it.run(["sh", "-c", "echo Save bufer; read x"], 2)
        it.wait_text("Save bufer", 2)
        text = self.fails('"Save buffer" wasn\'t shown on console 2 within 0.3 s; row 0 has "Save buf"', it.wait_text,
                          "Save buffer", 2, 0.3)  # fmt: skip
        self.assertIn("console 1 is in front, ", text)
        self.assertIn(f"  0 |Save bufer{' ' * 30}|", text)
        self.assertRegex(text, r"the last calls\n    p\d+ \d+ ")
        self.fails("console 3 didn't come to the front within 0.2 s; 1 is in front", it.wait_front, 3, 0.2)
        with self.assertRaisesRegex(ValueError, "console 9 isn't allocated; these are: 1, 2, 3"):
            it.snap(9)
        with self.assertRaisesRegex(ValueError, "no key"):
            it.type("<A-Foo>")

    def test_programs_that_never_rest(self):
        it = self.machine
        it.run(["sh", "-c", "n=0; while :; do n=$((n + 1)); printf \"\\r$n\"; sleep 0.02; done"], 2)
        it.wait_text(lambda shown: int(shown.rows[0] or 0) > 5, 2)
        self.fails("didn't come to rest within 0.5 s", it.settle, 0.5)


class Keymaps(unittest.TestCase):
    def test_a_keymap_of_ones_own(self):
        with tempfile.TemporaryDirectory() as folder:
            path = pathlib.Path(folder) / "keymap"
            path.write_text("keycode 28 = Return\nkeycode 30 = b\n", "utf-8")
            with Consoles(keymap=path, rows=3, cols=20) as it:
                it.run("cat")
                it.type("bb<Enter>")
                self.assertEqual(it.row(1), "bb")
                with self.assertRaisesRegex(ValueError, "^a: no key makes this"):
                    it.type("a")
            path.write_text("keycode 28 = Nosuch\n", "utf-8")
            with self.assertRaisesRegex(ValueError, r":1:14: fault \d+ of a keymap"):
                Consoles(keymap=path)
        for arguments in ([[64]], [[0]], [[1], 0], [[1], 25, 256]):
            with self.assertRaisesRegex(ValueError, "from . to .* wanted|from 1 to 63 were wanted"):
                Consoles(*arguments)


class Journals(unittest.TestCase):
    def test_the_journal_is_legal(self):
        vt = next(filter(os.path.exists, [FOLDER.parents[2] / "out/bin/vt", shutil.which("vt") or ""]), None)
        if vt is None:
            self.skipTest("vt isn't installed")
        with Consoles([1, 2], 3, 20) as it:
            it.run("sh", 2)
            it.type("<A-F2>")
            self.assertEqual((it.front, it.session), (2, ""))
        given = (it.session + it.journal).encode()
        said = subprocess.run([vt, "check"], input=given, capture_output=True, timeout=LIMIT, check=False)
        self.assertEqual((said.returncode, said.stdout[:6]), (0, b"legal "), said)
        said = subprocess.run([vt, "explain"], input=given, capture_output=True, timeout=LIMIT, check=False).stdout
        self.assertRegex(said, rb"(?m)^\S+ \S+ 1 2 free")


class Ends(unittest.TestCase):
    def test_no_process_is_left(self):
        it = Consoles([1, 2], 3, 20)
        it.run(["sh", "-c", "trap '' HUP TERM; setsid sleep 300 & echo up; exec sleep 301"], 2)
        it.wait_text("up", 2)
        mark = it._vtrun.watch.mark.decode().strip("\0")
        self.assertGreaterEqual(len(with_mark(mark)), 4)
        it.close()
        self.assertEqual(with_mark(mark), [])
        self.assertRegex(it.journal, r"(?m)^%end \d+ \d+$")
        for call in (it.settle, lambda: it.front, lambda: it.run("true"), lambda: it.type("x")):
            with self.assertRaises(ValueError):
                call()

    def test_the_death_of_python_ends_all(self):
        environment = {**os.environ, "PYTHONPATH": str(FOLDER), "PYTHONDONTWRITEBYTECODE": "1"}
        with subprocess.Popen([sys.executable, "-c", STARTS], env=environment, stdin=subprocess.PIPE,
                              stdout=subprocess.PIPE, text=True) as python:  # fmt: skip
            mark, folder = python.stdout.readline().split()
            self.assertGreaterEqual(len(with_mark(mark)), 3)
            self.assertTrue(os.path.exists(folder))
            python.kill()
        until = time.monotonic() + LIMIT
        while with_mark(mark) and time.monotonic() < until:
            time.sleep(0.02)
        self.assertEqual(with_mark(mark), [])
        self.assertFalse(os.path.exists(folder))

    def test_a_vtrun_that_is_killed(self):
        it = Consoles([1, 2], 3, 20)
        program = it.run("sleep 300", 2)
        it.settle()
        mark = it._vtrun.watch.mark.decode().strip("\0")
        it._vtrun._process.kill()
        it._vtrun._process.wait(LIMIT)
        for call in (lambda: it.front, lambda: it.type("x"), program.wait_exit, lambda: it.wait_text("x", 2, 1)):
            with self.assertRaisesRegex(Failed, "vtrun"):
                call()
        it.close()
        self.assertEqual(with_mark(mark), [])

    def test_no_descriptor_is_left(self):
        descriptors = len(os.listdir("/proc/self/fd"))
        for _ in range(5):
            with Consoles() as it:
                it.run("true").wait_exit()
        self.assertEqual(len(os.listdir("/proc/self/fd")), descriptors)

    def test_a_vtrun_that_cannot_run(self):
        with tempfile.TemporaryDirectory() as folder:
            path = pathlib.Path(folder) / "vtrun"
            path.write_text("#!/bin/sh\necho 'vtrun: no filter: Operation not permitted' >&2\nexit 126\n", "utf-8")
            path.chmod(0o755)
            with mock.patch.dict(os.environ, VTRUN=str(path)), self.assertRaisesRegex(Unavailable, "no filter"):
                Consoles()


if __name__ == "__main__":
    unittest.main()
