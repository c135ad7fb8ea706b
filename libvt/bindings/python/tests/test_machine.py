#!/usr/bin/env python3
"""Tests of the machine; VT_LIBRARY may name the library. What is wanted comes from docs/reference/switching.md and
docs/reference/journal.md."""
import errno
import os
import sys
import threading
import unittest

FOLDER = os.path.dirname(os.path.dirname(os.path.abspath(__file__)))
sys.path.insert(0, FOLDER)

import libvt  # noqa: E402: after its folder
from libvt import machine as on  # noqa: E402

SERVER, SHELL = 1, 2


def made(**more):
    """Two processes, at home on the consoles 1 and 2."""
    processes = [libvt.Process(home=1), libvt.Process(home=2)]
    return libvt.Machine(**{"rows": 3, "cols": 10, "consoles": [1, 2], "processes": processes, **more})


class Machines(unittest.TestCase):
    def test_handshake(self):
        machine = made()
        self.assertEqual(machine.call(SERVER, "open", 1), on.Number(0))
        self.assertEqual(machine.call(SERVER, "setmode", 0, 1, 0, 10, 12, 0), on.Done())
        self.assertEqual(machine.call(SERVER, "getmode", 0), on.Mode(1, 0, 10, 12, 0))
        self.assertEqual(machine.call(SHELL, "open", 2), on.Number(0))
        self.assertEqual(machine.call(SHELL, "activate", 0, 2), on.Done())
        self.assertEqual(machine.marks(), [on.Asked(2), on.Raised(SERVER, 10)])
        self.assertEqual(machine.display, on.Display(1, 2, False, hops=0, entries=5, gone=0))
        self.assertEqual(machine.call(SERVER, "signals"), on.Signals(frozenset({10})))
        machine.call(SERVER, "reldisp", 0, 1)
        self.assertEqual(machine.marks(), [on.Hopped(1, 2, released=SERVER)])
        self.assertEqual(machine.call(SHELL, "getstate", 0), on.Front(2, frozenset({1, 2})))
        self.assertEqual(machine.call(SHELL, "open", 1), on.Number(1))
        self.assertEqual(machine.call(SHELL, "activate", 1, 1), on.Refused(errno.EPERM))

    def test_deaths(self):
        machine = made(processes=[libvt.Process(1), libvt.Process(2, privileged=True)])
        machine.call(1, "open", 1)
        machine.call(1, "setmode", 0, 1, 0, 10, 12, 0)
        machine.call(2, "open", 2)
        machine.call(2, "activate", 0, 2)
        machine.call(2, "kill", 1, 9)
        self.assertEqual(machine.marks(), [on.Ended(1), on.Hopped(1, 2, died=1)])
        machine.call(2, "activate", 0, 1)
        self.assertEqual(machine.marks(), [on.Asked(1), on.Hopped(2, 1)])
        self.assertEqual(machine.call(1, "open", 1), on.Refused(errno.ESRCH))

    def test_texts(self):
        machine = made(keymap="keycode 30 = a\n")
        machine.call(1, "open", 1)
        self.assertEqual(machine.call(1, "write", 0, held="one\r\n\x1b[31mé中\a".encode()), on.Number(16))
        self.assertEqual(machine.rows(1), ["one       ", "é中       ", "          "])
        self.assertEqual(machine.cells(1, 1)[0], libvt.Cell("é", 0xE9, 4))
        self.assertEqual(machine.scan(0x1E), on.Done())
        self.assertEqual(machine.console(1), on.Console(3, 10, libvt.Cursor(1, 3, True), 1, 1, None, False))
        self.assertEqual(machine.call(1, "read", 0, 64), on.Held(b"a"))
        self.assertEqual(machine.call(1, "getent", 0, 9, 30), on.Acted(14, 0))
        screen = libvt.Screen(3, 10)
        screen.write(machine.redraw(1))
        self.assertEqual(screen.rows(), machine.rows(1))
        machine.call(1, "write", 0, held=b"\x1b%@\x1b[3h\x01")
        with self.assertRaises(libvt.NotDrawable):
            machine.redraw(1)

    def test_changes(self):
        machine, screen = made(), libvt.Screen(3, 10)
        machine.call(1, "open", 1)
        machine.call(1, "write", 0, held="one\r\n\x1b[32mgrü中".encode())
        shown = machine.all_cells(1)
        self.assertEqual(shown, [machine.cells(1, row) for row in range(3)])
        screen.write(machine.redraw(1))
        machine.call(1, "write", 0, held=b"\x1b[3;4Hthree")
        changes = machine.redraw_changes(1, shown)
        self.assertNotIn(b"one", changes)
        self.assertEqual(machine.redraw_changes_near(1, shown), changes)
        screen.write(changes)
        self.assertEqual([screen.cells(row) for row in range(3)], machine.all_cells(1))
        self.assertEqual(screen.picture(), machine.picture(1))
        for other in (shown[:2], [], [row[:9] for row in shown], [shown[0], shown[1], shown[2][:9]]):
            with self.assertRaises(libvt.OutOfRange):
                machine.redraw_changes(1, other)
        for call in (machine.all_cells, machine.picture, machine.redraw_near):
            with self.assertRaises(libvt.OutOfRange):
                call(3)
        machine.call(1, "write", 0, held=b"\x1b[H\x1b%@\x1b[3h\x01")
        with self.assertRaises(libvt.NotDrawable):
            machine.redraw_changes(1, shown)
        screen.write(machine.redraw_near(1))
        self.assertEqual(screen.cell(0, 0).code, 0xFFFD)
        near = [screen.cells(row) for row in range(3)]
        screen.write(machine.redraw_changes_near(1, near))
        self.assertEqual([screen.cells(row) for row in range(3)], near)

    def test_waits(self):
        machine = made()
        machine.call(1, "open", 1)
        self.assertIs(machine.wait(1), on.Wait.NONE)
        self.assertEqual(machine.call(1, "waitinput", 0), on.Waits())
        self.assertIs(machine.wait(1), on.Wait.OPEN)
        self.assertEqual(machine.call(1, "waitend"), on.Refused(errno.EAGAIN))
        machine.call(2, "exit")
        self.assertEqual(machine.call(0, "exit"), on.Done())
        self.assertIs(machine.wait(1), on.Wait.BROKEN)
        self.assertEqual(machine.call(1, "waitend"), on.Refused(errno.EINTR))
        self.assertIs(machine.wait(1), on.Wait.NONE)

    def test_journals(self):
        machine = made(events=2)
        machine.call(1, "open", 1)
        machine.call(2, "exit")
        with self.assertRaises(libvt.Full):
            machine.call(1, "open", 1)
        self.assertEqual([machine.entry(0), machine.entry(1)], ["p1 0 open 1 = num 0", "p2 0 exit = ok"])
        self.assertEqual(machine.journal(), "%journal 2\np1 0 open 1 = num 0\np2 0 exit = ok\n%end 2 128\n")
        machine.forget()
        self.assertEqual(machine.journal(), "%journal 2\n%end 0 0\n")
        self.assertEqual((machine.display.entries, machine.display.gone), (0, 2))
        machine.call(1, "write", 0, held=b"x" * 4000)
        self.assertEqual(machine.entry(0), f"p1 1 write 0 {'78' * 4000} = num 4000")

    def test_admissions(self):
        machine = made()
        machine.admit(2, home=1)
        machine.call(2, "open", 1)
        self.assertEqual(machine.call(2, "activate", 0, 2), on.Done())
        with self.assertRaises(libvt.InUse):
            machine.admit(2, home=1)
        for process, home in ((0, 1), (3, 1), (-1, 1), (1, 64), (1, 256)):
            with self.assertRaises(libvt.OutOfRange):
                machine.admit(process, home)

    def test_ranges(self):
        for more in (
            {"rows": 0}, {"cols": 256}, {"rows": 1 << 20}, {"consoles": []}, {"consoles": [0]}, {"consoles": [64]},
            {"front": 3}, {"keyboards": 5}, {"events": 1_000_001}, {"journal_bytes": -1}, {"processes": [libvt.Process(64)]},
            {"processes": [libvt.Process()] * 65},
        ):  # fmt: skip
            with self.assertRaises(libvt.OutOfRange, msg=str(more)):
                made(**more)
        with self.assertRaises(libvt.KeymapFault) as caught:
            made(keymap="keycode 30 = aogonek\n")
        self.assertEqual((caught.exception.kind, caught.exception.line, caught.exception.column), (2, 1, 14))
        machine = made()
        for caller, name, numbers, held in (
            (68, "exit", (), b""), (1, "opens", (1,), b""), (1, "open", (), b""), (1, "open", (65536,), b""),
            (1, "open", (1,), b"x"), (0, "scan", (), b""), (1, "ex\0it", (), b""), (-1, "exit", (), b""),
        ):  # fmt: skip
            with self.assertRaises(libvt.OutOfRange, msg=name):
                machine.call(caller, name, *numbers, held=held)
        for number in (0, 3, 64):
            with self.assertRaises(libvt.OutOfRange):
                machine.console(number)
        with self.assertRaises(libvt.OutOfRange):
            machine.entry(0)
        self.assertEqual(machine.display.entries, 0)

    def test_close(self):
        with made() as machine:
            pass
        for call in (machine.journal, machine.forget, machine.marks, lambda: machine.call(1, "exit")):
            with self.assertRaises(libvt.Closed):
                call()

    def test_threads(self):
        machine, count = made(events=1000), 100

        def run(caller):
            for _ in range(count):
                machine.call(caller, "open", caller)

        threads = [threading.Thread(target=run, args=(caller,)) for caller in (1, 2)]
        for thread in threads:
            thread.start()
        for thread in threads:
            thread.join()
        self.assertEqual(machine.display.entries, 2 * count)
        lines = machine.journal().splitlines()[1:-1]
        self.assertEqual(sorted(int(line.split()[1]) for line in lines if line.startswith("p1 ")), list(range(count)))


if __name__ == "__main__":
    unittest.main()
