#!/usr/bin/env python3
"""Tests of the calls; VT_LIBRARY may name the library. What is wanted comes from console_codes(4) and keymaps(5)."""
import gc
import os
import subprocess
import sys
import threading
import unittest

FOLDER = os.path.dirname(os.path.dirname(os.path.abspath(__file__)))
sys.path.insert(0, FOLDER)

import libvt  # noqa: E402: after its folder

KEYMAP = """keymaps 0-1
keycode 30 = +a +A
keycode 42 = Shift
keycode 58 = Caps_Lock
keycode 59 = F1
keycode 60 = Console_2
keycode 61 = Last_Console
keycode 62 = Incr_Console
keycode 63 = Decr_Console
keycode 64 = KeyboardSignal
keycode 65 = SAK
keycode 103 = Up
string F1 = "one"
"""


class Screens(unittest.TestCase):
    def test_rows(self):
        screen = libvt.Screen(2, 5)
        self.assertEqual(screen.feed(b"abcdefghijk"), [])
        self.assertEqual(screen.rows(), ["fghij", "k    "])
        self.assertEqual(screen.row(1), "k    ")
        self.assertEqual(screen.size, (2, 5))
        self.assertEqual(screen.cursor, libvt.Cursor(1, 1, True))

    def test_cells(self):
        screen = libvt.Screen(1, 6)
        screen.write("\x1b[1;31;44ma\x1b[0;5m中".encode())
        self.assertEqual(screen.cell(0, 0), libvt.Cell("a", 97, 0x1C))
        self.assertEqual((screen.cell(0, 0).colour, screen.cell(0, 0).background), (12, 1))
        self.assertEqual(screen.cell(0, 1), libvt.Cell("中", 0x4E2D, 0x87))
        self.assertTrue(screen.cell(0, 1).blinks)
        self.assertEqual(screen.cell(0, 2).character, "")
        self.assertEqual([cell.character for cell in screen.cells(0)], ["a", "中", "", " ", " ", " "])

    def test_rows_that_fall_out(self):
        screen = libvt.Screen(2, 3)
        events, rows = screen.feed_rows(b"ab\a\r\nc\x1b[7md\r\nefgh")
        self.assertEqual(events, [libvt.Bell()])
        self.assertEqual(["".join(cell.character for cell in row) for row in rows], ["ab ", "cd "])
        self.assertEqual([cell.attribute for cell in rows[1]], [0x07, 0x70, 0x07])
        self.assertEqual(screen.rows(), ["efg", "h  "])
        # Two rows by one byte: U+FFFD goes to the next row, and then the line feed acts.
        screen = libvt.Screen(2, 3)
        screen.write(b"\x1b[2;1Habc\xe4")
        events, rows = screen.feed_rows(b"\n")
        self.assertEqual(["".join(cell.character for cell in row) for row in rows], ["   ", "abc"])
        # What is deleted, erased or in a region below the first row doesn't fall out.
        screen = libvt.Screen(3, 3)
        self.assertEqual(screen.feed_rows(b"\x1b[M\x1b[2J\x1b[2;3r\x1b[3;1H\n\n\x1b[1;1H\x1bM"), ([], []))
        self.assertEqual(len(screen.feed_rows(b"\x1b[r\x1b[3;1H" + b"\n" * 1000)[1]), 1000)
        self.assertEqual(screen.feed_rows(b""), ([], []))

    def test_events(self):
        asking = b"\a\x1b[6n\x1b[c\x1b[2q\x1b[12;7]\x1b[15]"
        reports = [libvt.Report(b"\x1b[1;1R"), libvt.Report(b"\x1b[?6c")]
        wanted = [libvt.Bell(), *reports, libvt.Lights(2), libvt.SwitchTo(7), libvt.SwitchLast()]
        screen = libvt.Screen(25, 80)
        self.assertEqual(screen.feed(asking), wanted)
        self.assertEqual(screen.feed(asking * 1000), wanted * 1000)
        self.assertEqual(sum((screen.feed(bytes([byte])) for byte in asking), []), wanted)
        self.assertEqual(screen.feed(bytearray(asking)), wanted)
        self.assertEqual(screen.feed(b""), [])
        text = b"\x1b[2;3H" + b"x" * 5000 + b"\x1b[6n" + b"\x1b[9;7H\x1b[6n" * 300
        wanted = [libvt.Report(b"\x1b[25;43R")] + [libvt.Report(b"\x1b[9;7R")] * 300
        self.assertEqual(libvt.Screen(25, 80).feed(text), wanted)

    def test_modes(self):
        screen = libvt.Screen(3, 3)
        self.assertEqual(screen.modes, libvt.Modes())
        screen.write(b"\x1b[?1h\x1b=\x1b[20h\x1b[?8l\x1b[?25l\x1b[?5h")
        self.assertEqual(screen.modes, libvt.Modes(True, True, False, True))
        self.assertFalse(screen.cursor.visible)
        self.assertTrue(screen.reverse)

    def test_sizes(self):
        screen = libvt.Screen(255, 255)
        screen.write(b"ab\r\ncd")
        screen.resize(1, 1)
        self.assertEqual(screen.size, (1, 1))
        for rows, cols in ((0, 5), (5, 0), (256, 5), (5, 256), (-1, 5), (1 << 40, 5)):
            with self.assertRaises(libvt.OutOfRange):
                libvt.Screen(rows, cols)
            with self.assertRaises(libvt.OutOfRange):
                screen.resize(rows, cols)
        for row in (1, 255, 256, -1, 1 << 33):
            with self.assertRaises(libvt.OutOfRange):
                screen.row(row)
            with self.assertRaises(libvt.OutOfRange):
                screen.cells(row)
            with self.assertRaises(libvt.OutOfRange):
                screen.cell(0, row)
        self.assertEqual(screen.size, (1, 1))

    def test_changes(self):
        screen = libvt.Screen(3, 4)
        self.assertEqual(screen.changed_rows(), [0, 1, 2])
        screen.mark()
        self.assertEqual(screen.changed_rows(), [])
        screen.write(b"\x1b[2;1Hx")
        self.assertEqual(screen.changed_rows(), [1])
        other = libvt.Screen(3, 4)
        other.write(screen.redraw_changes())
        self.assertEqual(other.rows(), screen.rows())
        screen.resize(2, 4)
        self.assertEqual(screen.changed_rows(), [0, 1])

    def test_colours(self):
        screen = libvt.Screen(1, 1)
        self.assertEqual(screen.palette[:3], [(0, 0, 0), (170, 0, 0), (0, 170, 0)])
        self.assertEqual(screen.palette[15], (255, 255, 255))
        screen.set_colour(15, 1, 2, 3)
        self.assertEqual(screen.palette[15], (1, 2, 3))
        self.assertEqual(screen.colour(15), (1, 2, 3))
        with self.assertRaises(libvt.OutOfRange):
            screen.colour(16)
        for number, part in ((16, 0), (-1, 0), (0, 256), (0, -1)):
            with self.assertRaises(libvt.OutOfRange):
                screen.set_colour(number, part, 0, 0)

    def test_user_table(self):
        screen = libvt.Screen(1, 2)
        screen.set_user([0x3B1] * 256)
        screen.write(b"\x1b%@\x1b(Ka")
        self.assertEqual(screen.rows(), ["α "])
        for words in ([], [0] * 255, [0] * 257, [1 << 16] * 256, [-1] * 256):
            with self.assertRaises(libvt.OutOfRange):
                screen.set_user(words)

    def test_redraw(self):
        screen, other = libvt.Screen(3, 9), libvt.Screen(3, 9)
        screen.write("\x1b[32mgrün\x1b[2;2H中\x1b[?7l\x1b[7m".encode())
        other.write(b"\x1b[?6h\x1b[2;3rwrong")
        other.write(screen.redraw())
        self.assertEqual([screen.cells(row) for row in range(3)], [other.cells(row) for row in range(3)])
        self.assertEqual(screen.cursor, other.cursor)
        screen.write(b"\x1b%@\x1b[3h\x01")
        with self.assertRaises(libvt.NotDrawable):
            screen.redraw()
        self.assertEqual((screen.left_out(), other.left_out()), (1, 0))
        other.write(screen.redraw_near())
        self.assertEqual(other.rows()[1], screen.rows()[1].replace("?", "\ufffd"))
        screen.mark()
        screen.write(b"\x1b[3;1Hx")
        other.write(screen.redraw_changes_near())
        self.assertEqual(other.rows()[2], screen.rows()[2])

    def test_columns(self):
        self.assertEqual([libvt.columns(character) for character in ("a", "中", "\u0301")], [1, 2, 0])

    def test_closing(self):
        with libvt.Screen(2, 2) as screen:
            screen.write(b"a")
        screen.close()
        for call in (lambda: screen.feed(b"a"), screen.rows, lambda: screen.size, screen.mark, screen.redraw):
            with self.assertRaises(libvt.Closed):
                call()
        for _ in range(200):
            libvt.Screen(255, 255)
        gc.collect()

    def test_threads(self):
        screen, heard = libvt.Screen(25, 80), []
        users = [threading.Thread(target=lambda: heard.extend(screen.feed(b"a\a" * 2000))) for _ in range(4)]
        for user in users:
            user.start()
        for user in users:
            user.join()
        self.assertEqual(heard, [libvt.Bell()] * 8000)


class Keyboards(unittest.TestCase):
    def test_typing(self):
        keyboard = libvt.Keyboard(KEYMAP)
        typed = [libvt.Typed(b"a"), libvt.Typed(b"A"), libvt.Typed(b"one")]
        self.assertEqual(keyboard.type([30, 158, 42, 30, 158, 170, 59]), typed)
        self.assertEqual(keyboard.scan(0xE0), None)
        self.assertEqual(keyboard.scan(0x48), libvt.Typed(b"\x1b[A"))
        keyboard.scan(0xE0)
        self.assertEqual(keyboard.scan(0x48, libvt.Modes(cursor_keys=True)), libvt.Typed(b"\x1bOA"))
        asked = [libvt.SwitchTo(2), libvt.SwitchLast(), libvt.SwitchNext(), libvt.SwitchPrevious()]
        asked += [libvt.Spawn(), libvt.Attention()]
        self.assertEqual(keyboard.type([60, 61, 62, 63, 64, 65]), asked)
        for byte in (-1, 256):
            with self.assertRaises(libvt.OutOfRange):
                keyboard.scan(byte)

    def test_faults(self):
        rows = [("keycode 30 = aogonek\n", (2, 1, 14)), ('\ninclude "x"\n', (7, 2, 9)), ("keycode 30\n", (1, 1, 11))]
        for text, wanted in rows:
            with self.assertRaises(libvt.KeymapFault) as caught:
                libvt.Keyboard(text)
            fault = caught.exception
            self.assertEqual((fault.kind, fault.line, fault.column), wanted)

    def test_includes(self):
        texts = {"x": "keycode 30 = a\n", "y": b"keycode 31 = b\n", "": ""}
        keyboard = libvt.Keyboard('include "x"\ninclude "y"\n', texts)
        self.assertEqual(keyboard.type([30, 31]), [libvt.Typed(b"a"), libvt.Typed(b"b")])

    def test_state(self):
        keyboard = libvt.Keyboard(KEYMAP)
        wanted = libvt.KeyState(libvt.UNICODE, libvt.ESCPREFIX, 0, 0, libvt.LIGHTS_FOLLOW, 0, 0)
        self.assertEqual(keyboard.state, wanted)
        keyboard.state.mode = libvt.MEDIUMRAW
        self.assertEqual(keyboard.scan(30), libvt.Typed(b"\x1e"))
        keyboard.release()
        keyboard.state = libvt.KeyState(flags=4, defaults=2, lights=1, meta=libvt.METABIT)
        self.assertEqual(keyboard.scan(30), libvt.Typed(b"A"))
        self.assertEqual(keyboard.state, libvt.KeyState(flags=4, defaults=2, lights=1, meta=libvt.METABIT))
        keyboard.state = libvt.KeyState(sticky=1)
        self.assertEqual([keyboard.scan(30), keyboard.scan(30)], [libvt.Typed(b"A"), libvt.Typed(b"a")])
        for state in (
            libvt.KeyState(mode=5), libvt.KeyState(meta=5), libvt.KeyState(flags=8), libvt.KeyState(defaults=8),
            libvt.KeyState(lights=8), libvt.KeyState(locks=256), libvt.KeyState(sticky=-1),
        ):
            keyboard.state = state
            with self.assertRaises(libvt.OutOfRange):
                keyboard.scan(30)
        for call in (lambda: keyboard.string(256), lambda: keyboard.set_string(0, bytes(256))):
            with self.assertRaises(libvt.OutOfRange):
                call()

    def test_keycodes(self):
        """Keycodes are those of linux/input-event-codes.h, kinds those of docs/reference/keys.md: 2 is a letter."""
        keyboard = libvt.Keyboard(KEYMAP)
        self.assertEqual([keyboard.key(30), keyboard.key(30, False)], [libvt.Typed(b"a"), None])
        self.assertEqual(keyboard.keycode(44), 44)
        keyboard.set_keycode(44, 30)
        self.assertEqual((keyboard.keycode(44), keyboard.scan(44)), (30, libvt.Typed(b"a")))
        self.assertEqual(keyboard.entry(0, 30), (2, 97))
        keyboard.set_entry(0, 30, 1, 98)
        self.assertEqual((keyboard.entry(0, 30), keyboard.scan(44)), ((1, 98), libvt.Typed(b"b")))
        for call in (
            lambda: keyboard.key(0), lambda: keyboard.key(256), lambda: keyboard.keycode(128),
            lambda: keyboard.set_keycode(44, 256), lambda: keyboard.entry(256, 30), lambda: keyboard.entry(0, 0),
            lambda: keyboard.set_entry(0, 30, 14, 0), lambda: keyboard.set_entry(0, 30, 1 << 16, 0),
        ):
            with self.assertRaises(libvt.OutOfRange):
                call()

    def test_pairs(self):
        keyboard = libvt.Keyboard("compose '`' 'a' to U+00E0\n")
        self.assertEqual(keyboard.pairs(), [(0x60, 0x61, 0xE0)])
        keyboard.set_pairs([(1, 2, 3), (4, 5, 6)])
        self.assertEqual(keyboard.pairs(), [(1, 2, 3), (4, 5, 6)])
        for pairs in ([(1, 2, 65536)], [(1, 2, -1)], [(1, 2, 3)] * 257):
            with self.assertRaises(libvt.OutOfRange):
                keyboard.set_pairs(pairs)

    def test_strings(self):
        keyboard = libvt.Keyboard(KEYMAP)
        self.assertEqual(keyboard.string(0), b"one")
        keyboard.set_string(0, bytes(range(255)))
        self.assertEqual(keyboard.string(0), bytes(range(255)))
        self.assertEqual(keyboard.scan(59), libvt.Typed(bytes(range(255))))

    def test_closing(self):
        with libvt.Keyboard(KEYMAP) as keyboard:
            keyboard.scan(30)
        for call in (lambda: keyboard.scan(30), keyboard.release, lambda: keyboard.string(0)):
            with self.assertRaises(libvt.Closed):
                call()


class Library(unittest.TestCase):
    def test_missing(self):
        words = [sys.executable, "-c", "import libvt"]
        for name in ("/nowhere/libvt.so.1", "/dev/null", "libc.so.6"):
            environment = {**os.environ, "VT_LIBRARY": name, "PYTHONPATH": FOLDER, "PYTHONDONTWRITEBYTECODE": "1"}
            ran = subprocess.run(words, env=environment, capture_output=True, text=True, check=False)
            self.assertIn("LibraryError: " + name, ran.stderr)


if __name__ == "__main__":
    unittest.main()
