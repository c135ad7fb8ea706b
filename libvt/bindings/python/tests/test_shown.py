#!/usr/bin/env python3
"""Tests of what is shown: places, colours, masks, screen files, pictures and recordings."""
import pathlib
import re
import sys
import tempfile
import unittest

sys.path.insert(0, str(pathlib.Path(__file__).resolve().parent.parent))

from libvt import Screen, Shown, Terminal  # noqa: E402: after its folder
from libvt.casts import BadCast, cast_of, read_cast  # noqa: E402
from libvt.screen_files import compared, read_screen, saved  # noqa: E402


def shown(text, rows=3, cols=20):
    """What a screen shows after a text."""
    screen = Screen(rows, cols)
    screen.write(text.encode() if isinstance(text, str) else text)
    return Shown(screen)


class Looks(unittest.TestCase):
    def test_places(self):
        it = shown("ab 中c\r\n\x1b[31mred\x1b[m x\r\n  end")
        self.assertEqual(it.rows, ["ab 中c", "red x", "  end"])
        self.assertEqual(it.find("c")[:2], (0, 5))
        self.assertEqual(it.find("x   ")[:2], (1, 4))
        self.assertIsNone(it.find("y"))
        self.assertEqual(it.find(re.compile(r"^red x\n +end$", re.M))[:2], (1, 0))
        self.assertEqual(it.find(re.compile("c"))[:2], (0, 5))
        self.assertEqual(it.rectangle(0, 3, 2, 3), ["中c", " x"])
        for at in ((3, 0), (0, 20), (-1, 0)):
            with self.assertRaisesRegex(IndexError, "3 rows and 20 columns"):
                it.cell(*at)

    def test_colours(self):
        it = shown("\x1b[31mred\x1b[m \x1b[7mkey\x1b[1;5;34;47mx")
        self.assertEqual(it.cell(0, 0).words, "red black")
        self.assertEqual(it.cell(0, 4).words, "black white")
        self.assertEqual(it.colour_runs()[0], (0, 0, 2, "red black"))
        self.assertEqual(it.cell(0, 7).words, "white blue bold blink")
        self.assertEqual(shown("\x1b[?5hx").cell(0, 0).words, "black white")
        self.assertEqual(shown("中").cell(0, 1).character, "")

    def test_frames(self):
        text = shown("ab\x1b[?25l").framed([(0, 1, 1)])
        self.assertEqual(text.split("\n")[1:4], ["  0 |ab                  |", "      ^", "    | 2 blank rows"])
        self.assertTrue(text.endswith("cursor 0,2, hidden"))

    def test_masks_and_files(self):
        one, two = shown("up 12:34\r\n\x1b[7mkeys\x1b[m"), shown("up 23:59\r\n\x1b[7mkeys\x1b[m\x1b[?25l")
        masks = [r"\d\d:\d\d"]
        with tempfile.TemporaryDirectory() as folder:
            path = pathlib.Path(folder) / "x.screen"
            path.write_text(saved(one.masked(masks)), encoding="utf-8")
            wanted = read_screen(path)
            self.assertEqual(compared(wanted, one.masked(masks), True, True), ([], []))
            faults = compared(wanted, two.masked(masks), True, True)[0]
            self.assertEqual(faults, ["cursor 1,4, hidden, wanted 1,4"])
            faults, marks = compared(wanted, two, True, False)
            self.assertEqual(faults, ["row 0", "  wanted |up ░░░░░|", "  shown  |up 23:59|"])
            self.assertEqual(marks, [(0, 3, 7)])
            plain = shown("up 12:34\r\nkeys")
            faults, marks = compared(wanted, plain.masked(masks), True, True)
            self.assertEqual(faults, ["cell 1,0 is white black, wanted black white (differing: 4 cells of row 1)"])
            self.assertEqual(marks, [(1, 0, 3)])
            path.write_text("SIZE 3 20\n?screen\n|up|\n?what\n", encoding="utf-8")
            with self.assertRaisesRegex(ValueError, r"x.screen:4: wanted SIZE"):
                read_screen(path)
        self.assertEqual(one.masked([(0, 3, 1, 99)]).rows[0], "up " + "░" * 17)
        self.assertEqual(shown("a中b").masked(["中"]).rows[0], "a░░b")


class Files(unittest.TestCase):
    def test_pictures(self):
        for text in (
            "\x1b[2J<a&b> \x1b[1;31m中\x1b[5mx\x1b[2;3H\x1b]P1123456é", "\x1b[?5h\x1b[?25lreversed",
            "\x1b%@\x1b[3h\x01no text draws this one",
        ):  # fmt: skip
            with Screen(3, 20) as screen:
                screen.write(text.encode())
                it, wanted = Shown(screen), screen.picture()
                screen.write(b"later")
            self.assertEqual(it.picture(), wanted)
            self.assertTrue(wanted.startswith("<svg "))

    def test_recordings(self):
        with Terminal(["sh", "-c", "printf 'h\\303\\251'; read x; printf 'got %s' $x"], 3, 20) as it:
            it.type("a<Enter>")
            it.resize(4, 30)
            it.wait_exit()
            cast = read_cast(cast_of(it))
        self.assertEqual((cast.rows, cast.columns), (3, 20))
        self.assertEqual(b"".join(event.text for event in cast.events if event.kind == "o"), bytes(it.output))
        self.assertEqual([event.text for event in cast.events if event.kind == "i"], [b"a", b"\r"])
        self.assertEqual([event.text for event in cast.events if event.kind == "r"], [b"30x4"])

    def test_versions(self):
        for text in (
            '{"version": 1, "width": 9, "height": 2, "stdout": [[0.5, "a"], [1, "b"]]}',
            '{"version": 2, "width": 9, "height": 2}\n[0.5, "o", "a"]\n\n[1.5, "o", "b"]\n',
            '{"version": 3, "term": {"cols": 9, "rows": 2}}\n# a\n[0.5, "o", "a"]\n[1, "o", "b"]\n',
        ):
            cast = read_cast(text)
            self.assertEqual((cast.rows, cast.columns), (2, 9))
            self.assertEqual([(event.seconds, event.text) for event in cast.events], [(0.5, b"a"), (1.5, b"b")])
        for text, line, wanted in (
            ("", 1, "found nothing"), ('{"version": 9}\n', 1, "of version 1, 2 or 3"), ("[]", 1, "wanted an asciinema"),
            ('{"version": 2}\n[1, "o"\n', 2, "wanted JSON"), ('{"version": 2}\n[1, "o", 2]\n', 2, "wanted an event"),
            ('{"version": 1, "stdout": [3]}\n', 1, "wanted an event"),
        ):  # fmt: skip
            with self.assertRaisesRegex(BadCast, wanted) as caught:
                read_cast(text)
            self.assertEqual(caught.exception.line, line)


if __name__ == "__main__":
    unittest.main()
