#!/usr/bin/env python3
"""Tests of libvt.expect, libvt.record and libvt.animation: what check_expect.py of the tools doesn't ask."""
import os
import pathlib
import re
import subprocess
import sys
import tempfile
import unittest
import xml.dom.minidom

FOLDER = pathlib.Path(__file__).resolve().parent.parent
sys.path.insert(0, str(FOLDER))

from libvt import Screen  # noqa: E402: after its folder
from libvt.casts import read_cast  # noqa: E402
from libvt.expect_files import Fault, read_test  # noqa: E402

LIVE = r"""
SIZE 6 30
COPY data
ENV GREETING "hi \"there\""
RUN sh -c 'cat data; echo $GREETING; read x; printf "\033[7mgot %s\033[m\a" "$x"; sleep 0.2; echo; echo later; exit 7'
WAIT "there" 100
?row 0 = "one"
?row 1 ~ "^hi .there.$"
?chars 0,0,2,2 = "on\nhi"
?chars 0,0,2,2 ~ "n\nh"
?text "there" = 1,4
?text ~ "^hi" = 1,0
?text "nowhere" = none
?screen
|one|
~ th.re
..
KEYS "a<lt>b<Backspace><Enter>"
WAIT "later" 100
?attr 3,0-5 = black white
?attr 3,0-5 = white black reverse
?bells = 1
?exit = 7
"""
# Files that are refused: the text, the line, and what the message has. check_expect.py has those without programs.
REFUSED = [
    ("KEYS \"a\"\n?bells = 0\n", 1, "wanted RUN before KEYS"),
    ("WAIT \"a\"\n?bells = 0\n", 1, "wanted RUN before WAIT"),
    ("?exit = 0\n", 1, "wanted RUN before ?exit"),
    ("RUN true\nRUN true\n?bells = 0\n", 2, "wanted one RUN"),
    ("RUN true\nPUSH \"a\"\n?bells = 0\n", 2, "wanted PUSH before RUN"),
    ("RUN true\nENV A \"a\"\n?bells = 0\n", 2, "wanted ENV before RUN"),
    ("ENV 1A \"a\"\n?bells = 0\n", 1, "wanted the name of a variable"),
    ("COPY nosuch\n?bells = 0\n", 1, "No such file"),
    ("RUN 'a\n?bells = 0\n", 1, "No closing quotation"),
    ("RUN true\nKEYS \"<Foo>\"\n?bells = 0\n", 2, "is no key"),
    ("RUN true\nWAIT ~ \"(\"\n?bells = 0\n", 2, "wanted a regular expression"),
    ("RUN true\nWAIT \"a\" soon\n?bells = 0\n", 2, "wanted seconds"),
    ("LIMIT x\n?bells = 0\n", 1, "wanted seconds"),
    ("?row 0 ~ \"(\"\n", 1, "wanted a regular expression"),
    ("?cursor ~ \"1\"\n", 1, "wanted = and a value"),
    ("?chars 0,0,0,1 = \"\"\n", 1, "wanted a row behind the rectangle from 1"),
    ("?chars 0,0,1 = \"\"\n", 1, "wanted a rectangle"),
    ("?attr 0,5-4 = red blue\n", 1, "wanted a last column from 5"),
    ("?text \"\"\n", 1, "wanted a text that isn't empty"),
    ("?text \"a\" = 1\n", 1, "wanted a row and a column"),
    ("?screen\n~ (\n", 2, "wanted a regular expression"),
    ("SIZE 2 2\n?screen\n..\n|a|\n|b|\n~ c\n", 6, "wanted at most 2 rows"),
]


def run(module, *words, folder, **environment):
    """Runs a module of the package."""
    given = {**os.environ, "PYTHONPATH": str(FOLDER), "PYTHONDONTWRITEBYTECODE": "1", "CI": "", **environment}
    words = [sys.executable, "-m", f"libvt.{module}", *map(str, words)]
    return subprocess.run(words, cwd=folder, env=given, capture_output=True, text=True, timeout=400, check=False)


class Expect(unittest.TestCase):
    def setUp(self):
        self.temporary = tempfile.TemporaryDirectory()
        self.addCleanup(self.temporary.cleanup)
        self.folder = pathlib.Path(self.temporary.name)
        (self.folder / "data").write_text("one\n", encoding="utf-8")

    def expect(self, text, *words, **environment):
        """Plays a text as a file; gives the status and what is printed."""
        (self.folder / "a.test").write_text(text, encoding="utf-8")
        words = words if "--limit" in words else ("--limit", "100", *words)
        ran = run("expect", *words, "a.test", folder=self.folder, **environment)
        return ran.returncode, ran.stdout + ran.stderr

    def test_a_program(self):
        status, out = self.expect(LIVE)
        self.assertEqual((status, out.count("\nok ")), (0, 12), out)

    def test_what_fails(self):
        text = LIVE.replace('?row 0 = "one"', '?row 0 = "two"').replace("?exit = 7", "?exit = 0")
        status, out = self.expect(text.replace("~ th.re", "~ nowhere"), "--limit", "1")
        self.assertEqual((status, out.count("\nok ")), (1, 9), out)
        self.assertIn(f"#   wanted   |two{' ' * 27}|\n#   shown    |one{' ' * 27}|", out)
        self.assertIn("#   wanted   0\n#   shown    7", out)
        self.assertIn("#     ~ nowhere\n", out)
        self.assertIn("#     0 |one  ", out)

    def test_a_wait_that_never_ends(self):
        status, out = self.expect(LIVE.replace('"later" 100', '"latter" 0.3'))
        self.assertEqual((status, out.count("not ok ")), (1, 4), out)
        self.assertRegex(out, r'not reached: a.test:19: WAIT: "latter" wasn\'t shown (within|before)')
        self.assertEqual(out.count("  0 |one"), 1)
        status, out = self.expect("RUN nosuchprogram\n?bells = 0\n")
        self.assertEqual((status, "nosuchprogram: no such program" in out), (1, True), out)
        status, out = self.expect("RUN true\n?exit = 0\nWAIT \"a\" 0.1\n")
        self.assertEqual((status, "# a.test:3: WAIT: " in out), (1, True), out)

    def test_accept(self):
        text = LIVE.replace('?row 0 = "one"', "  ?row 0 = ?").replace("= 1,4", "= ?").replace("?exit = 7", "?exit = ?")
        text = text.replace("?attr 3,0-5 = black white\n", "?attr 3,0-5 = ?\n# a comment\n?screen all.screen\n")
        text = text.replace('"on\\nhi"', '"wrong"').replace("?bells = 1", "?bells = 3\n?screen\n|wrong|\n?cursor = ?")
        status, out = self.expect(text, "--limit", "1")
        self.assertEqual((status, out.count("not ok ")), (1, 9), out)
        self.assertIn("all.screen: there is no such file; --accept writes it", out)
        for ci, wanted in (("true", 2), ("0", 1)):
            status, out = self.expect(text, "--accept", "--limit", "1", CI=ci)
            self.assertEqual(status, wanted, out)
        made = (self.folder / "a.test").read_text(encoding="utf-8")
        wanted = ['  ?row 0 = "one"', "# a comment", "?exit = 7", '?text "there" = 1,4', "|later|", "?cursor = 5,0"]
        for line in wanted:
            self.assertIn(f"\n{line}\n", made)
        self.assertIn('# -?text "there" = ?\n# +?text "there" = 1,4\n', out)
        ran = run("expect", "a.test", folder=self.folder)
        self.assertEqual(ran.returncode, 0, ran.stdout + ran.stderr)

    def test_accept_cuts_spans_and_leaves_patterns(self):
        text = "SIZE 2 9\nRUN sh -c 'printf \"ab\\033[1mcd\"; read x'\nWAIT \"cd\" 100\n"
        text += "?attr 0,0-4 = ?\n?row 0 ~ \"nowhere\"\n?bells = 0\n"
        status, out = self.expect(text, "--accept", "--limit", "2")
        self.assertEqual((status, out.count("not ok "), out.count("accept   leaves this line")), (1, 2, 1), out)
        runs = ["?attr 0,0-1 = white black", "?attr 0,2-3 = white black bold", "?attr 0,4 = white black"]
        for run_of_cells in runs:
            self.assertIn(f"#   shown    {run_of_cells}\n", out)
        made = (self.folder / "a.test").read_text(encoding="utf-8")
        self.assertEqual(made, text.replace("?attr 0,0-4 = ?", "\n".join(runs)))
        status, out = self.expect(made, "--limit", "2")
        self.assertEqual((status, out.count("\nok "), out.count("not ok ")), (1, 4, 1), out)

    def test_what_is_refused(self):
        path = self.folder / "a.test"
        for text, line, wanted in REFUSED:
            path.write_text(text, encoding="utf-8")
            with self.assertRaises(Fault) as caught:
                read_test(str(path))
            fault = str(caught.exception)
            self.assertTrue(fault.startswith(f"{path}:{line}: ") and wanted in fault, f"{text}: {fault}")
        status, out = self.expect(text)
        self.assertEqual((status, out.startswith(f"expect.py: a.test:{line}: ")), (2, True), out)

    def test_a_screen_file_with_a_fault(self):
        (self.folder / "x.screen").write_text("SIZE 1 1\n?screem\n", encoding="utf-8")
        status, out = self.expect("?screen x.screen\n")
        self.assertEqual((status, "x.screen:2: wanted SIZE" in out), (2, True), out)


class Casts(unittest.TestCase):
    def setUp(self):
        self.temporary = tempfile.TemporaryDirectory()
        self.addCleanup(self.temporary.cleanup)
        self.folder = pathlib.Path(self.temporary.name)

    def test_keys_by_name(self):
        keys = "type <Up>\\cA<lt>\nwait ^A<\ntype <Enter>\nsleep 0.1\ntype <C-d>\n"
        (self.folder / "keys").write_text(keys, encoding="utf-8")
        ran = run("record", 3, 20, "--keys", "keys", "--cast", "cast", "--", "cat", folder=self.folder)
        self.assertEqual((ran.returncode, ran.stderr), (0, ""))
        self.assertEqual(ran.stdout, "^[[A^A<\n\x1b[A\x01<\n")
        cast = read_cast((self.folder / "cast").read_text(encoding="utf-8"))
        self.assertEqual(b"".join(event.text for event in cast.events if event.kind == "i"), b"\x1b[A\x01<\r\x04")

    def test_a_moving_picture(self):
        events = '[0, "o", "one"]\n[1, "o", "\\r\\n\\u001b[31mtwo"]\n[9, "o", "\\u001b[Hsix"]\n'
        (self.folder / "a.cast").write_text('{"version": 2, "width": 9, "height": 3}\n' + events, encoding="utf-8")
        ran = run("animation", "a.cast", folder=self.folder)
        self.assertEqual((ran.returncode, ran.stderr), (0, ""))
        xml.dom.minidom.parseString(ran.stdout)
        self.assertNotIn("<script", ran.stdout)
        self.assertIn("3 frames of a text console in 5.0 seconds", ran.stdout)
        self.assertIn("@keyframes r0{0%{transform:translateY(0px)}60%{transform:translateY(-30px)}}", ran.stdout)
        self.assertIn("@keyframes r1{0%{transform:translateY(0px)}20%{transform:translateY(-30px)}}", ran.stdout)
        self.assertNotIn("@keyframes r2", ran.stdout)
        self.assertIn("<g id='r0' style='transform:translateY(-30px)'>", ran.stdout)
        # Each background covers one pixel below its row, so that no line is seen between rows in a larger picture.
        self.assertEqual(set(re.findall(r"<rect x=.* height='(\d+)' fill", ran.stdout)), {"16"})
        ran = run("animation", "--still", "1", "a.cast", folder=self.folder)
        self.assertIn("<g id='r0' style='transform:translateY(0px)'>", ran.stdout)
        self.assertIn("<g id='r1' style='transform:translateY(-30px)'>", ran.stdout)
        ran = run("animation", "--at", "5", "a.cast", folder=self.folder)
        with Screen(3, 9) as screen:
            screen.write(b"one\r\n\x1b[31mtwo")
            self.assertEqual(ran.stdout, screen.picture())
        (self.folder / "b.cast").write_text("{", encoding="utf-8")
        for words, wanted in (
            (["--at", "x", "a.cast"], "wanted seconds"), (["--still", "", "a.cast"], "wanted seconds"),
            (["--size", "0", "1", "a.cast"], "wanted rows"),
            (["b.cast"], "b.cast:1: wanted JSON"), (["c.cast"], "c.cast: No such file"),
        ):  # fmt: skip
            ran = run("animation", *words, folder=self.folder)
            self.assertEqual(ran.returncode, 1)
            self.assertRegex(ran.stderr, rf"^animation.py: .*{re.escape(wanted)}")


if __name__ == "__main__":
    unittest.main()
