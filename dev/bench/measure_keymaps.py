#!/usr/bin/env python3
"""Makes the figures of docs/guide/bring-your-keymap.md: how many keymaps of kbd, console-data and ckbcomp come in.

usage: dev/bench/measure_keymaps.py [--install] [--vt PROGRAM] [--jobs N] [--layouts NAME,NAME..]

It compares every keymap below /usr/share/keymaps, as tools/compare_keymap.py does; then the dumps of 60 of them, taken
evenly; `compose as usual` in each character set of kbd, and each file of compose pairs; and what ckbcomp(1) writes for
each layout of X's list. --install first gets kbd, console-data and console-setup by apt-get, as root, and --jobs
compares so many at once. It prints a line for each keymap that is different, was refused, or was compared with a repaired copy,
and then the figures. Status 1 means that one is different.
"""
import argparse
import collections
import concurrent.futures
import datetime
import functools
import pathlib
import re
import subprocess
import sys
import tempfile

sys.dont_write_bytecode = True
sys.path.insert(0, str(pathlib.Path(__file__).resolve().parents[1]))

import repository  # noqa: E402,F401: it has the folders of the modules below
import compare_keymap  # noqa: E402
import kbd_names  # noqa: E402
import keymap  # noqa: E402
from compare_keymap import ProgramError, Verdict  # noqa: E402
from kbd_text import KeymapError  # noqa: E402
from programs import Missing, find  # noqa: E402

KEYMAPS = pathlib.Path("/usr/share/keymaps")
LAYOUTS = pathlib.Path("/usr/share/X11/xkb/rules/base.lst")
PACKAGES = ["kbd", "console-data", "console-setup"]
BACK = 60


def install():
    """Gets the packages."""
    for words in (["apt-get", "update"], ["apt-get", "install", "-y", *PACKAGES]):
        subprocess.run(
            words, check=True, env={"DEBIAN_FRONTEND": "noninteractive", "PATH": "/usr/sbin:/usr/bin:/sbin:/bin"}
        )


def versions():
    """Returns the versions of the packages that are there."""
    words = ["dpkg-query", "-W", "-f", "${Package} ${Version}, ", *PACKAGES, "xkb-data"]
    return subprocess.run(words, capture_output=True, text=True, check=False).stdout.rstrip(", ")


def layouts():
    """Returns the layouts of X's list."""
    part = re.search(r"^! layout\n(.*?)^!", LAYOUTS.read_text(encoding="utf-8"), re.M | re.S)
    lines = part[1].splitlines() if part else []
    return [line.split()[0] for line in lines if line.strip() and line.split()[0] != "custom"]


def written_by_ckbcomp(names, folder):
    """Gives the keymap that ckbcomp writes for each layout, as a file."""
    for name in names:
        path = pathlib.Path(folder) / f"ckbcomp {name}"
        path.write_bytes(subprocess.run(["ckbcomp", "-layout", name], capture_output=True, check=False).stdout)
        yield path


def composed(folder):
    """Gives keymaps with `compose as usual` in each character set, and with each file of compose pairs."""
    for charset in ["iso-8859-1", *kbd_names.BYTES]:
        path = pathlib.Path(folder) / f"usual {charset}"
        path.write_text(f'charset "{charset}"\nkeymaps 0\nkeycode 3 = a\ncompose as usual\n')
        yield path
    for file in sorted(KEYMAPS.glob("**/*compose.*.inc.gz")):
        name = file.name.removesuffix(".inc.gz")
        kind = name.partition(".")[2].replace("8859_", "latin").removeprefix("latin") or "1"
        path = pathlib.Path(folder) / f"with {name}"
        path.write_text(f'charset "iso-8859-{kind}"\nkeymaps 0\nkeycode 3 = a\ninclude "{name}"\n')
        yield path


def verdicts(judge, paths, jobs):
    """Returns the verdict on each keymap; prints those that were refused, are different, or took a repair."""

    def one(path):
        try:
            return path, judge(str(path))
        except (KeymapError, ProgramError) as error:
            return path, Verdict("refused", f"not compared: {error}", {}, 0)

    found = []
    with concurrent.futures.ThreadPoolExecutor(jobs) as pool:
        judged = list(pool.map(one, paths))
    for path, verdict in judged:
        if verdict.word in ("different", "refused") or "(loadkeys" in verdict.line:
            line = re.sub(": [^:]*$", "", verdict.line) if "(loadkeys" in verdict.line else verdict.line
            print(f"{path}: {line}", flush=True)
        found.append(verdict)
    return found


def is_taken_by_both(verdict):
    """Returns whether the converter and loadkeys both take a keymap as it stands."""
    return verdict.word != "refused" and "(loadkeys" not in verdict.line


def figures(title, found):
    """Prints the figures of a set of keymaps, and returns their verdicts."""
    words = collections.Counter(verdict.word for verdict in found)
    print(f"\n{title}: {len(found)} keymaps, {sum(verdict.entries for verdict in found)} entries that aren't holes")
    for word, what in [
        ("same", "same"),
        ("lost", "same except for listed entries"),
        ("different", "different"),
        ("refused", "not compared"),
    ]:
        print(f"    {words[word]} {what}")
    entries, maps = collections.Counter(), collections.Counter()
    for verdict in found:
        names = collections.Counter()
        for name, count in verdict.names.items():
            names[keymap.group_of(name)] += count
        entries.update(names)
        maps.update(names.keys())
    for name, count in sorted(entries.items(), key=lambda item: (-item[1], item[0])):
        print(f"    | `{name}` | {count} | {maps[name]} |")
    print(f"    {sum(entries.values())} entries listed", flush=True)
    return found


def main():
    parser = argparse.ArgumentParser(description="Makes the figures of docs/guide/bring-your-keymap.md.")
    parser.add_argument("--install", action="store_true", help="get kbd, console-data and console-setup by apt-get")
    parser.add_argument("--vt", metavar="PROGRAM", help="the program vt; the one that tools/programs.py finds without it")
    parser.add_argument("--jobs", default=1, type=int, metavar="N", help="compare so many at once (default: 1)")
    parser.add_argument("--layouts", default="", metavar="NAMES", help="layouts for ckbcomp (default: all of X's list)")
    asked = parser.parse_args()
    try:
        if asked.install:
            install()
        program = find("vt", asked.vt)
        same = (program, compare_keymap.same_actions(program))
        judge = functools.partial(compare_keymap.compare, *same)
        judge_back = functools.partial(compare_keymap.compare_back, *same)
        paths = sorted(KEYMAPS.glob("**/*.kmap.gz"))
        print(f"{datetime.date.today()}: {versions()}", flush=True)
        found = figures("kbd and console-data", verdicts(judge, paths, asked.jobs))
        taken = [path for path, verdict in zip(paths, found, strict=True) if is_taken_by_both(verdict)]
        taken = taken[:: max(1, len(taken) // BACK)][:BACK]
        found += figures("dumps read by loadkeys", verdicts(judge_back, taken, asked.jobs))
        with tempfile.TemporaryDirectory() as folder:
            found += figures("compose pairs", verdicts(judge, composed(folder), asked.jobs))
            written = written_by_ckbcomp(asked.layouts.split(",") if asked.layouts else layouts(), folder)
            found += figures("ckbcomp", verdicts(judge, written, asked.jobs))
    except (Missing, OSError, ProgramError, subprocess.CalledProcessError) as error:
        sys.stderr.write(f"measure_keymaps.py: {error}\n")
        return 3
    return 1 if any(verdict.word == "different" for verdict in found) else 0


if __name__ == "__main__":
    sys.exit(main())
