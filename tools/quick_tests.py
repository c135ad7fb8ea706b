#!/usr/bin/env python3
"""Runs the worked cases and the tools' own tests on programs that are built without proofs, in one to two minutes.

usage: tools/quick_tests.py [--built] [--jobs N]

First tools/build.py builds what has changed; with --built the programs of out/bin are taken as they stand. Then the
worked cases, crates/cases/stdin, are answered by out/bin/cases and compared with crates/cases/stdout, case by case, and
the checks are run with the programs of out/bin, N at a time (as many as there are processors). None needs a
network. A check without its tools, such as a C compiler, is left out, and a line names it.

Prints a line for each kind of case and for each check, with the output of one that fails, and last 'N passed, M
failed', in which a case counts as one and so does a check. Statuses: 0 all passed; 1 one failed; 2 nothing was tested,
since the programs aren't there or the words aren't of the form.
"""
import argparse
import concurrent.futures
import os
import re
import subprocess
import sys
import time

sys.dont_write_bytecode = True

from programs import CRATES, ONLY_PROVED, TOP  # noqa: E402: after the line that keeps tools/ clean

sys.path.insert(1, str(TOP / "dev"))
from repository import path_of  # noqa: E402: after its folder

FOLDER = TOP / "crates/cases"
BUILT = TOP / "out/bin"
CASES = BUILT / "cases"
LIBRARY = TOP / "out/c/lib/libvt.a"
SECONDS = 1200
SHOWN_LINES = 25
OF_C = "header,codes,cuts,outs,steps,memory,threads,keys,consoles,faults,terminal,python,install,guide"
OVER_LIBRARY = ("check_c.py", "check_expect.py", "check_python.py", "check_vtrun.py")
# The checks, in groups that aren't run side by side: those of a group write the same files. The longest come first.
CHECKS = [
    ["check_streams.py"],
    ["check_expect.py --damaged 30", "check_python.py"],
    ["check_vtrun.py"],
    [f"check_c.py --library out/c --runs 200 --only {OF_C}"],
    ["check_timeline.py", "check_explore.py"],
    ["check_pages.py", "check_watch.py 10", "check_keymaps.py 50", "check_why.py 100", "check_blocks.py"],
    ["check_build.py", "check_install.py", "check_links.py", "check_words.py", "check_snippets.py --no-run"],
    ["check_hostile.py 20", "check_redraw.py 40", "check_drill.py", "check_switches.py", "check_picture.py"],
    ["engines.py vt --cut --first", "make_conformance.py --check"],
    ["check_promises.py", "check_proved.py", "check_lemmas.py", "api.py --check"],
    ["check_names.py", "crates_map.py --check", "case_input.py --check"],
    ["key_index.py --check", "call_lists.py --check"],
]


def sections(text):
    """Gives each kind of case: its name, and its cases, each a list of lines."""
    found, lines = [], text.splitlines(keepends=True)
    for i, line in enumerate(lines):
        is_heading = re.fullmatch(r"# [A-Z].*\n", line) and lines[i - 1 : i] == ["\n"] and lines[i + 1 : i + 2] == ["#\n"]
        if is_heading:
            found.append((line[2:].strip(), []))
        elif line.startswith("case ") and found:
            found[-1][1].append([line])
        elif found and found[-1][1]:
            found[-1][1][-1].append(line)
    return found


def without_remarks(lines):
    """The lines of a case that are compared."""
    return [line for line in lines if not line.startswith("#") and line.strip()]


def answered(printed):
    """The cases of an output, each a list of lines."""
    # (a heading of its own, so that the answers are read as the files are)
    return [case for _, cases in sections("\n# All\n#\n\n" + printed) for case in cases]


def run_cases():
    """Runs the worked cases; gives how many passed and how many failed."""
    given = (FOLDER / "stdin").read_bytes()
    ran = subprocess.run([CASES], input=given, capture_output=True, timeout=SECONDS, check=False)
    printed, passed, failed = answered(ran.stdout.decode("utf-8", "replace")), 0, 0
    for kind, cases in sections((FOLDER / "stdout").read_text(encoding="utf-8")):
        bad = []
        for case in cases:
            got = printed.pop(0) if printed else []
            if without_remarks(got) != without_remarks(case):
                bad.append(case[0][5:].strip())
        passed, failed = passed + len(cases) - len(bad), failed + len(bad)
        print(f"{kind}: {len(cases) - len(bad)} of {len(cases)}" + "".join(f"\n    fails: {name}" for name in bad))
    if ran.returncode:
        print(f"{CASES} ended with status {ran.returncode}")
        failed += 1
    return passed, failed


def is_left_out(check):
    """Why a check isn't run, or nothing."""
    if check.startswith(OVER_LIBRARY) and not LIBRARY.exists():
        return "the C library isn't built"
    return ""


def environment():
    """The variables of a check: it runs the programs that were just built, and not older ones that are proved."""
    built = {name.upper(): str(BUILT / name) for name in CRATES if (BUILT / name).exists()}
    return {**os.environ, **built, ONLY_PROVED: ""}


def run_check(check):
    """Runs a check, and prints how it ended; gives whether it passed."""
    begun = time.monotonic()
    try:
        ran = subprocess.run(
            [path_of(check.split()[0]), *check.split()[1:]], cwd=TOP, stdin=subprocess.DEVNULL,
            stdout=subprocess.PIPE, stderr=subprocess.STDOUT, timeout=SECONDS, check=False,
            env=environment())  # fmt: skip
        status, lines = ran.returncode, ran.stdout.decode("utf-8", "replace").splitlines()
    except subprocess.TimeoutExpired:
        status, lines = f"none, since it didn't end within {SECONDS} s", []
    shown = [] if status == 0 else [f"    {line}" for line in lines[-SHOWN_LINES:]]
    word = "passed" if status == 0 else f"failed with status {status}"
    print("\n".join([f"{check}: {word}, {time.monotonic() - begun:.0f} s", *shown]), flush=True)
    return status == 0


def run_group(checks):
    """Runs checks one after another; gives how many passed and how many failed."""
    results = []
    for check in checks:
        why = is_left_out(check)
        if why:
            print(f"skipped: {check}: {why}", flush=True)
        else:
            results.append(run_check(check))
    return results.count(True), results.count(False)


def words():
    """The words of the command line."""
    form = argparse.ArgumentParser(description="Runs the worked cases and the tools' own tests without proofs.")
    form.add_argument("--built", action="store_true", help="take the programs of out/bin as they stand")
    form.add_argument("--jobs", type=int, default=len(os.sched_getaffinity(0)), metavar="N", help="checks at a time")
    given = form.parse_args()
    if given.jobs < 1:
        form.error(f"--jobs {given.jobs}: a number from 1 was wanted")
    return given


def main():
    given = words()
    if not given.built and subprocess.run([TOP / "tools/build.py"], check=False).returncode:
        return 2
    if not CASES.exists():
        print(f"quick_tests.py: {CASES} isn't there: tools/build.py makes it", file=sys.stderr)
        return 2
    passed, failed = run_cases()
    with concurrent.futures.ThreadPoolExecutor(given.jobs) as pool:
        for count, failures in pool.map(run_group, CHECKS):
            passed, failed = passed + count, failed + failures
    print("These are tests, and prove nothing: `.ci/run` proves and tests everything.")
    print(f"{passed} passed, {failed} failed")
    return 1 if failed else 0


if __name__ == "__main__":
    sys.exit(main())
