#!/usr/bin/env python3
"""Checks record.py and expect.py: the test files of examples/tests, what each refuses, and how long a large file takes.

usage: check_expect.py [--vt PATH] [--picture PATH] [--seconds S] [--damaged N] [--only KIND]

The test files hold, wrong.test prints wrong.tap, and the rows at the end of each file are those of `vt screen`. Each
file that isn't of the form is refused with its line; record.py ends with its status for each way in which a program can
fail. Some hundreds of damaged files end with a status and a message, and never with a traceback. A file with 1,000
assertions over a stream of 1 MiB takes at most S seconds (5) of processor time. The commands of the guides print what
they show, if less is installed, and the test files want what pyte shows, if that is. The tools need the C library in
out/c. Prints a line a kind and last 'N passed, M failed'; ends with status 1 if one fails.
"""
import argparse
import concurrent.futures
import functools
import importlib
import json
import multiprocessing
import os
import pathlib
import random
import re
import resource
import select
import signal
import subprocess
import sys
import tempfile
import traceback

sys.dont_write_bytecode = True
sys.path.insert(0, str(pathlib.Path(__file__).resolve().parents[1]))

from repository import TOP  # noqa: E402: after the folder that it stands in
import package  # noqa: E402
from expect_rows import REFUSED_CASTS, REFUSED_KEYS, REFUSED_TESTS, RUNS  # noqa: E402
from guide_pages import guided  # noqa: E402
from programs import find_for_check  # noqa: E402

TOOLS, TESTS = TOP / "tools", TOP / "examples/tests"
GUIDES = [f"docs/guide/{name}.md" for name in ("test-a-terminal-program", "from-pyte-and-pexpect", "from-libvterm")]
SECONDS = 400
# pyte draws vttest's frame otherwise than vttest's own text describes it.
DRAWN_OTHERWISE = ["vttest.test:13: ?screen"]

def run(words, folder=TOP):
    """Runs a tool; nothing where it doesn't end."""
    try:
        words = [sys.executable, *map(str, words)]
        return subprocess.run(words, cwd=folder, capture_output=True, timeout=SECONDS, check=False)
    except subprocess.TimeoutExpired:
        return None


def run_copy(words, folder=TOP):
    """Runs a tool in a copy of this process, which has loaded the package already; nothing where it doesn't end."""
    load("terminal")
    with tempfile.TemporaryFile() as out, tempfile.TemporaryFile() as err:
        child = os.fork()
        if not child:
            be_tool([str(word) for word in words], folder, out.fileno(), err.fileno())
        with open(os.pidfd_open(child), "rb", buffering=0) as end:
            has_ended = bool(select.select([end], [], [], SECONDS)[0])
        if not has_ended:
            os.kill(child, signal.SIGKILL)
        status = os.waitstatus_to_exitcode(os.waitpid(child, 0)[1])
        for file in (out, err):
            file.seek(0)
        return subprocess.CompletedProcess(words, status, out.read(), err.read()) if has_ended else None


def be_tool(words, folder, out, err):
    """This process is the tool from here on, and ends as the tool does."""
    status = 1
    try:
        os.chdir(folder)
        for given, taken in ((os.open(os.devnull, os.O_RDONLY), 0), (out, 1), (err, 2)):
            os.dup2(given, taken)
        sys.stdout, sys.stderr = (open(number, "w", encoding="utf-8", closefd=False) for number in (1, 2))
        sys.argv = words
        status = package.run(pathlib.Path(words[0]).stem, 3)
    except SystemExit as end:
        status = end.code if isinstance(end.code, int) else 1
    except BaseException:
        traceback.print_exc()
    finally:
        sys.stdout.flush()
        sys.stderr.flush()
        os._exit(status or 0)


def fault_of(ran, statuses, name):
    """Why a run of a tool ended as no run may, or None: a status of its own, and a message where it isn't 0 or 1."""
    if ran is None:
        return f"didn't end within {SECONDS} s"
    said = ran.stderr.decode("utf-8", "replace")
    if "Traceback" in said or ran.returncode not in statuses:
        return f"status {ran.returncode}: {said[-200:]}"
    if ran.returncode > 1 and not re.search(rf"^{name}: .+\n", said, re.M):
        return f"status {ran.returncode} without a message: {said[-200:]!r}"
    return None


def expect_words(*words):
    """The words of a run of expect.py."""
    return [TOOLS / "expect.py", *words]


def drawn_by_vt(given):
    """The rows at the end of each test file are those that `vt screen` prints of the same bytes."""
    for name in sorted(path.name for path in TESTS.glob("*.test")):
        file = load("expect_files").read_test(str(TESTS / name))
        steps = [part for part in file.parts if not hasattr(part, "kind")]
        if any(step.word not in ("SIZE", "PUSH", "FILE") for step in steps):
            continue
        text = b"".join(step.value for step in steps if step.word != "SIZE")
        words = [str(given.vt), "screen", *map(str, file.start)]
        printed = subprocess.run(words, input=text, capture_output=True, timeout=SECONDS, check=False).stdout
        with load("calls").Screen(*file.start) as screen:
            screen.write(text)
            shown = load("shown").Shown(screen)
        rows = "".join(f"|{shown.line(row)}|\n" for row in range(file.start[0]))
        yield None if printed.decode() == rows else f"{name}: vt screen prints\n{printed.decode()}"


def load(name):
    """A module of the package."""
    sys.path.insert(0, str(package.FOLDER))
    return importlib.import_module(f"libvt.{name}")


def held(_):
    """The files that hold, and the one that doesn't."""
    names = sorted(path.name for path in TESTS.glob("*.test"))
    good = [name for name in names if name != "wrong.test"]
    yield None if len(good) >= 10 else f"{len(good)} test files"
    for name in good:
        ran = run(expect_words(name), TESTS)
        why = fault_of(ran, (0, 1), "expect.py")
        if not why and ran.returncode:
            why = ran.stdout.decode("utf-8", "replace")
        yield f"{name}: {why}" if why else None
    ran = run(expect_words("wrong.test"), TESTS)
    why = fault_of(ran, (1,), "expect.py")
    if not why and ran.stdout != (TESTS / "wrong.tap").read_bytes():
        why = ran.stdout.decode("utf-8", "replace")
    yield f"wrong.test: {why}" if why else None


def judged(_):
    """What the test files want is what pyte shows, except the screen that it draws otherwise; None without pyte."""
    names = sorted(path.name for path in TESTS.glob("*.test"))
    for python in (sys.executable, "/usr/bin/python3"):
        words = [python, TOP / "dev/engines/judge_by_pyte.py", *names]
        ran = subprocess.run(words, cwd=TESTS, capture_output=True, timeout=SECONDS, check=False)
        if ran.returncode != 5:
            break
    else:
        return None
    differ = [line for line in ran.stdout.decode().splitlines()[:-1] if not line.startswith("wrong.test:")]
    return [None if ran.returncode == 1 and differ == DRAWN_OTHERWISE else f"{differ} {ran.stderr.decode()}"]


def refused(rows, name, words, status):
    """Files that aren't of the form: each with its status, its line, and what was wanted."""
    with tempfile.TemporaryDirectory() as folder:
        path = pathlib.Path(folder) / "file"
        for text, line, wanted in rows:
            path.write_bytes(text if isinstance(text, bytes) else text.encode())
            ran = run_copy([TOOLS / name, *words(path)])
            why = fault_of(ran, (status,), name)
            said = ran.stderr.decode("utf-8", "replace") if ran else ""
            if not why and not (said.startswith(f"{name}: {path}:{line}: ") and wanted in said):
                why = said
            yield f"{text[:40]!r}: {why}" if why else None


def recorded(_):
    """What record.py says of programs that can't be recorded, or end otherwise than they should."""
    with tempfile.TemporaryDirectory() as folder:
        path = pathlib.Path(folder) / "keys"
        for script, words, status, wanted in RUNS:
            path.write_text(script, encoding="utf-8")
            ran = run([TOOLS / "record.py", *words[:2], "--keys", path, *words[2:]])
            why = fault_of(ran, (status,), "record.py")
            if not why and wanted not in ran.stderr.decode("utf-8", "replace"):
                why = ran.stderr.decode("utf-8", "replace")
            yield f"record.py {' '.join(words)}: {why}" if why else None


def casts(_):
    """docs/tour.svg is the moving picture of its recording. A cast has the stream: of version 2, which record.py
    writes, and the same output in versions 1 and 3."""
    drawn = run([TOOLS / "animation.py", "--still", "12.5", TOP / "examples/pictures/tour.cast"])
    is_so = drawn is not None and drawn.stdout == (TOP / "docs/tour.svg").read_bytes()
    yield None if is_so else "docs/tour.svg isn't the moving picture of examples/pictures/tour.cast"
    with tempfile.TemporaryDirectory() as folder:
        stream, cast, other = (pathlib.Path(folder) / name for name in ("stream", "cast", "other"))
        command = "printf 'h\\303\\251\\033[1m'; sleep 0.1; printf '\\346\\227'; sleep 0.1; printf '\\245\\n'"
        run([TOOLS / "record.py", "3", "20", "--out", stream, "--cast", cast, "--", "sh", "-c", command])
        wanted = "h\u00e9\x1b[1m\u65e5\r\n".encode()
        events = [json.loads(line) for line in cast.read_text(encoding="utf-8").splitlines()]
        head = events.pop(0)
        yield None if (head["version"], head["width"], head["height"]) == (2, 20, 3) else f"the cast's head is {head}"
        newest = [{"version": 3, "term": {"cols": 20, "rows": 3}}, *events, [1, "m", ""], [1, "x", "0"]]
        versions = {
            1: json.dumps({"version": 1, "stdout": [[moment, text] for moment, _, text in events]}, indent=2),
            2: cast.read_text(encoding="utf-8"),
            3: "\n".join(map(json.dumps, newest)),
        }
        for version, text in versions.items():
            other.write_text(text, encoding="utf-8")
            got = run([TOOLS / "record.py", "--from-cast", other])
            same = got is not None and got.stdout == wanted == stream.read_bytes()
            yield None if same else f"version {version}: {got and got.stdout!r}"


def damaged(given):
    """Damaged files of each kind: each run ends with a status of the tool's."""
    cast = '{"version": 2, "width": 20, "height": 3}\n[0.1, "o", "hi \\u001b[1m"]\n[0.2, "r", "30x4"]\n'
    seeds = {
        "test": [path.read_bytes() for path in sorted(TESTS.glob("*.test"))],
        "keys": [path.read_bytes() for path in sorted(TESTS.glob("*.keys"))],
        "cast": [cast.encode()],
    }
    words = {
        "test": lambda path: expect_words(path),
        "keys": lambda path: [TOOLS / "record.py", "3", "20", "--limit", "0.2", "--keys", path, "--", "cat"],
        "cast": lambda path: [TOOLS / "record.py", "--from-cast", path],
    }
    pieces = [b'"', b"\\", b"=", b"|", b"?", b"x 9", b",", b"\n", b"\xff", b"\0", b"-1", b"9" * 11, b"[", b"U+", b"\\x{"]
    for i in range(given.damaged):
        rng = random.Random(f"damaged {i}")
        kind = ("test", "cast", "test", "keys")[i % 4]
        text = bytearray(rng.choice(seeds[kind]))
        for _ in range(rng.randint(1, 4)):
            at, size = rng.randrange(len(text) + 1), rng.choice([0, 1, 1, 4, 30])
            text[at : at + size] = rng.choice(pieces) if rng.randrange(3) else b""
        if kind == "keys":
            # a script that only waits long is no fault
            text = re.sub(rb"(?m)^( *sleep) .*", rb"\1 0.1", bytes(text))
        with tempfile.TemporaryDirectory(dir=TESTS) as folder:
            path = pathlib.Path(folder) / "file"
            path.write_bytes(bytes(text))
            why = fault_of(run_copy(words[kind](path)), range(6), "expect.py" if kind == "test" else "record.py")
        yield f"damaged {i}: {why}" if why else None


def large(given):
    """1,000 assertions at 1,000 places of a stream of 1 MiB, of each kind, within the seconds of processor time."""
    rng = random.Random("large")
    colour = lambda: rng.randrange(8)
    text = lambda: bytes(rng.choices(b"abc xyz", k=60))
    stream = b"".join(b"\x1b[3%d;4%dm%s\x1b[m\r\n" % (colour(), colour(), text()) for _ in range(20_000))[: 1 << 20]
    kinds = ["?cursor = 24,0", '?row 3 = ""', "?cell 0,0 = U+0061", "?attr 2,3 = red black", '?output = ""']
    kinds += ["?bells = 0", "?mode insert = off", "?screen"]
    lines = ["SIZE 25 80"]
    for i in range(1_000):
        first, last = (len(stream) * n // 1_000 for n in (i, i + 1))
        lines += [f"FILE stream {first} {last}", kinds[i % len(kinds)]]
    with tempfile.TemporaryDirectory() as folder:
        path = pathlib.Path(folder) / "large.test"
        path.write_text("\n".join(lines), encoding="utf-8")
        path.with_name("stream").write_bytes(stream)
        before = resource.getrusage(resource.RUSAGE_CHILDREN)
        ran = run(expect_words(path))
        after = resource.getrusage(resource.RUSAGE_CHILDREN)
    used = after.ru_utime + after.ru_stime - before.ru_utime - before.ru_stime
    why = fault_of(ran, (0, 1), "expect.py")
    if not why and len(re.findall(rb"(?m)^(?:not )?ok ", ran.stdout)) != 1_000:
        why = "it hasn't 1,000 lines"
    yield why or (f"took {used:.1f} s of processor time" if used > given.seconds else None)


def tests_refused(_):
    """Test files that aren't of the form."""
    return refused(REFUSED_TESTS, "expect.py", lambda path: [path], 2)


def keys_refused(_):
    """Key scripts that aren't of the form."""
    return refused(REFUSED_KEYS, "record.py", lambda path: ["3", "20", "--keys", path, "--", "true"], 1)


def casts_refused(_):
    """Recordings that aren't of the form."""
    return refused(REFUSED_CASTS, "record.py", lambda path: ["--from-cast", path], 1)


# What is checked, those that take longest first. Each gives None for what holds, and a text for what doesn't; or None
# at once, if what it needs isn't installed.
KINDS = {
    **{page: functools.partial(guided, page=page) for page in GUIDES},
    "damaged files": damaged,
    "programs recorded": recorded,
    "test files": held,
    "1,000 assertions": large,
    "test files refused": tests_refused,
    "key scripts refused": keys_refused,
    "casts refused": casts_refused,
    "casts": casts,
    "rows of vt screen": drawn_by_vt,
    "judged by pyte": judged,
}


def results_of(kind, given):
    """What came of a kind."""
    results = KINDS[kind](given)
    return None if results is None else list(results)


def main():
    form = argparse.ArgumentParser(description=__doc__, formatter_class=argparse.RawDescriptionHelpFormatter)
    form.add_argument("--vt", metavar="PATH")
    form.add_argument("--picture", metavar="PATH")
    form.add_argument("--seconds", metavar="S", type=float, default=5.0)
    form.add_argument("--damaged", metavar="N", type=int, default=200)
    form.add_argument("--only", metavar="KIND")
    given = form.parse_args()
    names = [name for name in KINDS if given.only in (None, name)]
    if {"rows of vt screen", *GUIDES} & {*names}:
        given.vt, given.picture = (find_for_check(name, getattr(given, name)) for name in ("vt", "picture"))
    passed = failed = 0
    with concurrent.futures.ProcessPoolExecutor(mp_context=multiprocessing.get_context("fork")) as pool:
        for kind, results in zip(names, pool.map(results_of, names, [given] * len(names))):
            if results is None:
                print(f"skipped: {kind}: it isn't installed here")
                continue
            bad = [why for why in results if why]
            passed, failed = passed + len(results) - len(bad), failed + len(bad)
            shown = "".join(f"\n    {why}" for why in bad[:5])
            print(f"{kind}: {len(results) - len(bad)} of {len(results)}{shown}", flush=True)
    print(f"{passed} passed, {failed} failed")
    return 1 if failed else 0


if __name__ == "__main__":
    sys.exit(main())
