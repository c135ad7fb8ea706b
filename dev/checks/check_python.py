#!/usr/bin/env python3
"""Checks the Python package libvt: its calls, terminals, test files and recordings, its pytest plugin, and its wheel.

usage: check_python.py [--library FILE] [--only PART,..] [--runs N]

- `tests`: the tests that need Python alone, such as those of `Terminal` with programs of a shell.
- `files`: the test files of examples/tests/live, each of a program that runs, N times (1).
- `plugin`: the tests of the pytest plugin. `programs`: live tests of programs, by pytest, N times,
  with eight workers if pytest-xdist is installed.
- `consoles`: the tests of a display server in examples/consoles, by pytest, N times.
- `types`: mypy --strict. `wheel`: a wheel is made without a network, installed into an empty folder, and used there.
- `moving`: Chromium shows the frames of docs/tour.svg as their still pictures. `scaled`: rsvg-convert draws it in two
  sizes, and no pixel is left out, so there is no line between two rows.
- `versions`: each other Python from 3.9 on that is in PATH runs a program on a terminal.

FILE is libvt.so.1 (out/c/lib in the clone). The parts run side by side. A part that needs what isn't installed is
skipped, and a line names it; the same holds for each program of the live tests. Prints a line for each part and last
'N passed, M failed'; ends with status 1 if one fails, and with 2 if the library isn't there.
"""
import argparse
import concurrent.futures
import os
import pathlib
import re
import shutil
import subprocess
import sys
import tempfile

sys.dont_write_bytecode = True
sys.path.insert(0, str(pathlib.Path(__file__).resolve().parents[1]))

import repository  # noqa: E402,F401: it has the folders of the modules below
from browser import installed  # noqa: E402
from check_picture import pixels_of  # noqa: E402
from package import FOLDER, TOP  # noqa: E402

SECONDS, WORKERS, LIMIT = 3000, 8, 100
LIBRARY = TOP / "out/c/lib/libvt.so.1"
LIVE = TOP / "examples/tests/live"
USE = """
import libvt
with libvt.Terminal(["sh", "-c", "printf hello; read x"], 2, 20) as it:
    assert it.screen.rows[0] == "hello", it.screen.rows
    it.type("<Enter>")
    assert it.wait_exit() == 0
print(libvt.__file__, libvt.calls._name())
"""
TEST = """
def test_hello(terminal):
    assert terminal("echo hello", 2, 20).screen.rows[0] == "hello"
"""


class Skipped(Exception):
    """A part needs what isn't installed."""


def python_with(*modules):
    """A Python with these modules, which the part needs: this one, or the system's."""
    for python in (sys.executable, "/usr/bin/python3"):
        code = f"import importlib.util, sys; sys.exit(None in map(importlib.util.find_spec, {modules}))"
        if os.path.exists(python) and not subprocess.run([python, "-c", code], check=False).returncode:
            return python
    raise Skipped(f"{' or '.join(modules)} isn't installed")


def run(words, library, python=sys.executable, **how):
    """Runs a command of Python with the library; gives whether it ended with 0, and what it printed."""
    environment = {
        **os.environ, "VT_LIBRARY": str(library), "PYTHONPATH": os.pathsep.join(filter(None, [
            str(FOLDER), os.environ.get("PYTHONPATH")])), "PYTHONDONTWRITEBYTECODE": "1", **how.pop("env", {}),
    }  # fmt: skip
    try:
        ran = subprocess.run(
            [python, *map(str, words)], env=environment, stdin=subprocess.DEVNULL, stdout=subprocess.PIPE,
            stderr=subprocess.STDOUT, timeout=SECONDS, check=False, **how)  # fmt: skip
    except subprocess.TimeoutExpired as late:
        return False, f"no end after {SECONDS} s\n{(late.stdout or b'').decode('utf-8', 'replace')}"
    return ran.returncode == 0, ran.stdout.decode("utf-8", "replace")


def tests(library, _):
    """Each file of tests that needs Python alone."""
    paths = sorted((FOLDER / "tests").glob("test_*.py"))
    names = [path.stem for path in paths if "unittest.main()" in path.read_text(encoding="utf-8")]
    with concurrent.futures.ThreadPoolExecutor() as pool:
        runs = pool.map(lambda name: run([FOLDER / f"tests/{name}.py", "-v"], library, cwd=FOLDER), names)
        for name, (passed, out) in zip(names, runs):
            skipped = re.search(r"^setUpModule .*skipped ['\"](.*)['\"]$", out, re.M)
            if skipped:
                print(f"skipped: {name}: {skipped[1]}")
                continue
            count = re.search(r"^Ran (\d+) tests?", out, re.M)
            yield passed, f"{name}: {count[1] if count else 'no'} tests", out


def files(library, runs):
    """The test files of programs that run; the programs that aren't installed are named."""
    installed = []
    for path in sorted(LIVE.glob("*.test")):
        program = re.search(r"^RUN (\S+)", path.read_text(encoding="utf-8"), re.M)[1]
        if shutil.which(program):
            installed.append(path.name)
        else:
            print(f"skipped: {path.name}: {program} isn't installed")
    for _ in range(runs):
        passed, out = run(["-m", "libvt.expect", "--limit", LIMIT, *installed], library, cwd=LIVE)
        yield passed, f"{len(installed)} test files: {out.rstrip().rsplit(chr(10), 1)[-1].strip('# ')}", out


def pytest(library, path, workers=0):
    """A file of tests by pytest, with this many workers if pytest-xdist is installed; what isn't installed is named."""
    python = python_with("pytest")
    has_xdist = workers and not subprocess.run([python, "-c", "import xdist"], stderr=subprocess.DEVNULL).returncode
    with tempfile.TemporaryDirectory() as folder:
        options = ["-q", "-rs", "-p", "pytest_libvt", "-p", "no:cacheprovider", f"--basetemp={folder}/base"]
        options += ["--vt-timeout", LIMIT]
        options += ["-n", workers] if has_xdist else []
        passed, out = run(["-m", "pytest", *options, path], library, python, cwd=FOLDER)
    for why in sorted(set(re.findall(r"^SKIPPED \[\d+\] \S+: (.*)$", out, re.M))):
        print(f"skipped: {path.stem}: {why}")
    last = out.rstrip().rsplit("\n", 1)[-1]
    return passed, f"{path.stem}: {re.sub(r' in .*', '', last).strip('= ')}", out


def plugin(library, _):
    """The tests of the plugin."""
    yield pytest(library, FOLDER / "tests/test_plugin.py")


def programs(library, runs):
    """The live tests."""
    for _ in range(runs):
        yield pytest(library, FOLDER / "tests/test_programs.py", WORKERS)


def consoles(library, runs):
    """The tests of a display server on consoles."""
    for _ in range(runs):
        yield pytest(library, TOP / "examples/consoles/test_display_server.py")


def types(library, _):
    """The types of the package."""
    passed, out = run(["-m", "mypy", "--cache-dir=/dev/null"], library, python_with("mypy"), cwd=FOLDER)
    yield passed, "mypy --strict", out


def wheel(library, _):
    """A wheel, which is installed and used in an empty folder."""
    python = python_with("pip", "setuptools", "wheel")
    with tempfile.TemporaryDirectory() as name:
        folder = pathlib.Path(name)
        shutil.copytree(FOLDER, folder / "source")
        words = ["-m", "pip", "--quiet", "--disable-pip-version-check"]
        offline = ["--no-index", "--no-deps"]
        made = [*words, "wheel", *offline, "--no-build-isolation", "-w", folder / "wheel", folder / "source"]
        passed, out = run(made, library, python, cwd=folder)
        wheels = list((folder / "wheel").glob("libvt-*-py3-none-manylinux_2_*_x86_64.whl"))
        yield passed and len(wheels) == 1, "a wheel is made", out
        if wheels:
            installed = [*words, "install", *offline, "--target", folder / "site", *wheels]
            passed, out = run(installed, library, python, cwd=folder)
            yield passed, "the wheel is installed", out
            mine = {"PYTHONPATH": str(folder / "site"), "VT_LIBRARY": ""}
            passed, out = run(["-c", USE], library, cwd=folder, env=mine)
            yield passed and out.count(f"{folder}/site/libvt/") == 2, "the wheel is used with its own library", out
            python = python_with("pytest")
            (folder / "test_hello.py").write_text(TEST, encoding="utf-8")
            words = ["-m", "pytest", "-q", "-p", "no:cacheprovider", "test_hello.py"]
            passed, out = run(words, library, python, cwd=folder, env=mine)
            yield passed and "1 passed" in out, "pytest finds the fixture of the wheel", out


def moving(library, _):
    """The moving picture of README's tour, in Chromium."""
    if installed() is None:
        raise Skipped("Chromium isn't installed")
    files_of_tour = TOP / "examples/pictures/tour.cast", TOP / "docs/tour.svg"
    passed, out = run([TOP / "dev/checks/moving_picture.py", *files_of_tour], library)
    yield passed, "frames of docs/tour.svg in Chromium", out


def scaled(_, __):
    """README's tour, drawn larger: a line between two rows would have pixels that nothing covers."""
    converter = shutil.which("rsvg-convert")
    if converter is None:
        raise Skipped("rsvg-convert isn't installed")
    for scale in ("1.3", "1.5"):
        ran = subprocess.run([converter, "--zoom", scale, TOP / "docs/tour.svg"], capture_output=True, check=False)
        rows = pixels_of(ran.stdout)[:-1] if ran.returncode == 0 else []
        lines = [y for y, row in enumerate(rows) if any(pixel[3:] not in (b"", b"\xff") for pixel in row[:-1])]
        yield bool(rows) and not lines, f"docs/tour.svg in rsvg-convert, {scale} times its size", f"open rows: {lines}"


def versions(library, _):
    """The package is used with each other version of Python."""
    found = False
    for minor in range(9, 30):
        python = shutil.which(f"python3.{minor}")
        name = f"import sys; sys.exit(sys.version_info[:2] != (3, {minor}))"
        works = python and not subprocess.run([python, "-c", name], stderr=subprocess.DEVNULL, check=False).returncode
        if works and minor != sys.version_info[1]:
            passed, out = run(["-c", USE], library, python)
            found = True
            yield passed, f"Python 3.{minor}", out
    if not found:
        raise Skipped("no other Python from 3.9 on is installed")


PARTS = {
    "tests": tests, "programs": programs, "plugin": plugin, "consoles": consoles, "files": files, "wheel": wheel,
    "types": types, "moving": moving, "scaled": scaled, "versions": versions,
}  # fmt: skip


def results_of(name, library, runs):
    """What came of a part: its results, and why it was skipped."""
    try:
        return list(PARTS[name](library, runs)), None
    except Skipped as why:
        return [], why


def main():
    form = argparse.ArgumentParser(description=__doc__, formatter_class=argparse.RawDescriptionHelpFormatter)
    form.add_argument("--library", metavar="FILE", default=LIBRARY)
    form.add_argument("--only", metavar="PART,..", default=",".join(PARTS))
    form.add_argument("--runs", metavar="N", type=int, default=1)
    given = form.parse_args()
    library = pathlib.Path(given.library).absolute()
    names = given.only.split(",")
    if not library.is_file() or not set(names) <= set(PARTS):
        print(f"check_python.py: wanted {library}, and parts of {', '.join(PARTS)}", file=sys.stderr)
        return 2
    passed = failed = 0
    with concurrent.futures.ThreadPoolExecutor() as pool:
        for name, (results, why) in zip(names, pool.map(lambda it: results_of(it, library, given.runs), names)):
            if why:
                print(f"skipped: {name}: {why}")
            for is_good, what, out in results:
                passed, failed = passed + is_good, failed + (not is_good)
                print(f"{what}{'' if is_good else ': FAILED'}")
                print("" if is_good else out, end="", flush=True)
    print(f"{passed} passed, {failed} failed")
    return 1 if failed or not passed else 0


if __name__ == "__main__":
    sys.exit(main())
