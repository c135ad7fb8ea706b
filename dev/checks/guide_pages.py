"""The pages for testers: their commands print what they show, and their tests in Python hold."""
import os
import pathlib
import re
import shutil
import subprocess
import sys
import tempfile

from repository import TOP
import check_pages
import package

SECONDS = 400
# ten_pexpect.py guesses when less has drawn, so a busy machine may make it fail.
TRIES = 3


def works(*command):
    return bool(shutil.which(command[0])) and subprocess.run(command, capture_output=True).returncode == 0


def links_of(given):
    """The programs and tools that the guides name, and those that are left out since an engine isn't installed."""
    targets = {"vt": given.vt, "picture": given.picture}
    targets.update({name: TOP / "tools" / name for name in ("record.py", "expect.py", "animation.py")})
    pythons = [it for it in (sys.executable, "/usr/bin/python3") if works(it, "-c", "import pyte")]
    targets.update({"python3": it for it in pythons[:1]})
    left_out = [] if pythons else ["less_pyte"]
    left_out += [] if pythons and works(pythons[0], "-c", "import pexpect") else ["ten_pexpect"]
    left_out += [] if works("gcc", "-E", "-x", "c", "-include", "vterm.h", os.devnull) else ["less_libvterm"]
    return targets, left_out


def guided(given, page):
    """The commands of a page print what it shows, if less is installed."""
    return guided_by(given, page) if shutil.which("less") else None


def guided_by(given, page):
    """The same, in a folder with the files that the page shows; `~/vt` is this clone."""
    text = (TOP / page).read_text(encoding="utf-8")
    files = re.findall(r"`([\w.]+)`[^\n]*:\n\n((?: {4}(?!\$).*\n|\n(?= {4}[^$]))+)", text)
    targets, left_out = links_of(given)
    with tempfile.TemporaryDirectory() as folder:
        home, links, at = (pathlib.Path(folder) / name for name in ("home", "bin", "try"))
        for made in (home, links, at):
            made.mkdir()
        (home / "vt").symlink_to(TOP)
        for name, block in files:
            (at / name).write_text(re.sub("(?m)^ {4}", "", block), encoding="utf-8")
        for name, target in targets.items():
            (links / name).symlink_to(pathlib.Path(target).resolve())
        environment = {**os.environ, "PATH": f"{links}:{os.environ['PATH']}", "HOME": str(home), "CI": ""}
        environment["PYTHONDONTWRITEBYTECODE"] = "1"
        for command, lines in check_pages.examples(text):
            if any(name in command for name in left_out):
                continue
            words = ["bash", "-c", command]
            for _ in range(TRIES if "ten_pexpect" in command else 1):
                ran = subprocess.run(
                    words, cwd=TOP if "examples/" in command else at, env=environment, capture_output=True,
                    timeout=SECONDS, check=False)  # fmt: skip
                if ran.returncode == 0:
                    break
            printed = (ran.stdout + ran.stderr).decode("utf-8", "replace").splitlines()
            yield None if check_pages.fits(lines, printed) else "\n".join([f"`{command}` prints", *printed[:20]])
        yield from with_pytest(at, environment, [name for name, _ in files if name.startswith("test_")])


def with_pytest(folder, environment, names):
    """The tests of a page in Python: those that want the file of a screen hold after --vt-accept, the others at once."""
    pythons = [it for it in (sys.executable, "/usr/bin/python3") if works(it, "-c", "import pytest")]
    environment = {**environment, "PYTHONPATH": str(package.FOLDER)}
    for name in names if pythons else []:
        wants_file = "assert_screen" in (folder / name).read_text(encoding="utf-8")
        for words, status in ([], int(wants_file)), (["--vt-accept"], 0), ([], 0):
            words = [pythons[0], "-m", "pytest", "-q", "-p", "pytest_libvt", "-p", "no:cacheprovider", *words, name]
            ran = subprocess.run(words, cwd=folder, env=environment, capture_output=True, timeout=SECONDS, check=False)
            out = ran.stdout.decode("utf-8", "replace")
            yield None if ran.returncode == status else f"{name}: pytest ends with {ran.returncode}\n{out}"
