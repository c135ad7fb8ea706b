"""What the checks of the C library share: compiling, running, and counting what holds."""
import os
import pathlib
import shutil
import subprocess

from repository import TOP

TESTS = TOP / "libvt/tests"
EXAMPLES = TOP / "libvt/examples"
# The sources of the example of a terminal.
TERM = ["term.c", "console.c", "typed.c", "draw.c", "picture.c"]
SECONDS = 300
WARNINGS = ["-Wall", "-Wextra", "-Werror"]
SANITIZERS = ["-fsanitize=address,undefined", "-fno-sanitize-recover=all", "-g"]
VALGRIND = ["valgrind", "-q", "--error-exitcode=99", "--leak-check=full", "--show-leak-kinds=all"]


class Missing(Exception):
    """Something that a check needs and this machine lacks."""


class Bench:
    """The library that is checked, a folder for what is compiled, and the count of what holds."""

    def __init__(self, library, folder, vt):
        self.library, self.folder, self.vt = pathlib.Path(library), pathlib.Path(folder), str(vt)
        self.passed = self.failed = 0
        self.skipped = []

    def holds(self, is_so, what):
        """Counts one thing, and prints it if it isn't so."""
        if is_so:
            self.passed += 1
        else:
            self.failed += 1
            print(f"not so: {what}", flush=True)
        return is_so

    def skip(self, what, why):
        """Names a check that can't be run here."""
        self.skipped.append(what)
        print(f"skipped: {what}: {why}", flush=True)

    def needs(self, *tools):
        """Stops a check if a tool is missing."""
        for tool in tools:
            if not shutil.which(tool):
                raise Missing(f"{tool} isn't there")

    def run(self, words, given=b"", **more):
        """Runs a program; its status, output and errors."""
        more = {"timeout": SECONDS, "check": False, "capture_output": True, **more}
        return subprocess.run([str(word) for word in words], input=given, **more)

    def compiled(self, name, sources, options=(), compiler=None):
        """A program of these sources and the archive, and None if it isn't compiled without a warning."""
        program = self.folder / name
        if program.exists():
            return program
        compiler = compiler or os.environ.get("CC", "cc")
        words = [compiler, "-std=gnu11", "-O1", *WARNINGS, f"-I{self.library}/include", "-o", program, *sources]
        ran = self.run([*words, *options, self.library / "lib/libvt.a"])
        why = ran.stderr.decode("utf-8", "replace").strip()
        return program if self.holds(ran.returncode == 0, f"{name} is compiled:\n{why}") else None

    def ends_well(self, words, what, given=b"", **more):
        """Whether a program ends with status 0; prints its output if it doesn't."""
        ran = self.run(words, given, **more)
        said = (ran.stdout + ran.stderr).decode("utf-8", "replace").strip()[-2000:]
        self.holds(ran.returncode == 0, f"{what} ends with status 0, and not {ran.returncode}:\n{said}")
        return ran
