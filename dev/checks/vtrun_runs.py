"""Runs of vtrun for check_vtrun.py: the programs that it needs, and one run with its output and its journal."""
import os
import pathlib
import shutil
import subprocess
import time

import repository  # noqa: F401: it has the folders of the modules below
from programs import TOP, find_for_check

TESTS = TOP / "vtrun/tests"
# The limit of vtrun, and that of a command. They are far longer than a run takes, also with many others beside it.
LIMIT, SECONDS = 300, 400
# The test programs, with what each needs besides a C compiler.
PROGRAMS = {"server": [], "switches": [], "asks": [], "clients": ["-static", "-lpthread"], "fuzz": []}
SEAT_CLIENT = "seat_client"
NOBODY = 65534


class Absent(Exception):
    """Something that a check needs isn't there, or isn't allowed: what, and why."""


def command(words, **how):
    """Runs a command to its end. Its output may have any bytes, as the words of random requests have."""
    how = {"stdin": subprocess.DEVNULL, "capture_output": True, "text": True, "timeout": SECONDS, "check": False, **how}
    how.setdefault("errors", "replace")
    if "input" in how:
        del how["stdin"]
    return subprocess.run([str(word) for word in words], **how)


def piped(words, given):
    """What a command prints on both streams for these bytes."""
    ran = subprocess.run(words, input=given, capture_output=True, timeout=SECONDS, check=False)
    return ran.stdout.decode(), ran.stderr.decode()


def need(*names):
    """Programs that a check is about."""
    for name in names:
        if shutil.which(name) is None:
            raise Absent(f"{name} isn't installed")


class Place:
    """A folder with vtrun and the test programs, which every user may enter."""

    def __init__(self, folder):
        self.folder = pathlib.Path(folder)
        self.folder.chmod(0o755)
        self.count = 0
        compiler = os.environ.get("CC", "cc")
        if shutil.which(compiler) is None or not (TOP / "out/c/lib/libvt.a").exists():
            raise Absent("there is no C compiler, or no library in out/c")
        ran = command([TOP / "vtrun/build.sh"])
        if ran.returncode:
            raise RuntimeError(f"vtrun isn't built: {ran.stderr}")
        shutil.copy(TOP / "out/bin/vtrun", self.folder / "vtrun")
        ran = command([self.folder / "vtrun", "--", "true"])
        if ran.returncode == 126:
            raise Absent(ran.stderr.strip().rpartition("\n")[2])
        for name, words in PROGRAMS.items():
            ran = command([compiler, "-O2", "-o", self.folder / name, TESTS / f"{name}.c", *words])
            if ran.returncode and "-static" in words:
                ran = command([compiler, "-O2", "-o", self.folder / name, TESTS / f"{name}.c", *words[1:]])
            if ran.returncode:
                raise RuntimeError(f"{name}.c isn't compiled: {ran.stderr}")
        self.has_namespaces = self.run("stat -c %t /dev/tty1").out == "88\n"

    def seat_client(self):
        """Compiles the client of libseat, if libseat is there."""
        flags = command(["pkg-config", "--cflags", "--libs", "libseat"]) if shutil.which("pkg-config") else None
        if flags is None or flags.returncode:
            raise Absent("libseat isn't installed")
        to = self.folder / SEAT_CLIENT
        ran = command([os.environ.get("CC", "cc"), "-o", to, TESTS / "seat_client.c", *flags.stdout.split()])
        if ran.returncode:
            raise RuntimeError(f"seat_client.c isn't compiled: {ran.stderr}")

    def run(self, script, *words, **how):
        """Runs a line of the shell under vtrun."""
        return Run(self, ["bash", "-c", script], words, **how)

    def play(self, name, *words, given=(), **how):
        """Runs a script of vtrun/tests/runs under vtrun, with what it is given as arguments."""
        return Run(self, ["bash", TESTS / f"runs/{name}.sh", *given], words, **how)

    def new(self, name):
        """A file that doesn't exist yet."""
        self.count += 1
        return self.folder / f"{name}{self.count}"

    def words(self, *words):
        """vtrun's command line up to its command."""
        return [self.folder / "vtrun", "--timeout", LIMIT, *words, "--"]

    def environment(self):
        """vtrun in PATH, and nothing that asks for another one."""
        kept = {name: value for name, value in os.environ.items() if name not in ("VTRUN_SOCKET", "DISPLAY")}
        return {**kept, "PATH": f"{self.folder}:{os.environ['PATH']}", "T": str(self.folder), "LC_ALL": "C.UTF-8"}


class Run:
    """A run of a command under vtrun: its output, and its journal if it is to have one."""

    def __init__(self, place, script, words, journal=False, before=(), **how):
        self.journal = place.new("journal") if journal else None
        kept = ["-j", self.journal] if journal else []
        start = time.monotonic()
        words = [*before, *place.words(*words, *kept), *script]
        ran = command(words, env=place.environment(), cwd=place.folder, **how)
        self.seconds = time.monotonic() - start
        self.status, self.out, self.err = ran.returncode, ran.stdout, ran.stderr

    def lines(self):
        """The lines of the output."""
        return self.out.splitlines()

    def judged(self, name, word):
        """What a command of a program of this repository says of the session and the journal."""
        text = pathlib.Path(f"{self.journal}.toml").read_bytes() + self.journal.read_bytes()
        return piped([find_for_check(name), word], text)

    def is_legal(self):
        """Whether `vt check` accepts the journal."""
        return self.judged("vt", "check")[0].startswith("legal ")

    def is_lawful(self):
        """Whether `watch free` accepts the journal: that of a run whose scripts are too long."""
        out, err = self.judged("watch", "free")
        return bool(out) and not err

    def explained(self):
        """The rows of `vt explain`: each switch with its cause."""
        return self.judged("vt", "explain")[0].splitlines()[1:]
