"""The engines by their names; the drivers in C are compiled where they are missing."""
import os
import pathlib
import shutil
import subprocess

from programs import TOP, find, is_clone

from . import judge
from .adapters import Program
from .device import Device
from .forms import Fault
from .kernel import Kernel
from .tmux import Tmux

HERE = pathlib.Path(__file__).resolve().parent
BUILT = HERE / "out"
# What the driver in C of an engine stands on.
WANTED = {"libvterm": "Debian's libvterm-dev", "libvt": "the library in out/c, which tools/build.py makes"}


class Recorded:
    """The Linux console as it was recorded with the cases."""

    name = "linux"

    def answers(self, cases):
        """What the console showed after each case, in their order; nothing of a case that wasn't recorded."""
        return [case.recorded() or {} for case in cases]


class Vt:
    """The proved machine, by sessions of many cases."""

    name = "vt"

    def __init__(self, program):
        self.program = program

    def answers(self, cases):
        """What stands after each case, in their order."""
        return judge.judge(self.program, cases)


def built_folder():
    """The folder of the compiled adapters: beside their sources in a clone that can be written, else the user's cache."""
    if is_clone() and os.access(BUILT if BUILT.exists() else HERE, os.W_OK):
        return BUILT
    return pathlib.Path(os.environ.get("XDG_CACHE_HOME") or "~/.cache").expanduser() / "vt"


def driver(seconds, name, *options):
    """The adapter in C of an engine, compiled where it is missing or older than its sources."""
    source, built = HERE / f"{name}.c", built_folder() / name
    files = [source, HERE / "adapter.h", *(HERE / it for it in options if isinstance(it, pathlib.Path))]
    # (the time of an installed file's contents is that of the package)
    newest = max(max(file.stat().st_mtime, file.stat().st_ctime) for file in files)
    if not built.exists() or built.stat().st_mtime < newest:
        compiler = shutil.which("cc") or shutil.which("gcc")
        if not compiler:
            raise Fault(f"{name}: a C compiler was wanted for dev/engines/conformance/{name}.c")
        built.parent.mkdir(parents=True, exist_ok=True)
        part = f"{built}.{os.getpid()}"
        words = [compiler, "-O2", "-o", part, source, *options]
        ran = subprocess.run(words, capture_output=True, text=True, check=False)
        if ran.returncode:
            why = ran.stderr.strip().splitlines()[:1] or ["no reason"]
            raise Fault(f"{name}: its driver wasn't compiled; {WANTED[name]} was wanted: {why[0]}")
        os.replace(part, built)
    return Program(name, [str(built)], seconds)


def libvt(seconds):
    """The adapter of the C library that libvt/tools/build_c.sh built."""
    library = TOP / "out/c"
    if not (library / "lib/libvt.a").exists():
        raise Fault(f"libvt: {WANTED['libvt']} was wanted")
    return driver(seconds, "libvt", library / "lib/libvt.a", f"-I{library}/include")


def pyte(seconds):
    """The adapter of pyte, by the first python3 that has it."""
    for python in dict.fromkeys([shutil.which("python3"), "/usr/bin/python3"]):
        words = [python or "", "-c", "import pyte"]
        if python and os.path.exists(python) and not subprocess.run(words, capture_output=True, check=False).returncode:
            return Program("pyte", [python, str(HERE / "pyte_adapter.py")], seconds)
    raise Fault("pyte: Python's pyte was wanted (Debian's package python3-pyte)")


def engines(given):
    """The engines that the words name: vt where they name none."""
    seconds = given.seconds
    makers = {
        "vt": lambda: Vt(find("vt", given.vt)), "libvt": lambda: libvt(seconds), "pyte": lambda: pyte(seconds),
        "libvterm": lambda: driver(seconds, "libvterm", "-lvterm"), "tmux": lambda: Tmux(seconds), "linux": Recorded,
    }  # fmt: skip
    names = list(dict.fromkeys(given.engine))
    unknown = [name for name in names if name not in makers]
    if unknown:
        raise Fault(f"{unknown[0]}: one of {', '.join(makers)} was wanted, or --command, --device or --kernel")
    if not (names or given.command or given.kernel) and given.device is None:
        names = ["vt"]
    made = [makers[name]() for name in names]
    made += [Program.of_command(command, seconds) for command in dict.fromkeys(given.command)]
    made += [Device(given.device)] if given.device is not None else []
    return made + ([Kernel(given.kernel, seconds)] if given.kernel else [])
