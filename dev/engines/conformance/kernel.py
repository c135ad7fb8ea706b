"""The console of a Linux kernel in a virtual machine: qemu runs the kernel by software, with one small program.

The program is kernel_init.c. It prints a line `kernel ..` with the kernel's version, and then answers each line by one:

    map CODE GLYPH ..           the font map of the console; the answer is the same word
    case ROWS COLUMNS PIECE ..  a case; the answer has /dev/vcsa8, /dev/vcsu8 and the reports, or a word and a reason

Numbers of the map and bytes are spelled in hexadecimal, and `-` stands for no bytes.
"""
import atexit
import pathlib
import re
import shutil
import subprocess
import tempfile

from .adapters import SECONDS, CaseFault, Program
from .forms import Fault
from .sequences import MACHINE_WIDE
from .vcs import answer_of, glyphs_of

INIT = pathlib.Path(__file__).resolve().parent / "kernel_init.c"
QEMU = "qemu-system-x86_64"
MACHINE = "-machine pc,accel=tcg -m 256 -smp 1 -nodefaults -net none -no-reboot -display none -vga std".split()
STREAMS = ["-serial", "stdio", "-monitor", "none"]
BOOT_WORDS = "quiet panic=-1 console=tty0"
BOOT_SECONDS = 120
DIRECTORY, FILE, DEVICE = 0o040755, 0o100755, 0o020600
CONSOLE = (5, 1)


def entry(name, mode, data=b"", device=(0, 0)):
    """One file of an archive for cpio, in the form that kernels read."""
    fields = (0, mode, 0, 0, 1, 0, len(data), 0, 0, *device, len(name) + 1, 0)
    head = b"070701" + "".join(f"{number:08x}" for number in fields).encode() + name.encode() + b"\0"
    return head + bytes(-len(head) % 4) + data + bytes(-len(data) % 4)


def archive(init):
    """The first file system of the kernel, with this program."""
    files = [entry("dev", DIRECTORY), entry("dev/console", DEVICE, device=CONSOLE), entry("init", FILE, init)]
    return b"".join([*files, entry("TRAILER!!!", 0)])


def compiled(folder):
    """The program that is all of the machine."""
    compiler = shutil.which("cc") or shutil.which("gcc")
    if not compiler:
        raise Fault(f"{INIT}: a C compiler was wanted for it")
    built = pathlib.Path(folder) / "init"
    words = [compiler, "-O2", "-static", "-o", built, INIT]
    ran = subprocess.run(words, capture_output=True, text=True, check=False)
    if ran.returncode:
        why = ran.stderr.strip().splitlines()[:1] or ["no reason"]
        raise Fault(f"{INIT}: a static program was wanted of it, and it wasn't compiled: {why[0]}")
    return built.read_bytes()


def hexadecimal(data):
    """Bytes as a word of a line."""
    return data.hex() or "-"


class Kernel(Program):
    """A machine whose console gets each case, in its own size."""

    def __init__(self, path, seconds=SECONDS):
        if not pathlib.Path(path).is_file():
            raise Fault(f"{path}: the file of a Linux kernel was wanted, as vmlinuz of Debian's linux-image-amd64")
        if not shutil.which(QEMU):
            raise Fault(f"{path}: the program {QEMU} was wanted to run it (Debian's package qemu-system-x86)")
        super().__init__("kernel", [], seconds)
        self.path, self.version, self.glyphs, self.folder = path, None, {}, None
        atexit.register(self.stop)

    def start(self):
        """Starts the machine, waits for its program, and gives it the font map."""
        self.folder = tempfile.TemporaryDirectory()
        system = pathlib.Path(self.folder.name) / "system"
        system.write_bytes(archive(compiled(self.folder.name)))
        boot = ["-kernel", str(self.path), "-initrd", str(system), "-append", BOOT_WORDS]
        self.words = [QEMU, *MACHINE, *STREAMS, *boot]
        super().start()
        pairs = "".join(f" {code:x} {glyph:x}" for code, glyph in self.glyphs.items())
        try:
            word, _, self.version = self.exchange(b"", BOOT_SECONDS).strip().partition(" ")
            answer = self.exchange(f"map{pairs}\n".encode()).strip()
        except CaseFault as fault:
            raise Fault(f"{self.path}: a kernel that starts {INIT.name} was wanted: {fault}") from None
        if (word, answer) != ("kernel", f"map {len(self.glyphs)}"):
            raise Fault(f"{self.path}: the lines of {INIT.name} were wanted, and there is {word!r} and {answer[:60]!r}")

    def stop(self):
        """Ends the machine, and removes its folder."""
        if self.folder:
            self.folder.cleanup()
            self.folder = None
        return super().stop()

    def ask(self, case):
        """What stands after one case: all except the bells, and nothing of a case that would change the machine."""
        if MACHINE_WIDE.search(case.data):
            return {}
        if not self.process:
            self.start()
        pieces = " ".join(hexadecimal(piece) for piece in case.pieces())
        line = self.exchange(f"case {case.rows} {case.columns} {pieces}\n".encode()).strip()
        if line.startswith("refuses"):
            raise CaseFault(line)
        if not re.fullmatch(r"[0-9a-f]+ [0-9a-f]+ ([0-9a-f]+|-)", line):
            self.stop()
            raise CaseFault(f"nonsense: three words of bytes were wanted, and there is {line[:60]!r}")
        shown, codes, reports = (b"" if word == "-" else bytes.fromhex(word) for word in line.split())
        return answer_of(case, shown, codes, reports, self.glyphs)

    def answers(self, cases):
        """The answer or the `CaseFault` of each case, in their order. The machine goes on until this program ends."""
        self.glyphs = self.glyphs or glyphs_of(cases)
        return self.asked_in_turn(cases)
