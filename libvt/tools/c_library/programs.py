"""Programs in libvt/examples/term.c inside tmux, beside the same programs in tmux alone: the rows are the same."""
import itertools
import os
import shutil
import time

from .bench import EXAMPLES, TERM, Missing

ROWS, COLS = 25, 80
LIMIT = 20
STEP = 0.4
NUMBERS = itertools.count()
# A program, what is asked of it, and the keys that are typed. `{}` is a folder with two files.
PROGRAMS = {
    "vim": ("vim -n -u NONE -N --cmd 'set number ruler laststatus=2' {}/b.c", ["G", "o", "new é", "Escape", "0"]),
    "less": ("env LESS= less {}/long", ["Space", "Down", "Down"]),
    "htop": ("env HOME={} htop -d 100 -p 1", ["F1"]),
    "dialog": ("dialog --title Title --menu 'Pick one' 12 40 4 one First two Second three Third", ["Down"]),
    "mc": ("env HOME={} mc -d {}/d {}/d", ["Down"]),
}


class Session:
    """A tmux of our own with one window."""

    def __init__(self, bench, command):
        # (a server that was ended may still be there for a moment, so each session has a socket of its own)
        self.bench, self.socket = bench, str(bench.folder / f"tmux.{next(NUMBERS)}")
        self.settings = str(bench.folder / "tmux.conf")
        with open(self.settings, "w", encoding="ascii") as file:
            file.write("set -g status off\nset -g default-size 80x25\n")
        self.tmux("new-session", "-d", "-s", "one", "-x", COLS, "-y", ROWS, "sh", "-c", f"exec {command}")

    def tmux(self, *words):
        environment = {**os.environ, "LC_ALL": "C.UTF-8", "SHELL": "/bin/sh"}
        words = ["tmux", "-u", "-S", self.socket, "-f", self.settings, *words]
        return self.bench.run(words, env=environment).stdout.decode("utf-8", "replace")

    def rows(self):
        """The rows, once they have stood for a moment."""
        last, end = "", time.monotonic() + LIMIT
        while time.monotonic() < end:
            time.sleep(STEP)
            now = self.tmux("capture-pane", "-p", "-t", "one")
            if now.strip() and now == last:
                break
            last = now
        return last.splitlines()

    def type(self, keys, wanted):
        """Types each key once the screen has stood; the rows at the end, as soon as they are those that are wanted."""
        for key in keys:
            self.rows()
            self.tmux("send-keys", "-t", "one", key)
        end = time.monotonic() + LIMIT
        found = self.rows()
        while wanted and found != wanted and time.monotonic() < end:
            found = self.rows()
        return found

    def end(self):
        self.tmux("kill-server")


def shown(bench, command, keys, wanted=None):
    session = Session(bench, command)
    try:
        return session.type(keys, wanted)
    finally:
        session.end()


def check_programs(bench):
    """Each program that is there."""
    bench.needs("tmux")
    term = bench.compiled("term", [EXAMPLES / name for name in TERM])
    if not term:
        return
    missing = [name for name in PROGRAMS if not shutil.which(name)]
    home = bench.folder / "programs"
    (home / "d/sub").mkdir(parents=True)
    (home / "d/one.txt").write_text("hello\n" * 3)
    (home / "b.c").write_text("int main(void)\n{\n    return 0; /* é 中 */\n}\n", encoding="utf-8")
    (home / "long").write_text("".join(f"line {n} é 中\n" for n in range(200)), encoding="utf-8")
    for name, (command, keys) in PROGRAMS.items():
        if name in missing:
            continue
        command = command.format(*[home] * command.count("{}"))
        alone = shown(bench, command, keys)
        inside = shown(bench, f"{term} {command}", keys, alone)
        wrong = [f"row {y}: {a!r} and {b!r}" for y, (a, b) in enumerate(zip(alone, inside)) if a != b]
        is_so = len(alone) == ROWS and alone == inside
        why = f"{wrong[:3]}, {len(alone)} and {len(inside)} rows"
        bench.holds(is_so, f"{name} in term.c has the rows that it has in tmux alone: {why}")
    if missing:
        raise Missing(f"{', '.join(missing)} of {', '.join(PROGRAMS)} aren't there")
