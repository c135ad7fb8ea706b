"""Makes journals of programs without scripts, and damages them, by a second machine.

`Machine` is the second reader (dev/checks/second_reader.py) with the answers of a part of the calls, from the table of
calls in docs/reference/switching.md. `journal(seed)` is a start and the entries of calls that any caller makes at any
time, `damaged(seed, ..)` the same with one change, and `verdict(..)` the first entry that fails with its reason, by the
rules of docs/reference/watch.md.
"""
import random
import re
import sys

try:
    import tomllib
except ImportError:
    sys.exit("free_journals.py: needs Python 3.11 or later, which has tomllib")

from second_reader import EINTR, EINVAL, ESRCH, KILL, Reader
from switch_sessions import KEYMAP, MOST, call, sequence, strokes

EPERM, ENXIO, EBADF, EAGAIN, EBUSY, ENOTTY = "err 1", "err 6", "err 9", "err 11", "err 16", "err 25"
OTHER_NUMBER, OTHER_ANSWER, OTHER_END = 1, 3, 5
BYTES = 67_108_864
HIGHEST, SIGNALS, DESCRIPTORS = 63, 64, 16
NO_MODE = ["0"] * 5
# Calls on a descriptor that need the right to its console, and those that need privilege.
OF_RIGHT = set("waitactive activate disallocate setkd setmode reldisp setkb accept".split())
OF_PRIVILEGE = {"lock", "unlock"}
WITHOUT_DESCRIPTOR = set("scan exit open waitsignal waitend signals kill".split())


class Machine(Reader):
    """The second reader, which also predicts every answer of the calls that are made here."""

    def __init__(self, start):
        super().__init__(start)
        processes = tomllib.loads(start).get("process", [])
        self.home = {f"p{n}": process.get("home", 0) for n, process in enumerate(processes, 1)}
        self.privileged = {f"p{n}" for n, process in enumerate(processes, 1) if process.get("privileged")}
        self.pending_signals = {}
        self.modes = {}

    def signal(self, caller, number):
        if caller in self.alive and number != KILL:
            self.pending_signals.setdefault(caller, set()).add(number)
        super().signal(caller, number)

    def end(self, caller):
        self.pending_signals.pop(caller, None)
        for number, console in self.consoles.items():
            if console.owner == caller:
                self.modes.pop(number, None)
        super().end(caller)

    def do_setmode(self, caller, words, answer):
        self.modes[self.console_of(caller, words)] = words[1:]
        super().do_setmode(caller, words, answer)

    def do_disallocate(self, caller, words, answer):
        super().do_disallocate(caller, words, answer)
        self.modes = {number: words for number, words in self.modes.items() if number in self.consoles}

    def carry_out(self, caller, name, words, answer):
        super().carry_out(caller, name, words, answer)
        if name == "signals":
            self.pending_signals.pop(caller, None)

    def answer(self, caller, event):
        """The answer to a call, by the table of calls."""
        name, *words = event.split(" ")
        if caller not in self.alive:
            return ESRCH
        if name not in ("scan", "exit") if caller in self.keyboards else name == "scan":
            return ENOTTY
        if name != "waitend" and (caller in self.waits or caller in self.done):
            return EINVAL
        if name not in WITHOUT_DESCRIPTOR:
            number = self.fds[caller].get(int(words[0]))
            if number is None:
                return EBADF
            if name in OF_RIGHT and caller not in self.privileged and self.home[caller] != number:
                return EPERM
            if name in OF_PRIVILEGE and caller not in self.privileged:
                return EPERM
            return self.answer_on(caller, name, number, words)
        return getattr(self, f"answer_{name}")(caller, words)

    def answer_on(self, caller, name, number, words):
        """The answer to a call on a console."""
        plain = {
            "close": "ok", "lock": "ok", "unlock": "ok", "getkd": f"num {int(self.consoles[number].graphics)}",
            "getkb": f"num {self.consoles[number].keys}",
            "getmode": f"mode {' '.join(self.modes.get(number, NO_MODE))}",
            "getstate": f"state {self.front} {sum(1 << one for one in self.consoles)}",
        }  # fmt: skip
        if name in plain:
            return plain[name]
        numbers = [int(word) for word in words[1:] if word.isdecimal()]
        return getattr(self, f"answer_{name}")(caller, number, numbers, words)

    def answer_scan(self, caller, words):
        return "ok"

    answer_exit = answer_scan

    def answer_open(self, caller, words):
        if int(words[0]) > HIGHEST:
            return ENXIO
        free = [fd for fd in range(DESCRIPTORS) if fd not in self.fds[caller]]
        return f"num {free[0]}" if free else EBUSY

    def answer_waitsignal(self, caller, words):
        return EINTR if self.pending_signals.get(caller) else "wait"

    def answer_waitend(self, caller, words):
        if caller in self.waits:
            return EAGAIN
        return self.done.get(caller, EINVAL)

    def answer_signals(self, caller, words):
        return f"sigs {sum(1 << number - 1 for number in self.pending_signals.get(caller, ()))}"

    def answer_kill(self, caller, words):
        process, signal = int(words[0]), int(words[1])
        if caller not in self.privileged and caller != f"p{process}":
            return EPERM
        if not 1 <= process <= 64:
            return ENXIO
        if not 1 <= signal <= SIGNALS:
            return EINVAL
        return "ok" if f"p{process}" in self.alive else ESRCH

    def answer_write(self, caller, number, numbers, words):
        return f"num {0 if words[1] == '-' else len(words[1]) // 2}"

    def answer_waitactive(self, caller, number, numbers, words):
        if not 1 <= numbers[0] <= HIGHEST:
            return ENXIO
        if numbers[0] == self.front:
            return "ok"
        return EINTR if self.pending_signals.get(caller) else "wait"

    def answer_activate(self, caller, number, numbers, words):
        if not 1 <= numbers[0] <= HIGHEST:
            return ENXIO
        return EBUSY if self.locked else "ok"

    def answer_disallocate(self, caller, number, numbers, words):
        wanted = numbers[0]
        if wanted > HIGHEST:
            return ENXIO
        is_owned = wanted in self.consoles and self.consoles[wanted].owner is not None
        is_open = any(wanted in fds.values() for fds in self.fds.values())
        return EBUSY if wanted and (wanted in (1, self.front, self.pending) or is_owned or is_open) else "ok"

    def answer_setkd(self, caller, number, numbers, words):
        return "ok" if numbers[0] <= 1 else EINVAL

    def answer_setkb(self, caller, number, numbers, words):
        return "ok" if numbers[0] <= 4 else EINVAL

    def answer_accept(self, caller, number, numbers, words):
        return "ok" if is_signal(numbers[0]) else EINVAL

    def answer_setmode(self, caller, number, numbers, words):
        mode, _, release, acquire, _ = numbers
        return "ok" if mode == 0 or (mode == 1 and is_signal(release) and is_signal(acquire)) else EINVAL

    def answer_reldisp(self, caller, number, numbers, words):
        how = numbers[0]
        if self.consoles[number].owner != caller or how > 2:
            return EINVAL
        return EINVAL if how < 2 and (self.pending is None or number != self.front) else "ok"


def is_signal(number):
    """Whether it can be a signal of a mode, or of the key KeyboardSignal."""
    return 1 <= number <= SIGNALS and number != KILL


def start(chance):
    """The text of a start: a session without scripts, keys and turns."""
    consoles = sorted({1, *(chance.randrange(1, MOST + 1) for _ in range(chance.randrange(4)))})
    lines = ["rows = 2", "cols = 10", f"consoles = {consoles}", f"front = {chance.choice(consoles)}"]
    lines += [f"more_keys = {[''] * chance.choice([0, 0, 1, 3])}", f"keymap = '''{KEYMAP}'''"]
    for _ in range(chance.randrange(1, 9)):
        lines += ["[[process]]", f"home = {chance.randrange(MOST + 1)}"]
        lines.append(f"privileged = {'true' if chance.randrange(3) else 'false'}")
    return "\n".join(lines) + "\n"


def event(chance, machine, caller):
    """A call of a caller, which has no script: mostly one that it may make."""
    if caller in machine.keyboards:
        return chance.choice([f"scan {byte}" for byte in strokes(chance, 1).split(" ")] * 9 + ["exit", "open 1"])
    if (caller in machine.waits or caller in machine.done) and chance.randrange(4):
        return "waitend"
    other = [
        f"open {chance.randrange(MOST + 1)}", f"open {chance.choice([63, 64])}", f"getmode {chance.randrange(2)}",
        "signals", "waitend", "getkd 0", "getkb 0", f"kill {chance.choice([0, 64, 65])} 10", "scan 1e", "waitsignal",
        f"setmode 0 {chance.choice([1, 2])} 0 {chance.choice([0, 9, 64, 65])} 12 0", f"write 0 {sequence(chance)}",
    ]  # fmt: skip
    if chance.randrange(60) == 0:
        return "exit"
    if not machine.fds.get(caller) and chance.randrange(3):
        return other[0]
    made = chance.choice(other) if chance.randrange(3) == 0 else call(chance, len(machine.home))
    return "signals" if made.startswith(("read ", "waitinput ")) else made


def journal(seed):
    """A start, and the entries of a journal: caller, count, call and answer."""
    chance = random.Random(f"free {seed}")
    text = start(chance)
    machine = Machine(text)
    callers = [*machine.keyboards, *machine.home]
    entries = []
    for _ in range(chance.randrange(60)):
        caller = chance.choice(callers) if chance.randrange(30) else "p64"
        made = event(chance, machine, caller)
        entry = (caller, machine.counts[caller], made, machine.answer(caller, made))
        machine.step(*entry)
        entries.append(entry)
    return text, entries


def charge(made):
    """The charge of a call: 64, and the bytes of a write."""
    return 64 + (len(made.split(" ")[2]) // 2 if re.fullmatch(r"write \d+ [0-9a-f]+", made) else 0)


def end_of(entries):
    return f"%end {len(entries)} {sum(charge(made) for _, _, made, _ in entries)}"


def text_of(entries, last):
    lines = [f"{caller} {count} {made} = {answer}" for caller, count, made, answer in entries]
    return "\n".join(["%journal 2", *lines, last, ""])


def damaged(seed, entries):
    """Entries with one change, and a last line."""
    chance = random.Random(f"damaged {seed}")
    entries, last = list(entries), end_of(entries)
    how = chance.randrange(9)
    if how >= 7 or not entries:
        events, charges = len(entries) + chance.choice([0, 0, 1]), sum(charge(made) for _, _, made, _ in entries)
        full = f"%full {events} {charges} {chance.choice([63, 64, 4294967295])}"
        return entries, chance.choice([f"%end {events} {charges + 64}", full])
    at, other = chance.randrange(len(entries)), chance.randrange(len(entries))
    caller, count, made, answer = entries[at]
    if how == 0:
        entries[at] = caller, max(0, count + chance.choice([-1, 1, 7])), made, answer
    elif how == 1:
        entries[at] = caller, count, made, chance.choice(["ok", "wait", EINVAL, EPERM, "num 0", entries[other][3]])
    elif how == 2:
        del entries[at]
    elif how == 3:
        entries[at], entries[other] = entries[other], entries[at]
    elif how == 4:
        entries.insert(other, entries[at])
    elif how == 5:
        entries[at] = caller, count, entries[other][2], answer
    else:
        entries[at] = entries[other][0], count, made, answer
    return entries, end_of(entries) if chance.randrange(2) else last


def verdict(text, entries, last):
    """None for a legal journal; else the first entry that fails, or the number of them, with the reason."""
    machine = Machine(text)
    for place, (caller, count, made, answer) in enumerate(entries):
        if count != machine.counts[caller]:
            return place, OTHER_NUMBER
        if answer != machine.answer(caller, made):
            return place, OTHER_ANSWER
        machine.step(caller, count, made, answer)
    name, events, charges, *more = last.split(" ")
    is_there = name == "%end" or has_no_room(int(charges), int(more[0]))
    return None if is_there and f"%end {events} {charges}" == end_of(entries) else (len(entries), OTHER_END)


def has_no_room(charges, more):
    """Whether a call of this charge finds no room. The starts that are made here have the limits of every session."""
    return more >= 64 and charges + more > BYTES
