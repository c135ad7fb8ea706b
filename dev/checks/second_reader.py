"""A second reader of journals: which console is in front, who owns which, what is pending, and who waits.

It follows the rules of docs/reference/switching.md, entry by entry, from the session and the journal alone, and knows
nothing of the program. So it reads only a part of what a session can hold: keymaps without locks, sticky modifiers and
compose pairs, texts with no escape sequence except `CSI .. final`, and no call that changes the key tables. The rest is
refused by name (`Unread`). What it predicts of an answer has to be the answer that the journal has (`Disagrees`).
"""
import collections
import re
import sys

try:
    import tomllib
except ImportError:
    sys.exit("second_reader.py: needs Python 3.11 or later, which has tomllib")

from second_keymap import Keymap, Unread

KILL = 9
EINTR, ESRCH, EINVAL = "err 4", "err 3", "err 22"
RAW, MEDIUM_RAW, UNICODE, OFF = 0, 2, 3, 4
MODIFIERS = {"Shift": 1, "AltGr": 2, "Control": 4, "Alt": 8}
REQUESTS = {"Last_Console", "Incr_Console", "Decr_Console"}
# Calls that touch neither the display nor a wait.
OTHERS = set(
    "read openqry getstate resize getkd getmode getkb setmeta getmeta setled getled setflags getflags getent getfunc "
    "getdia getcode setmap getmap setpal getpal dump signals".split()
)
UNREAD = set("setent setfunc setdia setcode".split())

Wait = collections.namedtuple("Wait", "kind console")
Done = collections.namedtuple("Done", "kind words")


class Disagrees(Exception):
    """An answer that this reader doesn't expect."""


class Console:
    """What this reader keeps of an allocated console."""

    def __init__(self):
        self.owner = None
        self.release = self.acquire = 0
        self.graphics = False
        self.keys = UNICODE
        self.rest = b""


class Reader:
    """The display and the callers after the entries that were read."""

    def __init__(self, session):
        document = tomllib.loads(session)
        start = document.get("consoles", [1])
        self.consoles = {number: Console() for number in start}
        self.front = self.previous = document.get("front", min(start))
        self.locked = False
        # The console that is pending, the entry since which it is, and the entry that asked last with its signal.
        self.pending = self.since = self.asked = None
        self.keymap = Keymap(document.get("keymap", ""))
        count = len(document.get("process", []))
        self.keyboards = [f"k{n}" for n in range(1 + len(document.get("more_keys", [])))]
        self.alive = {*self.keyboards, *(f"p{n}" for n in range(1, count + 1))}
        self.fds = {caller: {} for caller in self.alive}
        self.waits, self.done = {}, {}
        self.accepts = None
        self.accent = False
        self.groups = {name: b"" for name in self.keyboards}
        self.down = {name: {} for name in self.keyboards}
        self.counts = collections.Counter()
        self.at = -1
        self.did = []

    # What acts do.

    def allocate(self, number):
        self.consoles.setdefault(number, Console())

    def request(self, number):
        """A request for a console."""
        if number not in self.consoles:
            return
        self.did.append(Done("asked", (number,)))
        owner = self.consoles[self.front].owner
        if number == self.front or self.locked or (owner is None and self.consoles[self.front].graphics):
            return
        if owner is None:
            self.switch(number, ("free",))
            return
        if self.pending != number:
            self.since = self.at
        signal = self.consoles[self.front].release
        self.pending, self.asked = number, (self.at, signal)
        self.signal(owner, signal)

    def switch(self, number, cause):
        self.did.append(Done("switch", (self.front, number, *cause)))
        self.previous, self.front = self.front, number
        self.pending = self.since = self.asked = None
        self.end_waits(lambda wait: wait == Wait("display", number), "ok")
        console = self.consoles[number]
        if console.owner is not None:
            self.signal(console.owner, console.acquire)

    def give(self, cause, owner):
        """The display goes to the console that is pending."""
        self.switch(self.pending, (cause, owner, *self.asked))

    def drop(self):
        self.pending = self.since = self.asked = None

    def signal(self, caller, number):
        if caller not in self.alive:
            return
        if number == KILL:
            # (it is never pending: it ends the process)
            self.end(caller)
            return
        self.did.append(Done("signal", (caller, number)))
        self.end_waits(lambda wait: True, EINTR, {caller})

    def end(self, caller):
        """A caller's life ends."""
        self.did.append(Done("ended", (caller,)))
        self.alive.discard(caller)
        self.fds[caller] = {}
        if self.waits.pop(caller, None):
            self.did.append(Done("wait", (caller, "gone")))
        self.done.pop(caller, None)
        if self.accepts is not None and self.accepts[0] == caller:
            self.accepts = None
        if caller in self.down:
            self.down[caller] = {}
        had_front = self.consoles[self.front].owner == caller
        for console in self.consoles.values():
            if console.owner == caller:
                console.owner, console.graphics = None, False
        if had_front and self.pending is not None:
            self.give("died", caller)

    def end_waits(self, ends, how, callers=None):
        for caller, wait in list(self.waits.items()):
            if ends(wait) and (callers is None or caller in callers):
                del self.waits[caller]
                self.done[caller] = how
                self.did.append(Done("wait", (caller, how)))

    def bytes_come(self, number):
        """Bytes are put into a console's queue."""
        self.end_waits(lambda wait: wait == Wait("input", number), "ok")

    # The text of a write.

    def draw(self, number, given):
        """What a text asks for. A sequence that isn't over waits for the next write."""
        console = self.consoles[number]
        text = console.rest + given
        if re.search(rb"\x9b|\x0e", text):
            raise Unread("a byte 9B or 0E in a text")
        while (start := text.find(b"\x1b")) >= 0:
            text = text[start:]
            found = re.match(rb"\x1b\[([0-9;]*)([\x40-\x5a\x5c-\x7e])", text)
            if found:
                self.sequence(number, found[1].decode(), found[2].decode())
                text = text[found.end() :]
            elif re.fullmatch(rb"\x1b(\[[0-9;]*)?", text):
                console.rest = text
                return
            else:
                raise Unread(f"the escape sequence {text[:12]!r}")
        console.rest = b""

    def sequence(self, number, words, final):
        parts = [min(int(part or "0"), 65535) for part in words.split(";")]
        if final in "hl" and 3 in parts:
            raise Unread("a text that shows control characters")
        if final == "]" and parts[0] == 12 and len(parts) > 1:
            self.request(parts[1])
        elif final == "]" and parts[0] == 15:
            self.request(self.previous)
        elif (final == "n" and parts[0] in (5, 6)) or (final == "c" and parts[0] == 0):
            self.bytes_come(number)

    # A scan byte.

    def scan(self, keyboard, byte):
        number = self.front
        mode = self.consoles[number].keys
        if mode == RAW:
            self.bytes_come(number)
        group = self.groups[keyboard] = self.groups[keyboard] + bytes([byte])
        if group in (b"\xe0", b"\xe1") or (group[0] == 0xE1 and len(group) < 3):
            return
        self.groups[keyboard] = b""
        if group[0] == 0xE1:
            raise Unread("a scan group that begins with E1")
        scan = group[-1] & 0x7F
        if len(group) == 2:
            raise Unread("a scan group that begins with E0")
        if 1 <= scan <= 88:
            self.key(keyboard, number, mode, scan, byte < 0x80)

    def key(self, keyboard, number, mode, code, goes_down):
        held = self.down[keyboard]
        if not goes_down:
            held.pop(code, None)
            if mode == MEDIUM_RAW:
                self.bytes_come(number)
            return
        weight = sum({MODIFIERS[name] for keys in self.down.values() for name in keys.values() if name in MODIFIERS})
        name = self.keymap.action(weight, code)
        held.setdefault(code, name)
        if mode == MEDIUM_RAW and name != "SAK":
            self.bytes_come(number)
        if name == "SAK":
            self.attention()
        elif name is None or name in MODIFIERS or name == "VoidSymbol" or mode in (RAW, MEDIUM_RAW, OFF):
            return
        elif name.startswith("Console_"):
            self.request(int(name[8:]))
        elif name in REQUESTS:
            self.request(self.wanted(name))
        elif name == "KeyboardSignal":
            if self.accepts is not None:
                self.signal(*self.accepts)
        elif name.startswith("dead_"):
            if self.accent:
                raise Unread("a dead key after a dead key")
            self.accent = True
        elif re.fullmatch(r"[a-z]|space", name):
            self.accent = False
            self.bytes_come(number)
        elif name == "Return":
            self.bytes_come(number)
        else:
            raise Unread(f"the key symbol {name}")

    def wanted(self, name):
        """The console that a key asks for."""
        if name == "Last_Console":
            return self.previous
        numbers = sorted(self.consoles)
        at = numbers.index(self.front)
        return numbers[(at + (1 if name == "Incr_Console" else -1)) % len(numbers)]

    def attention(self):
        number = self.front
        users = [
            caller
            for caller in self.fds
            if caller in self.alive and (self.consoles[number].owner == caller or number in self.fds[caller].values())
        ]
        for caller in sorted(users, key=lambda caller: int(caller[1:])):
            self.end(caller)
        self.consoles[number].graphics = False

    # Calls.

    def step(self, caller, count, call, answer):
        """Reads the next entry."""
        self.at += 1
        self.did = []
        if count != self.counts[caller]:
            raise Disagrees(f"the count of {caller} is {self.counts[caller]}")
        self.counts[caller] += 1
        name, *words = call.split(" ")
        self.expect(caller, name, words, answer)
        if not answer.startswith("err ") or (name == "waitend" and answer == EINTR):
            self.carry_out(caller, name, words, answer)
        self.idle()

    def console_of(self, caller, words):
        return self.fds[caller][int(words[0])]

    def expect(self, caller, name, words, answer):
        """Answers that this reader can predict."""
        if caller not in self.alive:
            wanted = ESRCH
        elif name == "waitend" and caller in self.done:
            wanted = self.done[caller]
        elif name == "getstate" and not answer.startswith("err "):
            wanted = f"state {self.front} {sum(1 << number for number in self.consoles)}"
        elif name == "reldisp" and answer not in ("err 9", "err 1") and caller not in {*self.waits, *self.done}:
            number = self.console_of(caller, words)
            answered = number == self.front and self.pending is not None
            is_owner = self.consoles[number].owner == caller
            wanted = "ok" if is_owner and (words[1] == "2" or (words[1] in "01" and answered)) else EINVAL
        else:
            return
        if answer != wanted:
            raise Disagrees(f"the answer is {wanted}")

    def carry_out(self, caller, name, words, answer):
        if name in UNREAD:
            raise Unread(f"the call {name}")
        if name in OTHERS:
            return
        method = getattr(self, f"do_{name}", None)
        if method is None:
            raise Unread(f"the call {name}")
        method(caller, words, answer)

    def do_scan(self, caller, words, answer):
        self.scan(caller, int(words[0], 16))

    def do_exit(self, caller, words, answer):
        self.end(caller)

    def do_open(self, caller, words, answer):
        number = int(words[0]) or self.front
        self.fds[caller][int(answer.split(" ")[1])] = number
        self.allocate(number)

    def do_close(self, caller, words, answer):
        del self.fds[caller][int(words[0])]

    def do_write(self, caller, words, answer):
        self.draw(self.console_of(caller, words), b"" if words[1] == "-" else bytes.fromhex(words[1]))

    def do_waitinput(self, caller, words, answer):
        if answer == "wait":
            self.waits[caller] = Wait("input", self.console_of(caller, words))

    def do_waitactive(self, caller, words, answer):
        if answer == "wait":
            self.waits[caller] = Wait("display", int(words[1]))

    def do_waitsignal(self, caller, words, answer):
        self.waits[caller] = Wait("signal", None)

    def do_waitend(self, caller, words, answer):
        del self.done[caller]

    def do_activate(self, caller, words, answer):
        self.allocate(int(words[1]))
        self.request(int(words[1]))

    def do_disallocate(self, caller, words, answer):
        used = {1, self.front, self.pending, *(n for n, console in self.consoles.items() if console.owner is not None)}
        used.update(number for fds in self.fds.values() for number in fds.values())
        wanted = [int(words[1])] if int(words[1]) else list(self.consoles)
        for number in wanted:
            if number not in used:
                self.consoles.pop(number, None)

    def do_lock(self, caller, words, answer):
        self.locked = True

    def do_unlock(self, caller, words, answer):
        self.locked = False

    def do_setkd(self, caller, words, answer):
        self.consoles[self.console_of(caller, words)].graphics = words[1] == "1"

    def do_setkb(self, caller, words, answer):
        self.consoles[self.console_of(caller, words)].keys = int(words[1])

    def do_setmode(self, caller, words, answer):
        number = self.console_of(caller, words)
        console = self.consoles[number]
        console.owner = caller if words[1] == "1" else None
        console.release, console.acquire = int(words[3]), int(words[4])
        if number == self.front:
            self.drop()

    def do_reldisp(self, caller, words, answer):
        if words[1] == "1":
            self.give("released", caller)
        elif words[1] == "0":
            self.drop()

    def do_accept(self, caller, words, answer):
        self.accepts = (caller, int(words[1]))

    def do_kill(self, caller, words, answer):
        self.signal(f"p{words[0]}", int(words[1]))

    def idle(self):
        """If every live caller waits, every wait ends with EINTR."""
        if self.alive and all(caller in self.waits for caller in self.alive):
            self.end_waits(lambda wait: True, EINTR)


def entries_of(text):
    """The entries of a journal's text: caller, count, call, answer."""
    for line in text.split("\n"):
        if line.startswith("%end ") or line.startswith("%full "):
            return
        found = re.fullmatch(r"([kp]\d+) (\d+) (.+) = (.+)", line)
        if found:
            yield found[1], int(found[2]), found[3], found[4]
