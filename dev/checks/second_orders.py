"""A second program for every order of a session's calls: which states there are, and which calls a question asks for.

It follows docs/reference/sessions.md, "Programs", docs/reference/switching.md and docs/reference/explore.md, over the
machine of second_reader.py, and knows nothing of the program. It keeps each state that it reaches, so it is for small
sessions. It reads what second_reader.py reads, and only calls whose answers depend on the display and on waits.
"""
import collections
import re
import tomllib

from second_keymap import Unread
from second_reader import EINTR, EINVAL, ESRCH, KILL, Reader

EPERM, ENXIO, EBADF, EBUSY, EAGAIN = "err 1", "err 6", "err 9", "err 16", "err 11"
ERRORS = dict(eperm=1, esrch=3, eintr=4, enxio=6, ebadf=9, eagain=11, ebusy=16, einval=22, enotty=25)
NUMBERS = {"open": 1, "activate": 2, "waitactive": 2, "waitsignal": 0, "waitend": 0, "signals": 0, "exit": 0}


class Machine(Reader):
    """A machine that answers its calls."""

    def __init__(self, session):
        super().__init__(session)
        processes = tomllib.loads(session).get("process", [])
        self.signals = {caller: frozenset() for caller in self.alive}
        self.homes = {f"p{n}": process.get("home", 0) for n, process in enumerate(processes, 1)}
        self.privileged = {f"p{n}" for n, process in enumerate(processes, 1) if process.get("privileged")}
        self.texts = {}
        self.switches = 0

    def switch(self, number, cause):
        self.switches += 1
        super().switch(number, cause)

    def signal(self, caller, number):
        if caller in self.alive and number != KILL:
            self.signals[caller] |= {number}
        super().signal(caller, number)

    def end(self, caller):
        self.signals[caller] = frozenset()
        super().end(caller)

    def clone(self):
        other = object.__new__(type(self))
        other.__dict__.update(self.__dict__)
        other.consoles = {}
        for number, console in self.consoles.items():
            twin = other.consoles[number] = object.__new__(type(console))
            twin.__dict__.update(console.__dict__)
        other.fds = {caller: dict(held) for caller, held in self.fds.items()}
        other.down = {caller: dict(held) for caller, held in self.down.items()}
        for name in ("waits", "done", "groups", "signals", "texts", "counts"):
            setattr(other, name, getattr(self, name).copy())
        other.alive = set(self.alive)
        return other

    def key_(self):
        """What tells one state from another: the number of switches is a part of a machine too."""
        consoles = [
            (n, c.owner, c.owner and (c.release, c.acquire), c.graphics, c.keys, c.rest)
            for n, c in sorted(self.consoles.items())
        ]
        parts = (self.fds, self.waits, self.done, self.groups, self.down, self.signals, self.texts)
        held = [sorted((k, repr(v)) for k, v in part.items() if v) for part in parts]
        one = (self.switches, self.front, self.previous, self.locked, self.pending, self.accepts, self.accent, sorted(self.alive))
        return repr((one, consoles, held))

    def answer(self, caller, name, words):
        """The answer of a call, which is then carried out."""
        said = self.said(caller, name, words)
        self.step(caller, self.counts[caller], " ".join([name, *words]), said)
        if name == "signals" and said != ESRCH:
            self.signals[caller] = frozenset()
        if name == "write" and not said.startswith("err "):
            number = self.console_of(caller, words)
            self.texts[number] = self.texts.get(number, "") + words[1]
        return said

    def said(self, caller, name, words):
        if caller not in self.alive:
            return ESRCH
        known = getattr(self, f"said_{name}", None)
        if known is None:
            raise Unread(f"the call {name}")
        return known(caller, *words)

    def refused(self, caller, fd):
        """EBADF, or EPERM without the right to the console."""
        if int(fd) not in self.fds[caller]:
            return EBADF
        if caller not in self.privileged and self.fds[caller][int(fd)] != self.homes[caller]:
            return EPERM
        return None

    def said_exit(self, caller):
        return "ok"

    def said_scan(self, caller, byte):
        return "ok"

    def said_open(self, caller, number):
        if int(number) > 63:
            return ENXIO
        return f"num {min(set(range(17)) - set(self.fds[caller]))}"

    def said_write(self, caller, fd, text):
        return EBADF if int(fd) not in self.fds[caller] else f"num {len(text) // 2 if text != '-' else 0}"

    def said_waitactive(self, caller, fd, number):
        refused = self.refused(caller, fd)
        if refused:
            return refused
        if int(number) == self.front:
            return "ok"
        return EINTR if self.signals[caller] else "wait"

    def said_waitsignal(self, caller):
        return EINTR if self.signals[caller] else "wait"

    def said_waitend(self, caller):
        return self.done.get(caller, EAGAIN if caller in self.waits else EINVAL)

    def said_activate(self, caller, fd, number):
        return self.refused(caller, fd) or (EBUSY if self.locked else "ok")

    def said_getstate(self, caller, fd):
        if int(fd) not in self.fds[caller]:
            return EBADF
        return f"state {self.front} {sum(1 << number for number in self.consoles)}"

    def said_lock(self, caller, fd):
        if int(fd) not in self.fds[caller]:
            return EBADF
        return "ok" if caller in self.privileged else EPERM

    said_unlock = said_lock

    def said_setkd(self, caller, fd, mode):
        return self.refused(caller, fd) or "ok"

    def said_setmode(self, caller, fd, *words):
        return self.refused(caller, fd) or "ok"

    def said_reldisp(self, caller, fd, how):
        refused = self.refused(caller, fd)
        if refused:
            return refused
        number = self.fds[caller][int(fd)]
        if self.consoles[number].owner != caller:
            return EINVAL
        if how == "2":
            return "ok"
        return "ok" if how in "01" and number == self.front and self.pending is not None else EINVAL

    def said_signals(self, caller):
        return f"sigs {sum(1 << (n - 1) for n in self.signals[caller])}"

    def said_kill(self, caller, process, number):
        if caller not in self.privileged and caller != f"p{process}":
            return EPERM
        return "ok" if f"p{process}" in self.alive else ESRCH


# How far a program is: the item, what comes next (item, waitend, signals, hooks, over), and the hooks' calls that are left.
Walk = collections.namedtuple("Walk", "item stage left")
OVER = Walk(0, "over", ())


class Program:
    """The calls of a caller."""

    def __init__(self, items, hooks=(), is_keyboard=False):
        self.items, self.is_keyboard, self.hooks = items, is_keyboard, {}
        for hook in hooks:
            number, act, *words = hook.split(" ")
            call = {"disp": ("reldisp", *words), "put": ("write", *words), "leave": ("exit",)}.get(act)
            if call:
                self.hooks[int(number)] = call

    def next(self, walk):
        if walk.stage == "item":
            return self.items[walk.item] if walk.item < len(self.items) else ("exit",)
        return {"waitend": ("waitend",), "signals": ("signals",)}.get(walk.stage) or walk.left[0]

    def took(self, walk, call, said):
        if call[0] == "exit" or (said == ESRCH and call[0] != "kill"):
            return OVER
        if walk.stage == "hooks":
            return self.after(walk.item, walk.left[1:])
        if walk.stage == "signals":
            taken = int(said.split(" ")[1])
            left = [self.hooks[n] for n in range(1, 65) if taken >> (n - 1) & 1 and n in self.hooks]
            return self.after(walk.item + 1, tuple(left))
        if self.is_keyboard:
            return Walk(walk.item + 1, "item", ())
        return Walk(walk.item, "waitend" if said == "wait" else "signals", ())

    def after(self, item, left):
        return Walk(item, "hooks" if left else "item", left)


def item_call(item):
    """The call of an item of a script."""
    name, *words = item.split(" ")
    if name == "say":
        text = item.split(" ", 2)[2].encode().hex()
        return ("write", words[0], text or "-")
    return (name, *words)


def programs_of(session):
    document = tomllib.loads(session)
    keys = [document.get("keys", ""), *document.get("more_keys", [])]
    programs = {f"k{n}": Program([("scan", byte) for byte in text.split()], (), True) for n, text in enumerate(keys)}
    for n, process in enumerate(document.get("process", []), 1):
        programs[f"p{n}"] = Program([item_call(item) for item in process["script"]], process.get("hooks", ()))
    return programs


# Questions.

def fits(pattern, words):
    """Whether the words are those of the pattern: `*` is any word, and words that are left out may be any."""
    return len(pattern) <= len(words) and all(p in ("*", w) for p, w in zip(pattern, words))


def fact(words, caller, call, said, after):
    """Whether a fact holds of a call, of its answer, and of the machine after it."""
    name, *rest = words
    number = int(rest[0]) if rest and rest[0].isdigit() else None
    console = after.consoles.get(number)
    if name == "by":
        return caller == rest[0]
    if name == "call":
        return fits(rest, call)
    if name == "=":
        rest = [str(ERRORS.get(word, word)) for word in rest]
        return fits(rest, said.split(" "))
    if name == "front":
        return after.front == number
    if name == "pending":
        return after.pending is not None and number in (None, after.pending)
    if name == "graphics":
        return console is not None and console.graphics
    if name == "owner":
        return console is not None and console.owner is not None and (len(rest) < 2 or console.owner == rest[1])
    if name == "locked":
        return after.locked
    if name == "lives":
        return rest[0] in after.alive
    if name == "waiting":
        return rest[0] in after.waits
    if name == "signals":
        held = after.signals.get(rest[0], ())
        return bool(held) if len(rest) < 2 else int(rest[1]) in held
    if name == "open":
        return int(rest[1]) in after.fds.get(rest[0], {}).values()
    if name == "ended":
        return not after.alive
    if name == "stuck":
        return not after.alive and (after.pending is not None or after.consoles[after.front].graphics)
    raise ValueError(words)


def asks(question, caller, call, said, after):
    """Whether the question, written without names, asks for the call."""
    for condition in question.split(" and "):
        words = condition.split(" ")
        wanted = words[0] != "not"
        if fact(words if wanted else words[1:], caller, call, said, after) != wanted:
            return False
    return True


# The least number of turns for each question, and the numbers of states and calls.
Found = collections.namedtuple("Found", "answers states calls")


def explore(session, questions, most=100_000):
    """For each question the least number of turns, or None; and how many states and calls there are."""
    programs = programs_of(session)
    callers = sorted(programs, key=lambda name: (0 if name == "k0" else 1 if name[0] == "p" else 2, int(name[1:])))
    answers = [None] * len(questions)
    start = Machine(session)
    level = [(start, {caller: Walk(0, "item", ()) for caller in callers})]
    seen = {(start.key_(), repr(level[0][1]))}
    calls = turns = 0
    while level:
        turns, after = turns + 1, []
        for machine, walks in level:
            for caller in callers:
                if walks[caller] == OVER or caller in machine.waits:
                    continue
                calls += 1
                call = programs[caller].next(walks[caller])
                then = machine.clone()
                said = then.answer(caller, call[0], list(call[1:]))
                for i, question in enumerate(questions):
                    if answers[i] is None and asks(question, caller, call, said, then):
                        answers[i] = turns
                ways = {**walks, caller: programs[caller].took(walks[caller], call, said)}
                key = (then.key_(), repr(ways))
                if key not in seen:
                    seen.add(key)
                    after.append((then, ways))
                    if len(seen) > most:
                        raise Unread("more states than are kept")
        level = after
    return Found(answers, len(seen), calls)
