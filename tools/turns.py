#!/usr/bin/env python3
"""Writes a session whose `turns` are words as one with numbers (docs/reference/sessions.md), counted by playing.

    tools/turns.py SESSION.toml > NUMBERED.toml

The items of `turns` are texts, whose words `--help` lists; a number counts as one turn of that caller.

Everything except `turns` stays as it is. Words of another form are refused with the list of words, and so are words
that no play reaches: `turns.py: turns 3: ..`, 3 the item. Exit status: 0 written, 1 the session or its words are
refused, 2 the program doesn't run or Python is older than 3.11, 3 a file can't be read or written.
"""
import argparse
import re
import subprocess
import sys

try:
    import tomllib
except ImportError:
    tomllib = None

from package import called
from programs import find
from tool_files import Stop, read_file, read_input, reason, run, shown, write_file

MOST_TURNS = 1_000_000
MOST_DIGITS = 9
SECONDS = 600
# The words of an item, for a reader.
WORDS = """CALLER is k0 to k3 or p1 to p64, as in a journal. The words are:

    CALLER once                one call
    CALLER N times             N calls
    CALLER until item N        calls up to and with item N of its script, from 1; of a keyboard, with its byte N
    CALLER until it waits      calls until its wait is open
    CALLER until it is over    calls until its program is over
    all until they wait        rounds of rising callers, the further keyboards last, until each waits or is over
    all but CALLER [CALLER ..] until they wait
                               the same without these callers"""
CALLER = r"(k[0-3]|p[1-9][0-9]?)"
CALL = re.compile(r"([kp][0-9]{1,2}) [0-9]+ (.*?) = (.+)")
FORMS = [
    (re.compile(rf"{CALLER} once"), "times"),
    (re.compile(rf"{CALLER} ([1-9][0-9]*) times"), "times"),
    (re.compile(rf"{CALLER} until item ([1-9][0-9]*)"), "item"),
    (re.compile(rf"{CALLER} until it waits"), "waits"),
    (re.compile(rf"{CALLER} until it is over"), "over"),
    (re.compile(rf"all(?: but ({CALLER}(?: {CALLER})*))? until they wait"), "all"),
]


def number_of(word):
    """The number of a caller in `turns`."""
    n = int(word[1:])
    if word[0] == "p":
        return n
    return 0 if n == 0 else 64 + n


def word_of(number):
    """The word of a caller in a journal."""
    if number == 0:
        return "k0"
    return f"p{number}" if number <= 64 else f"k{number - 64}"


def count_of(digits):
    """A number of words; one of many digits is more than any session has."""
    return int(digits[:MOST_DIGITS]) if len(digits) <= MOST_DIGITS else 10**MOST_DIGITS


def refuse(place, why):
    raise Stop(1, f"turns {place}: {why}")


# The text of `turns` in the session.


def token_end(text, at):
    """Where the token ends that begins at this place of an array: a string, a comment or one character."""
    sign = text[at]
    if sign == "#":
        end = text.find("\n", at)
        return len(text) if end < 0 else end
    if sign not in "\"'":
        return at + 1
    mark = sign * 3 if text.startswith(sign * 3, at) else sign
    at += len(mark)
    while at < len(text) and not text.startswith(mark, at):
        at += 2 if sign == '"' and text[at] == "\\" else 1
    return at + len(mark)


def turns_span(text):
    """Where the array of `turns` stands among the top keys."""
    top = re.search(r"(?m)^\s*\[", text)
    found = re.search(r"(?m)^turns\s*=\s*", text[: top.start() if top else len(text)])
    if found is None:
        raise Stop(1, "the session has no key turns at a line's start, before its first table")
    at = start = found.end()
    depth = 0
    while at < len(text):
        depth += {"[": 1, "]": -1}.get(text[at], 0)
        at = token_end(text, at)
        if depth == 0:
            break
    return start, at


def is_array(part, words):
    """The text is that of an array of these items."""
    try:
        return tomllib.loads(f"turns = {part}")["turns"] == words
    except ValueError:
        return False


def with_turns(text, span, turns):
    """The session with these numbers, some 100 bytes a line."""
    lines, line = [], "   "
    for turn in turns:
        if len(line) > 100:
            lines.append(line)
            line = "   "
        line += f" {turn},"
    body = "\n".join(lines + [line]) if turns else ""
    return text[: span[0]] + (f"[\n{body}\n]" if turns else "[]") + text[span[1] :]


# The play of a session.


class Players:
    """Plays of the session with more and more turns."""

    def __init__(self, program, text, span):
        self.program = program
        self.text = text
        self.span = span
        self.turns = []
        # The calls that the turns make: caller, words of the call, and words of the answer.
        self.calls = []
        self.over = set()

    def play(self, turns):
        """The calls of the play with these turns."""
        session = with_turns(self.text, self.span, turns).encode()
        try:
            ran = subprocess.run([self.program, "play"], input=session, capture_output=True, timeout=SECONDS)
        except OSError as fault:
            raise Stop(2, f"{self.program}: {reason(fault)}") from None
        except subprocess.TimeoutExpired:
            raise Stop(2, f"{self.program} play didn't end within {SECONDS} s") from None
        if ran.returncode not in (0, 7):
            raise Stop(1, f"vt play: {ran.stderr.decode(errors='replace').strip()}")
        first, *lines = ran.stdout.decode(errors="replace").split("\n")
        calls = []
        for line in lines:
            if line.startswith("%"):
                break
            calls.append(CALL.fullmatch(line))
        if not first.startswith("%journal ") or None in calls:
            raise Stop(2, f"{self.program} play printed no journal")
        return [found.groups() for found in calls]

    def step(self, caller):
        """Whether the caller makes a call at one more turn. If it does, that turn stands."""
        if caller in self.over or len(self.turns) == MOST_TURNS:
            return False
        calls = self.play(self.turns + [number_of(caller)])
        at = len(self.turns)
        if len(calls) <= at or calls[at][0] != caller:
            return False
        self.turns.append(number_of(caller))
        self.calls.append(calls[at])
        if calls[at][1] == "exit" or calls[at][2] == "err 3":
            self.over.add(caller)
        return True

    def many(self, caller, count):
        """So many turns of the caller as one play shows that it makes, at most this count."""
        at = len(self.turns)
        calls = self.play(self.turns + [number_of(caller)] * count)[at : at + count]
        made = 0
        while made < len(calls) and calls[made][0] == caller:
            made += 1
        return calls[:made]

    def take(self, caller, calls):
        """These calls of the caller stand."""
        self.turns += [number_of(caller)] * len(calls)
        self.calls += calls
        if calls and (calls[-1][1] == "exit" or calls[-1][2] == "err 3"):
            self.over.add(caller)

    def made(self, caller):
        return [call for call in self.calls if call[0] == caller]

    def state(self, caller):
        """Why the caller makes no call, in words."""
        if caller in self.over:
            return f"{caller} is over after {len(self.made(caller))} calls"
        return f"{caller} waits after {len(self.made(caller))} calls"


class Scripts:
    """The items of each caller, and at which signals its hooks make a call."""

    def __init__(self, document):
        self.items = {}
        self.acts = {}
        for number, process in enumerate(document.get("process", []), 1):
            self.items[f"p{number}"] = len(process.get("script", []))
            hooks = [hook.split() for hook in process.get("hooks", [])]
            self.acts[f"p{number}"] = {int(hook[0]) for hook in hooks if hook[1] != "nothing"}
        keys = [document.get("keys", "")] + list(document.get("more_keys", []))
        for number, text in enumerate(keys):
            self.items[f"k{number}"] = len(text.split())

    def callers(self):
        """All callers in the order of a round: the further keyboards last."""
        return sorted(self.items, key=number_of)

    def acts_at(self, caller, answer):
        """How many calls the hooks make at the signals of this answer."""
        word, _, bits = answer.partition(" ")
        return sum(1 for s in self.acts[caller] if word == "sigs" and int(bits) >> (s - 1) & 1)


def items_made(players, scripts, caller):
    """How many items the caller has called (docs/reference/sessions.md, "Programs")."""
    calls = players.made(caller)
    if caller[0] == "k":
        return sum(1 for _, call, _ in calls if call != "exit")
    made = acts = 0
    expected = "item"
    for _, call, answer in calls:
        if expected == "item":
            made += call != "exit"
            expected = "waitend" if answer == "wait" else "signals"
        elif expected == "waitend":
            expected = "signals"
        elif expected == "signals":
            acts = scripts.acts_at(caller, answer)
            expected = "acts" if acts else "item"
        else:
            acts -= 1
            expected = "acts" if acts else "item"
    return made


def until_item(players, scripts, place, caller, digits):
    item = count_of(digits)
    if item > scripts.items[caller]:
        refuse(place, f"{caller} has {scripts.items[caller]} items, and no item {shown(digits)}")
    if items_made(players, scripts, caller) >= item:
        refuse(place, f"{caller} has called item {item} before")
    while items_made(players, scripts, caller) < item:
        if not players.step(caller):
            refuse(place, f"{players.state(caller)}, so it doesn't reach item {item}")


def times(players, place, caller, count):
    if count > MOST_TURNS:
        refuse(place, f"more than {MOST_TURNS} turns")
    calls = players.many(caller, count) if caller not in players.over else []
    players.take(caller, calls)
    if len(calls) < count:
        refuse(place, f"{players.state(caller)}, {len(calls)} of the {count}")


def until_waits(players, place, caller):
    while players.step(caller):
        if players.calls[-1][2] == "wait":
            if players.many(caller, 1):
                refuse(place, f"the wait of {caller} ends at once, since nobody else goes on")
            return
    refuse(place, f"{players.state(caller)}, and doesn't begin a wait")


def until_over(players, place, caller):
    while caller not in players.over:
        if not players.step(caller):
            refuse(place, f"{players.state(caller)}, so it isn't over")


def rounds(players, callers):
    """Rounds of these callers until none of them makes a call."""
    going = True
    while going:
        going = False
        for caller in callers:
            going = players.step(caller) or going


def do_word(players, scripts, place, text):
    """Does one item of `turns`."""
    if isinstance(text, int) and not isinstance(text, bool) and text in map(number_of, scripts.callers()):
        return times(players, place, word_of(text), 1)
    if not isinstance(text, str):
        refuse(place, "neither a text nor the number of a caller")
    for form, kind in FORMS:
        found = form.fullmatch(text)
        if found:
            break
    else:
        refuse(place, f"no such words: {shown(text)}\n{WORDS}")
    named = (found[1] or "").split()
    for caller in named:
        if caller not in scripts.items:
            refuse(place, f"the session has no {caller}")
    if kind == "all":
        return rounds(players, [caller for caller in scripts.callers() if caller not in named])
    if kind == "times":
        return times(players, place, named[0], count_of(found[2]) if form.groups > 1 else 1)
    if kind == "item":
        return until_item(players, scripts, place, named[0], found[2])
    if kind == "waits":
        return until_waits(players, place, named[0])
    return until_over(players, place, named[0])


def numbered(program, given):
    """The session of this text with numbers as turns."""
    if tomllib is None:
        raise Stop(2, "wanted Python 3.11 or later, for its reader of TOML")
    try:
        text = given.decode()
        document = tomllib.loads(text)
    except (ValueError, RecursionError) as fault:
        raise Stop(1, f"the session is no TOML document: {fault}") from None
    words = document.get("turns")
    if not isinstance(words, list):
        raise Stop(1, "the session has no array turns")
    span = turns_span(text)
    if not is_array(text[slice(*span)], words):
        raise Stop(1, "a text before the key turns has a line that begins like it")
    players = Players(program, text, span)
    players.play([])
    scripts = Scripts(document)
    for place, word in enumerate(words, 1):
        do_word(players, scripts, place, word)
    return with_turns(text, span, players.turns).encode()


def main():
    parser = argparse.ArgumentParser(
        description="Writes a session whose turns are words as one with numbers.",
        epilog=WORDS,
        formatter_class=argparse.RawDescriptionHelpFormatter,
    )
    parser.add_argument("session", help="the session, or - for standard input")
    parser.add_argument("-o", "--output", help="where the session is written; standard output without it")
    parser.add_argument("--vt", metavar="PATH", help="the program vt; without it that of VT, of the clone or of PATH")
    args = parser.parse_args()
    try:
        given = read_input(3) if args.session == "-" else read_file(args.session, 3)
        write_file(args.output, numbered(str(find("vt", args.vt)), given), 3)
    except Stop as stop:
        print(f"{called()}: {stop}", file=sys.stderr)
        return stop.status
    return 0


if __name__ == "__main__":
    sys.exit(run(main, 3))
