"""Reads what `watch json` prints (docs/reference/watch.md): one object a line, an entry each, and last the object of
the end.

What isn't of that form is refused with its line: `line 3: owners[0].owner: wanted a process, found 'k0'`.
"""
import json
import re

from tool_files import Stop

MOST_ENTRIES = 1_000_000
ERRORS = "EPERM ESRCH EINTR ENXIO EBADF EAGAIN EBUSY EINVAL ENOTTY".split()
CALLER = re.compile(r"k[0-3]|p(?:[1-9]|[1-5][0-9]|6[0-4])")
PROCESS = re.compile(r"p(?:[1-9]|[1-5][0-9]|6[0-4])")
LINE = re.compile(r"[ -~]+")


class Wrong(Exception):
    """A value that isn't of the form: where it stands, and what was wanted."""


def shown(value):
    """A value in a message, of at most 40 characters."""
    text = repr(value)
    return text if len(text) <= 40 else text[:37] + "..."


def wanted(what, value):
    raise Wrong(f": wanted {what}, found {shown(value)}")


def number(least, most, what):
    """The form of a number in a range."""

    def check(value):
        if not isinstance(value, int) or isinstance(value, bool) or not least <= value <= most:
            wanted(what, value)

    return check


def text(form, what):
    """The form of a text."""

    def check(value):
        if not isinstance(value, str) or not form.fullmatch(value):
            wanted(what, value)

    return check


def word(*words):
    """The form of one of these words."""

    def check(value):
        if value not in words or isinstance(value, (bool, int)):
            wanted(" or ".join(words), value)

    return check


def or_null(form):
    return lambda value: None if value is None else form(value)


def each(form):
    """The form of an array."""

    def check(value):
        if not isinstance(value, list):
            wanted("an array", value)
        for place, item in enumerate(value):
            try:
                form(item)
            except Wrong as fault:
                raise Wrong(f"[{place}]{fault}") from None

    return check


def record(members):
    """The form of an object with exactly these members."""

    def check(value):
        if not isinstance(value, dict):
            wanted("an object", value)
        missing = [name for name in members if name not in value]
        further = [name for name in value if name not in members]
        if missing:
            raise Wrong(f".{missing[0]}: it isn't there")
        if further:
            raise Wrong(f".{shown(further[0])}: no such member")
        for name, form in members.items():
            try:
                form(value[name])
            except Wrong as fault:
                raise Wrong(f".{name}{fault}") from None

    return check


def one_of(key, forms):
    """The form of an object whose member `key` determines the others."""

    def check(value):
        if not isinstance(value, dict):
            wanted("an object", value)
        kind = value.get(key)
        if not isinstance(kind, str) or kind not in forms:
            raise Wrong(f".{key}: wanted {' or '.join(forms)}, found {shown(kind)}")
        forms[kind](value)

    return check


a_caller = text(CALLER, "a caller")
a_process = text(PROCESS, "a process")
a_console = number(1, 63, "a console")
a_signal = number(1, 64, "a signal")
an_entry = number(0, MOST_ENTRIES - 1, "an entry")
a_kind = text(re.compile(r"\w+"), "a word")
ASKED = {"owner": a_process, "asked": an_entry, "signal": a_signal}


def switch(further):
    return record({"what": a_kind, "from": a_console, "to": a_console, "cause": a_kind, **further})


def wait(further):
    return record({"caller": a_process, "for": a_kind, **further})


DID = one_of("what", {
    "request": record({"what": a_kind, "caller": a_caller, "console": a_console}),
    "signal": record({"what": a_kind, "signal": a_signal, "to": a_process}),
    "switch": one_of("cause", {"free": switch({}), "released": switch(ASKED), "died": switch(ASKED)}),
    "end": record({"what": a_kind, "caller": a_caller}),
    "wait": record({"what": a_kind, "caller": a_process, "how": word("ok", "EINTR", "gone")}),
})  # fmt: skip
STATE = {
    "owners": each(record({"console": a_console, "owner": a_process})),
    "waits": each(one_of("for", {
        "display": wait({"console": a_console}), "input": wait({"console": a_console}), "signal": wait({}),
    })),
}  # fmt: skip
ENTRY = {
    "entry": an_entry,
    "caller": a_caller,
    "count": number(0, 2**32 - 1, "a count"),
    "call": text(LINE, "the words of a call"),
    "answer": text(LINE, "the words of an answer"),
    "error": or_null(word(*ERRORS)),
    "did": each(DID),
    "front": a_console,
    "owners": STATE["owners"],
    "pending": or_null(record({"console": a_console, "since": an_entry})),
    "waits": STATE["waits"],
}
AS_BEFORE = record({**ENTRY, "owners": lambda value: None, "waits": lambda value: None})
ENTRY = record(ENTRY)
# Other spellings of numbers, which Python takes for equal: then nothing is as before.
UNEQUAL = re.compile(r"true|false|-0|:[0-9]+[.eE]")
END = record({
    "entries": number(0, MOST_ENTRIES, "a number of entries"), "final": text(re.compile(r"(?s).*"), "a text"),
})  # fmt: skip


def form_of(line, value, before):
    """The form of an entry. The many owners and waits that are those of the entry before aren't looked at again."""
    if before is None or not isinstance(value, dict) or UNEQUAL.search(line):
        return ENTRY
    return AS_BEFORE if all(name in value and value[name] == before[name] for name in STATE) else ENTRY


def keep_once(value, before):
    """The owners and waits that are those of the entry before are kept once."""
    for name in STATE if before else []:
        if value[name] == before[name]:
            value[name] = before[name]


def in_order(entry, place):
    """What an entry refers to is at or before it."""
    if entry["entry"] != place:
        raise Wrong(f".entry: wanted {place}, found {entry['entry']}")
    for at, did in enumerate(entry["did"]):
        if did.get("asked", -1) >= place:
            raise Wrong(f".did[{at}].asked: entry {did['asked']} isn't before this one")
    if entry["pending"] and entry["pending"]["since"] > place:
        raise Wrong(f".pending.since: entry {entry['pending']['since']} isn't before this one")


def read_watch(given, most=MOST_ENTRIES):
    """The entries and the final text."""
    try:
        lines = given.decode().split("\n")
    except UnicodeDecodeError as fault:
        raise Stop(1, f"line {given[: fault.start].count(10) + 1}: wanted UTF-8") from None
    if lines[-1] != "":
        raise Stop(1, f"line {len(lines)}: it doesn't end with LF")
    if len(lines) == 1:
        raise Stop(1, "line 1: wanted an object of `watch json`, found nothing")
    if len(lines) - 2 > most:
        raise Stop(1, f"line {most + 2}: more than {most} entries")
    entries, before = [], None
    for place, line in enumerate(lines[:-1]):
        is_last = place == len(lines) - 2
        try:
            value = json.loads(line)
            (END if is_last else form_of(line, value, before))(value)
            if not is_last:
                in_order(value, place)
                keep_once(value, before)
        except Wrong as fault:
            raise Stop(1, f"line {place + 1}: {str(fault).lstrip('.:').strip()}") from None
        except (ValueError, RecursionError):
            raise Stop(1, f"line {place + 1}: no object of JSON") from None
        entries.append(value)
        before = value
    end = entries.pop()
    if end["entries"] != len(entries):
        raise Stop(1, f"line {len(lines) - 1}: entries: wanted {len(entries)}, found {end['entries']}")
    return entries, end["final"]
