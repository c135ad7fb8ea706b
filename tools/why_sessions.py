"""Explains faults of sessions, tables for `vt type` and journals: the place with a mark, near words, what to write.

A part of tools/why.py. TOML's reader gives no places, so the text is searched for them: a fault that isn't found there
is explained without a place.
"""
import re
import subprocess

from kbd_text import near
from programs import Missing, find, tool_name
from session_words import CALLS, ERRORS, HOOKS, NOT_IN_SCRIPTS, PROCESS_KEYS, REQUESTS, TOP_KEYS, TYPE_KEYS
from turns import number_of, token_end, turns_span, with_turns
from tool_files import Stop

try:
    import tomllib
except ImportError:
    tomllib = None

SECONDS = 60
FORMS = {form.split()[0]: form for form in (*CALLS, "say FD TEXT")}


class Place:
    """A part of a text, from one offset to another."""

    def __init__(self, text, start, end):
        self.line = text.count("\n", 0, start) + 1
        first = text.rfind("\n", 0, start) + 1
        last = text.find("\n", start)
        self.shown = text[first : last if last >= 0 else len(text)].rstrip("\r")
        self.column = start - first + 1
        self.width = max(1, min(end - start, len(self.shown) - self.column + 1))

    def marked(self):
        """Gives the line, and below it a mark under the part."""
        front = self.shown[: self.column - 1]
        yield "    " + "".join(c if c.isprintable() or c == "\t" else "?" for c in self.shown)
        yield "    " + "".join("\t" if c == "\t" else " " for c in front) + "^" * self.width


# Where something stands in a text.


def tokens(text):
    """Gives the offsets of each string, outside comments."""
    at = 0
    while at < len(text):
        end = token_end(text, at)
        if text[at] in "\"'":
            yield at, end
        at = end


def value_of(token):
    """Returns the value of a string of TOML, or None."""
    try:
        return tomllib.loads(f"it = {token}")["it"]
    except tomllib.TOMLDecodeError:
        return None


def place_of_string(text, value, after=0):
    """Returns the place of the first string with this value after an offset."""
    found = ((at, end) for at, end in tokens(text) if at >= after and value_of(text[at:end]) == value)
    return next((Place(text, at, end) for at, end in found), None)


def place_of_item(text, whole, item):
    """Returns the place of an item, from 1, of a string whose items have one blank between."""
    for at, end in tokens(text):
        if text[at + 1 : end - 1] == whole:
            start = at + 1 + sum(len(it) + 1 for it in whole.split(" ")[: item - 1])
            return Place(text, start, start + len(whole.split(" ")[item - 1]))
    return place_of_string(text, whole)


def place_of_key(text, key, after=0):
    """Returns the place of a key at the start of a line, after an offset."""
    found = re.compile(rf"^[ \t]*([\"']?{re.escape(key)}[\"']?)[ \t]*=", re.M).search(text, after)
    return found and Place(text, *found.span(1))


def start_of_process(text, number):
    """Returns the offset of a process's header, from 1, or 0."""
    found = [it.start() for it in re.finditer(r"^[ \t]*\[\[[ \t]*process[ \t]*\]\]", text, re.M)]
    return found[number - 1] if 0 < number <= len(found) else 0


# What to write.


def list_of(words):
    """Returns words with commas between, and `or` before the last."""
    return " or ".join(filter(None, [", ".join(words[:-1]), words[-1]]))


def about_call(item):
    """Returns what is wrong with an item of a script."""
    name, *words = item.split(" ")
    if name in NOT_IN_SCRIPTS:
        return f"{name} is no item of a script: {NOT_IN_SCRIPTS[name]}."
    if name.upper() in REQUESTS:
        call = REQUESTS[name.upper()]
        none = f"vt has no call for {name.upper()} (docs/reference/compatibility.md has why)."
        return f"{name.upper()} is the call `{FORMS[call]}`." if call else none
    if name not in FORMS:
        close = [f"`{FORMS[it]}`" for it in near(name, [call for call in FORMS if call not in NOT_IN_SCRIPTS])]
        hint = f"is it {list_of(close)}?" if close else "docs/reference/journal.md has the calls."
        return f"There is no call {name}: {hint}"
    wanted = FORMS[name].split()[1:]
    if name == "say":
        return "`say FD TEXT` has the descriptor, a blank, and a text, which may be empty."
    if len(words) != len(wanted):
        return f"The call is `{FORMS[name]}`. Words after its name: {len(wanted)}; here: {len(words)}."
    bad = [(word, form) for word, form in zip(words, wanted) if not is_word(word, form)]
    return f"{bad[0][0]!r} is no {bad[0][1]} of `{FORMS[name]}`: {wanted_of(bad[0][1])}." if bad else ""


def is_word(word, form):
    """Whether a word has the form of one of a call."""
    if form == "B":
        return word == "-" or re.fullmatch("(?:[0-9a-f]{2})+", word) is not None
    return re.fullmatch("0|[1-9][0-9]{0,4}", word) is not None and int(word) < 65536


def wanted_of(form):
    """Returns what a word of a call has to be."""
    if form == "B":
        return "two lower-case hexadecimal digits a byte, or - for none"
    return "a number up to 65,535, without a sign or leading zeros"


def about_hook(hook, others):
    """Returns what is wrong with a hook, after the hooks before it."""
    signal, *words = hook.split(" ")
    if not re.fullmatch("[1-9][0-9]?", signal) or int(signal) > 64 or signal == "9":
        return "A hook begins with its signal, a number from 1 to 64 except 9."
    if signal in [other.split(" ")[0] for other in others]:
        return f"Signal {signal} has a hook already."
    close = near(words[0] if words else "", [form.split()[0] for form in HOOKS])
    forms = [form for form in HOOKS if form.split()[0] in close] or HOOKS
    return f"The hook is {list_of([f'`{signal} {form}`' for form in forms])}: FD and A are numbers, HH is a byte."


def about_key(key, known, likely):
    """Returns what a key that isn't known may be: one of those known, or of the likely ones."""
    close = near(key, list(known))
    hint = f"is it {list_of(close)}?" if close else f"there are {', '.join(likely)}."
    return f"There is no key {key}: {hint}"


def about_value(key, kind, value):
    """Returns what the value of a key has to be."""
    if key == "turns" and any(isinstance(it, str) for it in value or []):
        return f"Words in turns are for {tool_name('turns')}, which writes the session with numbers."
    return f"The key {key} has to be {kind}."


# The faults of a table.


def documents(table):
    """Returns the keys of sessions and those of tables for `vt type`, the likelier ones for this document first."""
    return (TOP_KEYS, TYPE_KEYS) if set(table) & (set(TOP_KEYS) - set(TYPE_KEYS)) else (TYPE_KEYS, TOP_KEYS)


def processes(table):
    """Returns the tables of the processes, as far as they are tables."""
    found = table.get("process")
    return [it if isinstance(it, dict) else {} for it in found] if isinstance(found, list) else []


def texts(process, key):
    """Returns the texts of an array of a process."""
    found = process.get(key)
    return found if isinstance(found, list) else []


def key_fault(text, table, process, _):
    """Explains a key that isn't known."""
    found = processes(table)[process - 1] if process else table
    known = PROCESS_KEYS if process else TOP_KEYS | TYPE_KEYS
    key = next((it for it in found if it not in known), None)
    if key is None:
        hint = "mode is a key of tables for `vt type`, which have no key of a session alone."
        return place_of_key(text, "mode"), hint
    likely = PROCESS_KEYS if process else documents(table)[0]
    return place_of_key(text, key, start_of_process(text, process)), about_key(key, known, likely)


def value_fault(text, table, process, number):
    """Explains a value of a wrong kind, a number out of its range, or too many items."""
    if process:
        found, known = processes(table)[process - 1], PROCESS_KEYS
    else:
        found, known = table, next(it for it in documents(table) if [*it, *it][number - 1] in table)
    key = list(known)[number - 1]
    place = place_of_key(text, key, start_of_process(text, process))
    if key == "process" and not place:
        place = place_of_process(text)
    return place, about_value(key, known[key], found[key] if isinstance(found[key], list) else None)


def place_of_process(text):
    """Returns the place of the first header of a process."""
    found = re.search(r"^[ \t]*\[+[ \t]*process[ \t]*\]+", text, re.M)
    return found and Place(text, *found.span())


def item_fault(text, table, process, item):
    """Explains a text of a script that is no item."""
    found = texts(processes(table)[process - 1], "script")[item - 1]
    return place_of_string(text, found, start_of_process(text, process)), about_call(found)


def hook_fault(text, table, process, item):
    """Explains a text of hooks that is no hook."""
    found = texts(processes(table)[process - 1], "hooks")
    place = place_of_string(text, found[item - 1], start_of_process(text, process))
    return place, about_hook(found[item - 1], found[: item - 1])


def byte_fault(text, table, keyboard, item):
    """Explains an item of keys, or of the text of a further keyboard, that is no byte."""
    whole = table["more_keys"][keyboard - 1] if keyboard else table["keys"]
    found = whole.split(" ")[item - 1]
    told = f"{found!r} is no byte" if found else "An empty item: two blanks, or one at an end"
    hint = f"{told}. A byte is two hexadecimal digits, and one blank stands between two."
    return place_of_item(text, whole, item), hint


def turn_fault(text, table, _, item):
    """Explains an item of turns that is no caller."""
    count, further = len(processes(table)), len(texts(table, "more_keys"))
    callers = ["0"] + (["1"] if count == 1 else [f"1 to {count}"] if count else [])
    callers += ["65"] if further == 1 else [f"65 to {64 + further}"] if further else []
    hint = f"Item {item} is {table['turns'][item - 1]}. The session has the callers {', '.join(callers)}."
    return place_of_key(text, "turns"), hint


FAULTS = {
    21: key_fault, 22: value_fault, 23: value_fault, 25: item_fault, 26: hook_fault, 27: byte_fault, 28: turn_fault,
    29: value_fault, 30: byte_fault,
}  # fmt: skip


def where(code, first, second):
    """Returns what the numbers of a fault name, in words."""
    if code in (27, 30):
        return f"item {second} of keys" if not first else f"item {second} of text {first} of more_keys"
    if code in (25, 26):
        return f"process {first}, item {second} of {'script' if code == 25 else 'hooks'}"
    if code == 28:
        return f"item {second} of turns"
    return f"process {first}" if first else "a key outside the processes"


def about_fault(path, text, meaning, code, first, second):
    """Gives the lines about a fault of a session or of a table, except one of the document or of its keymap."""
    head = f"{meaning} (code {code} at {first}:{second}: {where(code, first, second)})"
    try:
        place, hint = FAULTS[code](text, tomllib.loads(text), first, second)
    except (ValueError, RecursionError, LookupError, StopIteration, TypeError, AttributeError, Stop):
        yield f"{path}: {head}"
        yield "The session has nothing like that there: is it what vt read?"
        return
    yield f"{path}:{place.line}:{place.column}: {head}" if place else f"{path}: {head}"
    yield from place.marked() if place else ()
    if hint:
        yield hint


def about_document(path, text, meaning):
    """Gives the lines about a text that is no document, as far as Python's reader says where."""
    try:
        tomllib.loads(text)
    except (ValueError, RecursionError) as error:
        found = re.fullmatch(r"(.*) \(at line (\d+), column (\d+)\)", str(error))
        yield f"{path}:{found[2]}:{found[3]}: {meaning} (code 20)" if found else f"{path}: {meaning} (code 20)"
        lines = text.split("\n")
        if found and int(found[2]) <= len(lines):
            start = sum(len(it) + 1 for it in lines[: int(found[2]) - 1]) + int(found[3]) - 1
            yield from Place(text, start, start + 1).marked()
        yield f"Python's reader of TOML 1.0: {found[1] if found else error}."
        return
    yield f"{path}: {meaning} (code 20)"
    yield "Python's reader takes it: vt refuses arrays and tables nested 80 deep, and integers of more than 64 bits."


# The answer that the machine gives.


def played_entry(program, session, callers):
    """Returns the entry that a play makes at the last of these callers' turns, and None if there is none."""
    numbers = [number_of(caller) for caller in callers]
    try:
        given = with_turns(session, turns_span(session), numbers)
    except Stop:
        given = with_turns("turns = []\n" + session, (8, 10), numbers)
    words = {"input": given.encode(), "capture_output": True, "timeout": SECONDS, "check": False}
    lines = subprocess.run([program, "play"], **words).stdout.decode("utf-8", "replace").split("\n")
    return lines[len(numbers)] if len(lines) > len(numbers) and not lines[len(numbers)].startswith("%") else None


def version_2(line):
    """Returns the caller of an entry as version 2 writes it."""
    word = line.split(" ", 1)[0]
    return word if word[0] in "kp" else "k0" if word == "0" else f"p{word}"


def right_entry(option, session, entries, at):
    """Gives a line with the machine's answer to an entry, or with the call that the caller makes there."""
    try:
        callers = [version_2(line) for line in entries[: at + 1]]
        played = played_entry(find("vt", option), session, callers)
    except Missing as missing:
        yield f"The machine's answer isn't shown: {missing}"
        return
    except (OSError, ValueError, IndexError, subprocess.TimeoutExpired):
        return
    if played is None or played.split(" ")[0] != callers[-1]:
        yield f"{callers[-1]} makes no call there: its program is over, or it waits."
        return
    call, _, answer = played.partition(" = ")
    wanted, _, found = entries[at].partition(" = ")
    if call.split(" ", 2)[2] != wanted.split(" ", 2)[2]:
        yield f"The next call of {callers[-1]} is `{call.split(' ', 2)[2]}`."
    elif answer != found:
        name = ERRORS.get(int(answer[4:])) if re.fullmatch(r"err \d+", answer) else None
        yield f"The machine gives `{answer}`{f' ({name})' if name else ''}, and the journal has `{found}`."
