"""The sentences of a timeline: what an entry of `watch json` asks, what it is answered, and what it did."""
from package import module

escaped = module("escapes").escaped

ERRORS = {
    "EPERM": "the caller has no right to this console",
    "ESRCH": "the caller or the target doesn't live",
    "EINTR": "a signal or the idle rule ended the wait",
    "ENXIO": "no such console or process",
    "EBADF": "the descriptor isn't open",
    "EAGAIN": "there is nothing to read, or the wait goes on",
    "EBUSY": "switching is locked, the console is in use, or all descriptors are open",
    "EINVAL": "a number out of its range, or a call out of order",
    "ENOTTY": "this kind of caller can't make this call",
}
REQUESTS = {
    "waitactive": "VT_WAITACTIVE", "activate": "VT_ACTIVATE", "disallocate": "VT_DISALLOCATE", "openqry": "VT_OPENQRY",
    "getstate": "VT_GETSTATE", "resize": "VT_RESIZE", "lock": "VT_LOCKSWITCH", "unlock": "VT_UNLOCKSWITCH",
    "setkd": "KDSETMODE", "getkd": "KDGETMODE", "setmode": "VT_SETMODE", "getmode": "VT_GETMODE",
    "reldisp": "VT_RELDISP", "setkb": "KDSKBMODE", "getkb": "KDGKBMODE", "setmeta": "KDSKBMETA",
    "getmeta": "KDGKBMETA", "setled": "KDSETLED", "getled": "KDGETLED", "setflags": "KDSKBLED",
    "getflags": "KDGKBLED", "setent": "KDSKBENT", "getent": "KDGKBENT", "setfunc": "KDSKBSENT",
    "getfunc": "KDGKBSENT", "setdia": "KDSKBDIACRUC", "getdia": "KDGKBDIACRUC", "setcode": "KDSETKEYCODE",
    "getcode": "KDGETKEYCODE", "accept": "KDSIGACCEPT", "setmap": "PIO_UNISCRNMAP", "getmap": "GIO_UNISCRNMAP",
    "setpal": "PIO_CMAP", "getpal": "GIO_CMAP",
}  # fmt: skip
# The characters of a written text that a sentence has.
MOST_WRITTEN = 60
RELEASES = {"0": "keep the display", "1": "let the display go", "2": "acknowledge that it has the display"}


def bits(number):
    """The numbers of the bits that are set, from 0."""
    return [place for place in range(int(number).bit_length()) if int(number) >> place & 1]


def listed(numbers):
    return ", ".join(map(str, numbers)) or "none"


def counted(number, what):
    return f"{number} {what}{'' if number == 1 else 's'}"


def mode_words(words):
    """The words of a console's mode."""
    if words[0] != "1":
        return "VT_AUTO"
    return f"VT_PROCESS, release signal {words[2]}, acquire signal {words[3]}"


def written(digits):
    """The text of a write, and how many bytes it has; a long one is cut."""
    given = b"" if digits == "-" else bytes.fromhex(digits)
    text = escaped(given)
    if len(text) > MOST_WRITTEN:
        text = text[:MOST_WRITTEN] + " .."
    return f'"{text}", {counted(len(given), "byte")}'


def call_words(call):
    """A call in words."""
    name, *words = call.split(" ")
    known = REQUESTS.get(name)
    try:
        meant = {
            "activate": lambda: f"to request console {words[1]}",
            "waitactive": lambda: f"to wait until console {words[1]} is in front",
            "disallocate": lambda: f"to free {'every unused console' if words[1] == '0' else f'console {words[1]}'}",
            "reldisp": lambda: f"to {RELEASES.get(words[1], 'answer in no way that there is')}",
            "setmode": lambda: mode_words(words[1:]),
            "setkd": lambda: {"0": "KD_TEXT", "1": "KD_GRAPHICS"}.get(words[1], words[1]),
            "kill": lambda: f"signal {words[1]} for p{words[0]}",
            "open": lambda: "the console in front" if words[0] == "0" else f"console {words[0]}",
            "write": lambda: written(words[1]),
            "waitinput": lambda: "to wait for input",
            "waitsignal": lambda: "to wait for a signal",
            "waitend": lambda: "the result of the wait",
            "signals": lambda: "to take the pending signals",
            "scan": lambda: f"byte {words[0]} of the keyboard",
        }[name]()
    except (KeyError, IndexError, ValueError):
        return known or name
    return f"{known}: {meant}" if known else f"{name}: {meant}"


def number_words(call, number):
    """The number that a call is answered, in words."""
    known = {"open": f"descriptor {number}", "write": counted(int(number), "byte"), "openqry": f"console {number}"}
    return known.get(call, f"the number {number}")


def answer_words(call, answer, error):
    """The answer of a call in words."""
    name, *words = answer.split(" ")
    if error:
        return f"{error}: {ERRORS[error]}"
    try:
        return {
            "num": lambda: number_words(call, words[0]),
            "sigs": lambda: f"signals {listed(bit + 1 for bit in bits(words[0]))}" if words[0] != "0" else "no signal",
            "state": lambda: f"console {words[0]} is in front, allocated are {listed(bits(words[1]))}",
            "mode": lambda: mode_words(words),
            "wait": lambda: "it waits",
        }[name]()
    except (KeyError, IndexError, ValueError):
        return answer


def cause_words(did):
    """The sentence of the certificate."""
    goes = f"The display goes from console {did['from']} to console {did['to']}"
    if did["cause"] == "free":
        return f"{goes}: console {did['from']} had no owner."
    how = "lets it go" if did["cause"] == "released" else "dies"
    return f"{goes}: {did['owner']} {how}, after entry {did['asked']} raised signal {did['signal']} to it."


def did_words(dids):
    """A sentence for each thing that an entry did."""
    for place, did in enumerate(dids):
        following = dids[place + 1] if place + 1 < len(dids) else {"what": "nothing"}
        if did["what"] == "request":
            is_heard = following["what"] in ("signal", "switch")
            yield f"{did['caller']} requests console {did['console']}{'.' if is_heard else ', without effect.'}"
        elif did["what"] == "signal":
            yield f"Signal {did['signal']} is raised to {did['to']}."
        elif did["what"] == "switch":
            yield cause_words(did)
        elif did["what"] == "end":
            yield f"{did['caller']} ends."
        elif did["how"] == "ok":
            yield f"The wait of {did['caller']} ends: it has what it waited for."
        elif did["how"] == "gone":
            yield f"The wait of {did['caller']} ends with it."
        else:
            yield f"The wait of {did['caller']} ends: EINTR."


def owners_of(entry):
    return {owned["console"]: owned["owner"] for owned in entry["owners"]}


def owner_words(before, now):
    """A sentence for each console that has another owner than before."""
    for console in sorted(before.keys() | now.keys()):
        if before.get(console) != now.get(console):
            yield f"{now[console]} owns console {console}." if console in now else f"Console {console} has no owner."


def display_words(entry, owners):
    """Which console is in front after an entry, and which one is pending."""
    owner = owners.get(entry["front"], "nobody")
    words = f"In front: console {entry['front']}, owned by {owner}."
    if entry["pending"]:
        words += f" Pending: console {entry['pending']['console']}, since entry {entry['pending']['since']}."
    return words


def entry_line(entry):
    """The line of the journal."""
    return f"{entry['caller']} {entry['count']} {entry['call']} = {entry['answer']}"


def texts(entries):
    """For each entry its line and the sentences below it; owners and display only if they changed."""
    owners, owned, display = {}, [], None
    for entry in entries:
        answer = answer_words(entry["call"].split(" ")[0], entry["answer"], entry["error"])
        lines = [f"{call_words(entry['call'])}. Answer: {answer}."]
        lines += did_words(entry["did"])
        if entry["owners"] != owned:
            lines += owner_words(owners, owners_of(entry))
            owners, owned = owners_of(entry), entry["owners"]
        words = display_words(entry, owners)
        if words != display:
            lines.append(words)
        display = words
        yield entry_line(entry), lines
