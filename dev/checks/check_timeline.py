#!/usr/bin/env python3
"""Checks the page that tools/timeline.py writes, by Python's parser of HTML and, if it is installed, by Chromium.

usage: check_timeline.py [--watch PATH] [--vt PATH] [--browser PATH] [--time SECONDS]

The sessions of examples/switches and the tour, a generated one of 64 processes, and one without entries are watched and
drawn. In each page the marks, signals, waits and arrows are counted against the JSON; no attribute or style refers to
the outside, every element is closed, and each entry's text has its line, the name of its error, and the reason of its
switches. The screens at the end have the colours of console_codes(4). The pictures of pages are those of their
sessions. Chromium opens each page without a window and counts the same; no arrow goes through a number, and no label of
a pending console stands on hatching; its keys go through the entries, and aria-valuetext is the text of the entry;
pointing at a mark shows its entry. A page of 64 processes and 10,000 entries
has to be there within SECONDS by the browser's own clock, if SECONDS is given; otherwise the time is printed. Whatever
else the machine does, the browser's thread has to need less than two seconds of a processor for it. If Chromium isn't
installed, a line names these checks as skipped. No picture is kept. Inputs that aren't of the form have to be refused
by name, and damaged ones refused or drawn.

Prints a line for each fault and last 'N passed, M failed'. Ends with status 1 if one fails, 2 if a program is missing
or can't be run.
"""
import argparse
import collections
import html.parser
import json
import pathlib
import random
import re
import subprocess
import sys
import tempfile
import time
import xml.etree.ElementTree as ElementTree

sys.dont_write_bytecode = True
sys.path.insert(0, str(pathlib.Path(__file__).resolve().parents[1]))

from repository import TOP  # noqa: E402: after the folder that it stands in
from browser import Browser, installed  # noqa: E402
from check_hostile import mutated  # noqa: E402
from programs import find_for_check  # noqa: E402
from timeline_page import page  # noqa: E402
from timeline_screens import colours_of  # noqa: E402
from tool_files import Stop  # noqa: E402
from watch_json import read_watch  # noqa: E402

TOOL = TOP / "tools/timeline.py"
SECONDS, MOST_WORK = 120, 2
VOID = {"meta", "br", "hr", "img", "input", "link"}
REFERENCES = {"src", "href", "srcset", "action", "data", "poster", "background", "formaction", "ping", "cite"}
KINDS = ["mark", "raised", "bar", "arrow"]
LINE = '{"entry":0,"caller":"k0","count":0,"call":"exit","answer":"ok","error":null,"did":[],"front":1,"owners":[],'
LINE += '"pending":null,"waits":[]}\n'
END = '{"entries":1,"final":""}\n'
DIED = '{"what":"switch","from":1,"to":2,"cause":"died","owner":"p1","asked":0,"signal":10}'
# Inputs that are refused, and the message.
REFUSED = [
    ("", "line 1: wanted an object of `watch json`, found nothing"),
    ("\n", "line 1: no object of JSON"),
    (END[:-1], "line 1: it doesn't end with LF"),
    ("[]\n", "line 1: wanted an object, found []"),
    (LINE, "line 1: entries: it isn't there"),
    (END, "line 1: entries: wanted 0, found 1"),
    (LINE[:-2] + ',"at":0}\n' + END, "line 1: 'at': no such member"),
    (LINE + LINE + END, "line 2: entry: wanted 1, found 0"),
    (LINE.replace('"k0"', '"k4"') + END, "line 1: caller: wanted a caller, found 'k4'"),
    (LINE.replace('"k0"', "[]") + END, "line 1: caller: wanted a caller, found []"),
    (LINE.replace("null", '"E2BIG"', 1) + END, "line 1: error: wanted " + " or ".join(
        "EPERM ESRCH EINTR ENXIO EBADF EAGAIN EBUSY EINVAL ENOTTY".split()) + ", found 'E2BIG'"),
    (LINE.replace('"front":1', '"front":64') + END, "line 1: front: wanted a console, found 64"),
    (LINE.replace('"front":1', '"front":true') + END, "line 1: front: wanted a console, found True"),
    (LINE.replace('"did":[]', '"did":[{"what":"end"}]') + END, "line 1: did[0].caller: it isn't there"),
    (LINE.replace('"did":[]', '"did":[{"what":"ends"}]') + END,
     "line 1: did[0].what: wanted request or signal or switch or end or wait, found 'ends'"),
    (LINE.replace('"did":[]', f'"did":[{DIED}]') + END, "line 1: did[0].asked: entry 0 isn't before this one"),
    (LINE.replace('"pending":null', '"pending":{"console":2,"since":1}') + END,
     "line 1: pending.since: entry 1 isn't before this one"),
    (LINE.replace("exit", "exit\\u0007") + END, "line 1: call: wanted the words of a call, found 'exit\\x07'"),
    ("[" * 100000 + "\n", "line 1: no object of JSON"),
    ("\ud800\n", "line 1: wanted UTF-8"),
]  # fmt: skip


# The calls of a process on console 1, and the first row of the page's screen without its spaces at the end. The colours
# are those of console_codes(4): 170 for a part, and 85 and 255 in a bright colour. The palette has another red.
PALETTE = "0000000a0b0c00aa00aa55000000aaaa00aa00aaaaaaaaaa" + "555555ff555555ff55ffff555555ffff55ff55ffffffffff"
SCREENS = [
    (["say 0 plain <&>"], "plain &lt;&amp;&gt;"),
    (["say 0 \x1b[31mred\x1b[m and"], '<span style="color:#aa0000;background:#000000">red</span> and'),
    (["say 0 \x1b[1;33;44mbold"], '<span class="bold" style="color:#ffff55;background:#0000aa">bold</span>'),
    (["say 0 \x1b[7mturned"], '<span style="color:#000000;background:#aaaaaa">turned</span>'),
    (["say 0 \x1b[31m", "resize 0 3 12", "say 0 red"], '<span style="color:#aa0000;background:#000000">red</span>'),
    (["say 0 \x1b]P1123456\x1b[31mown"], '<span style="color:#123456;background:#000000">own</span>'),
    (["say 0 \x1b[31mred", f"setpal 0 {PALETTE}"], '<span style="color:#0a0b0c;background:#000000">red</span>'),
    (["say 0 \x1b[?5h\x1b[31mall"], '<span style="color:#000000;background:#aa0000">all</span>'),
    (["open 2", "say 1 \x1b[31mother", "close 1", "say 0 plain"], "plain"),
]  # fmt: skip
SPACES = re.compile(r"(<span[^>]*> +</span>| +)$")
UNKNOWN = "its colours aren't known"
# The pictures of pages, by their sessions.
STORED = {"docs/switch.svg": "two-servers", "docs/guide/released.svg": "released"}


class Check:
    """Counts what holds, and prints what doesn't."""

    def __init__(self):
        self.passed = self.failed = 0

    def holds(self, is_so, what):
        self.passed += bool(is_so)
        self.failed += not is_so
        if not is_so:
            print(f"failed: {what}")


class Page(html.parser.HTMLParser):
    """The elements of a page."""

    def __init__(self, text):
        super().__init__()
        self.open, self.faults, self.outside = [], [], []
        self.counts, self.marked = collections.Counter(), []
        self.texts = collections.defaultdict(str)
        self.feed(text)
        self.close()
        self.faults += [f"<{tag}> isn't closed" for tag, _ in self.open]

    def handle_starttag(self, tag, attrs):
        given = dict(attrs)
        if tag not in VOID:
            self.open.append((tag, given.get("id")))
        words = (given.get("class") or "").split()
        # The signs of the legend have no entry.
        if "data-entry" in given:
            self.counts.update(set(words) & set(KINDS))
            if "mark" in words:
                self.marked.append(int(given["data-entry"]))
        for name, value in attrs:
            refers = name in REFERENCES or name.startswith("on")
            if (refers and not re.fullmatch(r"#\w+", value or "")) or re.search(r"url\((?!#)", value or ""):
                self.outside.append(f"{tag} {name}={value}")

    def handle_startendtag(self, tag, attrs):
        self.handle_starttag(tag, attrs)
        if tag not in VOID:
            self.open.pop()

    def handle_endtag(self, tag):
        if not self.open or self.open[-1][0] != tag:
            self.faults.append(f"</{tag}> closes nothing")
        else:
            self.open.pop()

    def handle_data(self, data):
        if self.open:
            tag, name = next((it for it in reversed(self.open) if it[0] != "span"), self.open[-1])
            self.texts[name or tag] += data
            if tag in ("style", "script") and re.search(r"url\((?!#)|@import|https?:|fetch\(|import\b", data):
                self.outside.append(tag)


def wanted_counts(entries):
    """How many marks, signals, waits and arrows a session has. An arrow leads to each signal and to each switch, and
    one more to the release or death after a signal."""
    dids = [did for entry in entries for did in entry["did"]]
    signals = sum(did["what"] == "signal" for did in dids)
    switches = [did for did in dids if did["what"] == "switch"]
    arrows = signals + len(switches) + sum(did["cause"] != "free" for did in switches)
    waits = sum(entry["answer"] == "wait" for entry in entries)
    return {"mark": len(entries), "raised": signals, "bar": waits, "arrow": arrows}


def parts_of(text):
    """The text of all entries, entry by entry."""
    return [part for part in re.split(r"\n(?! )", text) if part]


def entry_fault(entry, part):
    """What is missing in an entry's text, or None."""
    words = f"{entry['entry']}: {entry['caller']} {entry['count']} {entry['call']} = {entry['answer']}"
    if part.split("\n")[0] != words:
        return f"{part.split(chr(10))[0]!r} isn't {words!r}"
    if entry["error"] and entry["error"] not in part:
        return f"entry {entry['entry']} has no {entry['error']}"
    for did in entry["did"]:
        if did["what"] == "switch":
            wanted = f"from console {did['from']} to console {did['to']}"
            asked = f"entry {did['asked']} raised signal {did['signal']}" if "asked" in did else "had no owner"
            if wanted not in part or asked not in part:
                return f"entry {entry['entry']} has no reason for its switch"
    return None


def check_page(check, name, entries, final, text):
    """What Python's parser finds in a page."""
    page = Page(text)
    check.holds(not page.faults, f"{name}: {page.faults[:3]}")
    check.holds(not page.outside, f"{name}: it refers to the outside: {page.outside[:3]}")
    found, wanted = {kind: page.counts[kind] for kind in KINDS}, wanted_counts(entries)
    check.holds(found == wanted, f"{name}: wanted {wanted}, found {found}")
    check.holds(sorted(page.marked) == list(range(len(entries))), f"{name}: an entry has no mark, or two")
    parts = parts_of(page.texts["entries"])
    faults = [why for entry, part in zip(entries, parts) if (why := entry_fault(entry, part))]
    check.holds(len(parts) == len(entries) and not faults, f"{name}: {len(parts)} texts, {faults[:1]}")
    rows = [line[1:-1] for line in final.split("\n") if line.startswith("|")]
    check.holds(page.texts["pre"].replace("\n", "") == "".join(rows), f"{name}: other screens")
    return parts


def run(command, given=b""):
    return subprocess.run(command, input=given, capture_output=True, timeout=SECONDS, check=False)


def check_refused(check):
    """Inputs that aren't of the form."""
    for given, wanted in REFUSED:
        ran = run([TOOL], given.encode(errors="surrogatepass"))
        found = ran.returncode, ran.stdout, ran.stderr.decode()
        check.holds(found == (1, b"", f"timeline.py: {wanted}\n"), f"{given[:60]!r}: wanted {wanted!r}, found {found}")
    for words, status in [("--no", 1), ("/no/such/file", 3), ("-o /no/such/file", 3), ("-o /dev/full", 3)]:
        ran = run([TOOL, *words.split()], (LINE + END).encode())
        is_line = re.fullmatch(rb"timeline\.py: [^\n]+\n", ran.stderr) is not None
        is_so = ran.returncode == status and is_line
        check.holds(is_so, f"{words}: status {ran.returncode}, {ran.stderr[:200]!r}")


def check_screens(check, args):
    """The colours of the screens at the end."""

    for calls, wanted in SCREENS:
        script = json.dumps(["open 1", *calls])
        session = f"rows = 2\ncols = 20\nconsoles = [1, 2]\n[[process]]\nhome = 1\nprivileged = true\nscript = {script}\n"
        drawn = run([TOOL, "--vt", args.vt], run([args.watch, "json"], session.encode()).stdout).stdout.decode()
        found = SPACES.sub("", drawn.partition('<pre class="screen">')[2].partition("\n")[0])
        check.holds(found == wanted, f"{calls}: wanted {wanted}, found {found}")
        check.holds(UNKNOWN not in drawn, f"{calls}: {UNKNOWN}")


def check_stored(check, args):
    """The pictures of pages."""
    for path, name in STORED.items():
        watched = run([args.watch, "json"], (TOP / f"examples/switches/{name}.toml").read_bytes())
        drawn = run([TOOL, "--svg", "--title", f"Timeline of {name}"], watched.stdout).stdout
        check.holds(drawn == (TOP / path).read_bytes(), f"{path} isn't the drawing of {name}")
        try:
            ElementTree.fromstring(drawn)
        except ElementTree.ParseError as fault:
            check.holds(False, f"{path} isn't well-formed: {fault}")
        outside = re.findall(rb"var\(|https?://(?!www.w3.org/2000/svg)|url\((?!#)", drawn)
        check.holds(not outside, f"{path} has variables, or refers to the outside: {outside[:3]}")


# How many numbers of signals an arrow goes through, and how many labels of pending consoles stand on hatching.
HIDDEN = """(() => { const all = (which) => [...document.querySelectorAll('#all ' + which)];
 const numbers = all('text.signal').map((text) => ({ box: text.getBBox(), foot: +text.getAttribute('y') }));
 const lines = numbers.length === 0 ? [] : all('path.arrow');
 const points = lines.flatMap((line) => Array.from({ length: Math.ceil(line.getTotalLength()) },
  (_, place) => line.getPointAtLength(place)));
 const hit = ({ box, foot }) => points.some((it) => it.x > box.x && it.x < box.x + box.width && it.y < foot && it.y > foot - 7);
 const plates = all('.plate').map((plate) => plate.getBBox());
 const bare = (box) => !plates.some((it) => it.x <= box.x && box.x + box.width <= it.x + it.width + 2);
 return [numbers.filter(hit).length, all('text.label.pending').map((text) => text.getBBox()).filter(bare).length]; })()"""
MARK = """(() => { const box = document.querySelector('.mark[data-entry="%d"]').getBoundingClientRect();
 return [box.x + box.width / 2, box.y + box.height / 2]; })()"""
PAINTED = "performance.getEntriesByType('paint').map((paint) => paint.startTime).concat(0).sort((a, b) => b - a)[0]"
LOADED = "performance.getEntriesByType('navigation')[0].loadEventEnd"


def check_drawn(check, browser, name, entries, parts, path):
    """A page in the browser; gives the processor's seconds for it, and those until it was there."""
    browser.ask("Performance.enable", timeDomain="threadTicks")
    browser.open(path.as_uri())
    while not (painted := browser.value(PAINTED)):
        time.sleep(0.02)
    there = max(painted, browser.value(LOADED)) / 1000
    metrics = {metric["name"]: metric["value"] for metric in browser.ask("Performance.getMetrics")["metrics"]}
    work = metrics["TaskDuration"]
    check.holds(work < MOST_WORK, f"{name}: the browser needs {work:.2f} s of a processor")
    for kind, wanted in wanted_counts(entries).items():
        found = browser.value(f"document.querySelectorAll('.{kind}[data-entry]').length")
        check.holds(found == wanted, f"{name}: the browser has {found} elements {kind}, not {wanted}")
    if not entries:
        return work, there
    if len(entries) < 1000:
        hidden = browser.value(HIDDEN)
        check.holds(hidden == [0, 0], f"{name}: numbers under arrows and labels on hatching: {hidden}")
    browser.value("document.getElementById('view').focus()")
    switches = [entry["entry"] for entry in entries if any(did["what"] == "switch" for did in entry["did"])]
    mine = [entry["entry"] for entry in entries if entry["caller"] == entries[0]["caller"]]
    steps = [("Home", 0), ("ArrowRight", min(1, len(entries) - 1)), ("Home", 0), ("ArrowDown", (mine + mine)[1])]
    steps += [("Home", 0), ("PageDown", next((place for place in switches if place), 0)), ("End", len(entries) - 1)]
    for key, wanted in steps:
        browser.key(key)
        found = browser.value("document.getElementById('view').getAttribute('aria-valuenow')")
        words = browser.value("document.getElementById('view').getAttribute('aria-valuetext')")
        lines = [line.strip() for line in parts[wanted].split("\n")]
        is_read = words is not None and words.startswith(". ".join(lines))
        check.holds(found == str(wanted) and is_read, f"{name}: after {key} it is entry {found}, not {wanted}: {words}")
    browser.key("Home")
    wanted = min(4, len(entries) - 1)
    browser.point(*browser.value(MARK % wanted))
    shown = browser.value("document.getElementById('panel').textContent").split("\n")
    lines = [line.strip() for line in parts[wanted].split("\n")]
    check.holds(shown[: len(lines)] == lines, f"{name}: pointing at the mark of entry {wanted} shows {shown}")
    return work, there


def changed(chance, given):
    """JSON with one to six callers, numbers or words in place of others: most of it is of the form, and not true."""
    parts = re.split(rb'("[kp]\d+"|"ok"|"EINTR"|"gone"|"wait"|null|(?<=:)\d+)', given)
    for _ in range(chance.randrange(1, 7)):
        place = chance.randrange(len(parts) // 2) * 2 + 1
        kind = re.sub(rb"\d+", b"", parts[place])
        parts[place] = chance.choice([part for part in parts[1::2] if re.sub(rb"\d+", b"", part) == kind])
        if chance.randrange(4) == 0:
            parts[place] = chance.choice([b'"p64"', b'"k3"', b'"wait"', b"0", b"1", b"63", b'"ok"', b"null"])
    return b"".join(parts)


def check_damaged(check, name, given, count):
    """Damaged JSON is refused by name, or drawn."""
    for number in range(count):
        chance = random.Random(f"{name} {number}")
        damaged = mutated(chance, given) if number % 2 else changed(chance, given)
        try:
            entries, final = read_watch(damaged)
            Page(page(name, entries, final, colours_of(None, entries, final)))
        except Stop as stop:
            check.holds(re.match(r"line \d+: ", str(stop)), f"{name}, damaged {number}: {stop}")
        except Exception as fault:  # noqa: BLE001: whatever it is, a user would see it
            check.holds(False, f"{name}, damaged {number}: {type(fault).__name__}: {fault}")
        else:
            check.holds(True, "")


def sessions():
    """The sessions that are drawn: names, and their texts."""
    for path in sorted((TOP / "examples/switches").glob("*.toml")):
        yield path.stem, path.read_bytes()
    yield "tour", (TOP / "examples/tour.toml").read_bytes()
    yield "no entries", b"events = 0\n"
    yield "64 processes", large()


def large():
    """A session of 64 processes and 10,000 entries: each console has an owner, and all ask for the display."""
    lines = [f"consoles = {list(range(1, 64))}", "events = 10000"]
    for number in range(1, 65):
        home = (number - 1) % 63 + 1
        script = [f"open {home}", "setmode 0 1 0 10 12 0"]
        for place in range(60):
            script += [f"activate 0 {(number * 7 + place * 11) % 63 + 1}", "reldisp 0 1", "reldisp 0 3"]
            script += ["waitsignal"] if place % 8 == number % 8 else []
        lines += ["[[process]]", f"home = {home}", "privileged = true", "hooks = ['10 disp 0 1', '12 disp 0 2']"]
        lines.append("script = [" + ", ".join(f"'{call}'" for call in script) + "]")
    return "\n".join(lines).encode()


def main():
    parser = argparse.ArgumentParser(description="Checks the page that tools/timeline.py writes.")
    parser.add_argument("--watch")
    parser.add_argument("--vt")
    parser.add_argument("--browser", default=installed())
    parser.add_argument("--time", type=float)
    args = parser.parse_args()
    args.watch, args.vt = (str(find_for_check(name, getattr(args, name))) for name in ("watch", "vt"))
    check = Check()
    check_refused(check)
    check_screens(check, args)
    check_stored(check, args)
    with tempfile.TemporaryDirectory() as folder:
        browser = Browser(args.browser, folder) if args.browser else None
        for name, session in sessions():
            watched = run([args.watch, "json"], session)
            check.holds(watched.returncode == 0, f"{name}: watch ends with status {watched.returncode}")
            entries, final = read_watch(watched.stdout)
            drawn = run([TOOL, "--title", name], watched.stdout)
            check.holds(drawn.returncode == 0 and not drawn.stderr, f"{name}: timeline.py: {drawn.stderr[-300:]!r}")
            parts = check_page(check, name, entries, final, drawn.stdout.decode())
            if len(entries) < 100:
                check_damaged(check, name, watched.stdout, 100)
            if browser:
                path = pathlib.Path(folder, f"{name.replace(' ', '-')}.html")
                path.write_bytes(drawn.stdout)
                work, there = check_drawn(check, browser, name, entries, parts, path)
        if browser:
            check.holds(args.time is None or there <= args.time, f"{name}: there after {there:.2f} s")
            print(f"{len(entries)} entries are there after {there:.2f} s, {work:.2f} s of a processor")
            browser.close()
        else:
            print("skipped: the pages in a browser: Chromium isn't installed")
    print(f"{check.passed} passed, {check.failed} failed")
    return 1 if check.failed else 0


if __name__ == "__main__":
    try:
        sys.exit(main())
    except (Stop, OSError, ValueError, LookupError, subprocess.SubprocessError) as fault:
        print(f"check_timeline.py: {fault}", file=sys.stderr)
        sys.exit(2)
