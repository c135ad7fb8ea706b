"""The drawing of a timeline in SVG.

The elements of class `mark` are the entries, one each, with the entry's number in `data-entry`; those of class `raised`
are the signals, those of class `arrow` the arrows, and those of class `bar` the waits.
"""
import collections

STEP, LEFT, NAMES = 26, 16, 64
AXIS, DISPLAY, PENDING, LANES, LANE = 14, 24, 52, 78, 32
STRIP, MOST_STRIPS = 38, 16
# In longer drawings the texts are fewer, since a browser needs long for texts.
MOST_TEXTS = 2_000
# The calls that matter for switches have a letter, drawn with strokes from the centre of its circle.
LETTERS = {
    "activate": "m-3 4l3-8l3 8m-1-3h-4", "reldisp": "m-2 4v-8h3q2 0 2 2t-2 2h-3m2 0l3 4",
    "setmode": "m-4 4v-8l4 5l4-5v8", "setkd": "m3-2q-1-2-3-2q-3 0-3 4t3 4q3 0 3-3h-3", "lock": "m-2-4v8h5",
    "unlock": "m-3-4v5q0 3 3 3t3-3v-5", "kill": "m-2-4v8m5-8l-5 5m2-2l3 5", "exit": "m-3-4l6 8m0-8l-6 8",
    "disallocate": "m-2-4v8h1q4 0 4-4t-4-4z",
}  # fmt: skip
CIRCLE = "a8 8 0 1 0 16 0a8 8 0 1 0-16 0m8 0"
# The heads of the two kinds of arrows, and the hatching of a pending console.
HEAD = """<marker id="%s" viewBox="0 0 8 8" refX="7" refY="4" markerWidth="9" markerHeight="9" markerUnits="userSpaceOnUse"
 orient="auto"><path class="head %s" d="M0 0L8 4L0 8z"/></marker>
"""
DEFINITIONS = f"""<defs>{HEAD % ("ask", "ask")}{HEAD % ("go", "go")}<pattern id="hatch" width="6" height="6"
 patternUnits="userSpaceOnUse" patternTransform="rotate(45)"><path class="hatch" d="M0 0V6"/></pattern></defs>"""


def order_of(caller):
    """Keyboards come first, and then processes."""
    return caller[0] == "p", int(caller[1:])


def hue_of(caller):
    """The hue of an owner: near numbers have hues far from each other."""
    return round(int(caller[1:]) * 137.508) % 360


def is_refused(entry):
    """An error that isn't that of a wait which ended (docs/reference/switching.md, "The law of refusals")."""
    return entry["error"] is not None and (entry["call"], entry["error"]) != ("waitend", "EINTR")


def x_of(place):
    return LEFT + place * STEP


class Drawing:
    """The elements of the drawing, layer by layer."""

    def __init__(self, entries):
        self.entries = entries
        self.count = len(entries)
        self.is_long = self.count > MOST_TEXTS
        named = {entry["caller"] for entry in entries}
        for entry in entries:
            for did in entry["did"]:
                named.update(did[key] for key in ("caller", "owner") if key in did)
                if did["what"] == "signal":
                    named.add(did["to"])
        self.callers = sorted(named, key=order_of)
        self.lane = {caller: place for place, caller in enumerate(self.callers)}
        self.width = x_of(self.count) + LEFT
        self.height = LANES + len(self.callers) * LANE + 4
        self.back, self.bars, self.arrows, self.marks = [], [], [], []
        self.raised = {}
        self.owned = set()
        self.axis()
        self.lives()
        self.display()
        self.pending()
        self.waits()
        for place, entry in enumerate(entries):
            self.mark(place, entry)
            self.effects(place, entry)

    def y_of(self, caller):
        return LANES + self.lane[caller] * LANE + 12

    def axis(self):
        for place in range(0, self.count, 20 if self.is_long else 5):
            self.back.append(f'<text class="number" x="{x_of(place)}" y="{AXIS - 3}">{place}</text>')
        for first in range(0, self.count, STRIP):
            places = range((first + 4) // 5 * 5, min(first + STRIP, self.count), 5)
            lines = "".join(f"M{x_of(place)} {AXIS}V{self.height}" for place in places)
            self.back.append(f'<path class="grid" d="{lines}"/>')

    def lives(self):
        """A line for each caller until it ends."""
        ends = {}
        for place, entry in enumerate(self.entries):
            for did in entry["did"]:
                if did["what"] == "end":
                    ends.setdefault(did["caller"], place)
        for caller in self.callers:
            y = self.y_of(caller)
            end = x_of(ends.get(caller, self.count))
            self.back.append(f'<path class="life" d="M0 {y}H{end}"/>')
            if caller in ends:
                self.marks.append(f'<path class="over" d="M{end + 9} {y - 7}v14"/>')

    def band(self, kind, first, last, words, owner=None):
        """A part of a band at the top: the entries from the first on, up to the last."""
        top, height = (DISPLAY, 24) if kind == "front" else (PENDING, 18)
        x, width = x_of(first), x_of(last) - x_of(first)
        colour = f' owned" style="--hue:{hue_of(owner)}' if owner else ""
        text = next((text for text in words if max(len(text) * 6.6 + 8, self.is_long * 3 * STEP) <= width), "")
        self.back.append(f'<rect class="{kind}{colour}" x="{x}" y="{top}" width="{width}" height="{height}"/>')
        room = int(len(text) * 6.6) + 6
        for start in self.label_places(first, last, room) if text else []:
            if kind == "pending":
                plate = f'x="{start - 4}" y="{top + 1}" width="{room}" height="{height - 2}"'
                self.back.append(f'<rect class="plate" {plate}/>')
            self.back.append(f'<text class="label {kind}" x="{start}" y="{top + height // 2 + 4}">{text}</text>')

    def label_places(self, first, last, room):
        """Where a label of a part stands: at its start, and again at the start of each strip."""
        end = x_of(first) + 5
        yield end
        for place in range((first // STRIP + 1) * STRIP, last, STRIP):
            start = x_of(place) - STEP // 2 + 5
            if start >= end + room and start + room <= x_of(last):
                end = start
                yield start

    def display(self):
        """Which console is in front, and its owner."""
        first, before = 0, None
        for place in range(self.count + 1):
            if place < self.count:
                entry = self.entries[place]
                owner = next((o["owner"] for o in entry["owners"] if o["console"] == entry["front"]), None)
                now = entry["front"], owner
            if before is not None and (place == self.count or now != before):
                front, owner = before
                who = f"console {front}, {owner}" if owner else f"console {front}, no owner"
                self.band("front", first, place, [who, f"{front}, {owner}" if owner else f"{front}", f"{front}"], owner)
                first = place
            before = now if place < self.count else None
            if before and before[1]:
                self.owned.add(before[1])

    def pending(self):
        """Which console is pending, and since when."""
        first, before = 0, None
        for place in range(self.count + 1):
            now = self.entries[place]["pending"] if place < self.count else None
            if before is not None and now != before:
                self.band("pending", first, place, [f"console {before['console']} pending", f"{before['console']}"])
            if now != before:
                first = place
            before = now

    def waits(self):
        """A bar for each wait, from the call that begins it to the entry in which it ends."""
        begun = {}
        for place, entry in enumerate(self.entries):
            if entry["answer"] == "wait":
                begun[entry["caller"]] = place
            for did in entry["did"]:
                if did["what"] == "wait" and did["caller"] in begun:
                    self.bar(did["caller"], begun.pop(did["caller"]), place, did["how"])
        for caller, first in begun.items():
            self.bar(caller, first, self.count, "open")

    def bar(self, caller, first, last, how):
        x, end, y = x_of(first), max(x_of(last), x_of(first) + 10), self.y_of(caller)
        cap = {"ok": "m0-7v14", "EINTR": "m-4-5l8 10m0-10l-8 10", "gone": "m0-7v14", "open": ""}[how]
        path = f"M{x} {y - 4}H{end}v8H{x}z" + (f"M{end} {y}{cap}" if cap else "")
        self.bars.append(f'<path class="bar {how}" data-entry="{first}" d="{path}"/>')

    def mark(self, place, entry):
        """The mark of an entry: a letter in a circle, a dot, or a cross if it was refused."""
        x, y = x_of(place), self.y_of(entry["caller"])
        name = entry["call"].split(" ")[0]
        kind = "refused" if is_refused(entry) else "wait" if entry["answer"] == "wait" else "done"
        given = f'class="mark {kind}" data-entry="{place}"'
        letter = LETTERS.get(name)
        if letter:
            cross = f"M{x - 8} {y + 8}l16-16" if kind == "refused" else ""
            self.marks.append(f'<path {given} d="M{x - 8} {y}{CIRCLE}{letter}{cross}"/>')
        elif kind == "refused":
            self.marks.append(f'<path {given} d="M{x - 4} {y - 4}l8 8m0-8l-8 8"/>')
        else:
            self.marks.append(f'<circle {given} cx="{x}" cy="{y}" r="{4 if kind == "wait" else 3}"/>')

    def arrow(self, kind, place, start, end, bend=0):
        (x, y), (to_x, to_y) = start, end
        path = f"M{x} {y}L{to_x} {to_y}"
        if bend:
            path = f"M{x} {y}C{x + bend} {y + 6} {to_x - bend} {to_y + 12} {to_x} {to_y}"
        self.arrows.append(f'<path class="arrow {kind}" data-entry="{place}" d="{path}"/>')

    def to_band(self, kind, place, caller):
        self.arrow(kind, place, (x_of(place), self.y_of(caller) - 9), (x_of(place), DISPLAY + 25))

    def effects(self, place, entry):
        """Signals and arrows."""
        before = None
        number = collections.Counter()
        for did in entry["did"]:
            if did["what"] == "signal":
                to = did["to"]
                is_acquire = before == "switch"
                x, y = x_of(place) + 20 * number[to] + 9 * is_acquire, self.y_of(to) + 13
                number[to] += 1
                self.raised[place, to, did["signal"]] = x, y
                self.marks.append(f'<path class="raised" data-entry="{place}" d="M{x - 4} {y - 3}h8l-4 7z"/>')
                if not self.is_long:
                    self.signal_number(x, y, did["signal"], is_acquire)
                self.signal_arrow(place, entry["caller"], to, x, y, is_acquire)
            elif did["what"] == "switch":
                self.switch_arrows(place, entry["caller"], did)
            before = did["what"]

    def signal_number(self, x, y, signal, is_acquire):
        """A signal's number stands where no arrow begins: the one to a release goes to the right."""
        kind, x = ("acquire", x + 6) if is_acquire else ("release", x - 6)
        self.marks.append(f'<text class="signal {kind}" x="{x}" y="{y + 5}">{signal}</text>')

    def signal_arrow(self, place, caller, to, x, y, is_acquire):
        if is_acquire:
            return self.arrow("acquire", place, (x, DISPLAY + 25), (x, y - 4))
        start = self.y_of(caller)
        if caller == to:
            return self.arrow("request", place, (x_of(place), start + 4), (x, y - 3))
        down = start < y
        return self.arrow("request", place, (x_of(place), start + (9 if down else -9)), (x, y - 4 if down else y + 5))

    def switch_arrows(self, place, caller, did):
        if did["cause"] == "free":
            return self.to_band("switch", place, caller)
        owner = did["owner"]
        start = self.raised.get((did["asked"], owner, did["signal"]))
        x, y = start or (x_of(did["asked"]), self.y_of(owner) + 13)
        self.arrow("release", place, (x + 5, y), (x_of(place) - 7, self.y_of(owner) + 6), 12)
        return self.to_band("switch", place, owner)

    def names(self):
        """The names of the lanes."""
        rows = [("display", DISPLAY + 16, None), ("pending", PENDING + 13, None)]
        rows += [(caller, self.y_of(caller) + 4, caller if caller in self.owned else None) for caller in self.callers]
        made = []
        for name, y, owner in rows:
            made.append(f'<text class="name" x="{NAMES - 8}" y="{y}">{name}</text>')
            if owner:
                colour = f'class="owned" style="--hue:{hue_of(owner)}"'
                made.append(f'<rect {colour} x="6" y="{y - 11}" width="12" height="14"/>')
        return "\n".join(made)

    def layers(self):
        """All elements of the drawing."""
        drawn = self.back + self.bars + self.arrows + self.marks
        # (a line's end between two elements is a node of its own)
        return "\n".join("".join(drawn[place : place + 20]) for place in range(0, len(drawn), 20))

    def svg(self):
        """The drawing, and beside it the names of its lanes."""
        return (
            f'<svg class="names" width="{NAMES}" height="{self.height}" aria-hidden="true"><g id="names">\n'
            f"{self.names()}\n</g></svg>\n"
            f'<svg class="drawing" width="{self.width}" height="{self.height}" aria-hidden="true">'
            f'<rect id="column" y="0" width="{STEP}" height="{self.height}" x="-100"/><g id="all">\n{self.layers()}\n</g>'
            f'<circle id="ring" r="11" cx="-100" cy="0"/></svg>'
        )

    def strips(self):
        """The drawing in strips as wide as a sheet of paper; none if they are too many."""
        if self.count > STRIP * MOST_STRIPS:
            return '<p class="strips">The drawing is too long for paper. The entries below have all of it.</p>'
        made = []
        for first in range(0, self.count, STRIP):
            left, width = x_of(first) - STEP // 2, STRIP * STEP
            made.append(
                f'<svg viewBox="0 0 {NAMES + width} {self.height}"><use href="#names"/><svg x="{NAMES}" y="0" '
                f'width="{width}" height="{self.height}" viewBox="{left} 0 {width} {self.height}"><use href="#all"/>'
                "</svg></svg>"
            )
        return '<section class="strips" aria-hidden="true">\n' + "\n".join(made) + "\n</section>"
