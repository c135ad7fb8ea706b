"""A page of the cases that differ, whole in itself: bytes in words, the paragraph, the screens in their colours."""
import unicodedata
from html import escape
from itertools import groupby

from .compare import DIFFERING, KINDS, LINUX, counts_of, groups_of
from .judge import PLAIN
from .vcs import ALONE, is_wide
from .words import bytes_of, in_words, part_in_words

# The colours of an attribute byte on a VGA, and its bright ones.
COLOURS = "000 00a 0a0 0aa a00 a0a a50 aaa 555 55f 5f5 5ff f55 f5f ff5 fff".split()
STYLE = """
body { font: 15px/1.45 sans-serif; max-width: 72em; margin: 2em auto; padding: 0 1em; color: #222; background: #fff }
table { border-collapse: collapse }
th, td { padding: .1em .8em; text-align: right; border-bottom: 1px solid #ddd }
th:first-child, td:first-child { text-align: left } section { margin: 2em 0; border-top: 2px solid #888 }
pre { background: #000; color: #aaa; padding: .5em; margin: .2em 1em .2em 0; vertical-align: top; line-height: 1.5 }
mark { color: inherit; background: none; outline: 2px solid #f4a; outline-offset: -1px }
u { text-decoration-color: #fc3; text-decoration-thickness: 3px } .k { font-style: italic }
figure { display: inline-block; margin: 0 } figcaption { font-weight: bold } code { overflow-wrap: anywhere }
"""
STYLE += "".join(f".f{n} {{ color: #{it} }} .b{n} {{ background: #{it} }}\n" for n, it in enumerate(COLOURS))
ABOUT = """<p>Cells that differ in character or attributes have a frame, the cursor's cell is underlined, and blinking
characters are slanted. A case that differs counts as linux if a Linux console has another value too in each part that
differs; otherwise as page if console_codes(4) or a standard decides it, and as own if a rule of vt's own does. If a
Linux console showed another screen, it is the third one.</p>"""


def cells_of(row, columns, has_joined):
    """The cells of a row: characters, nothing in the second cell of a wide one, blanks to its end.

    An engine's combining characters are in the cell before them; on a Linux console each has a cell.
    """
    cells = []
    for place, character in enumerate(row):
        is_alone = row[place + 1 : place + 2] == ALONE
        if has_joined and unicodedata.combining(character) and cells:
            cells[-1] += character
        elif character != ALONE:
            cells += [character, ""] if is_wide(character) and not is_alone else [character]
    return cells + [" "] * (columns - len(cells))


class Screen:
    """A screen of the page: its name, its cells, their attribute bytes and its cursor."""

    def __init__(self, name, after, case):
        self.name, self.cursor = name, after["cursor"]
        self.rows = [cells_of(row, case.columns, name != LINUX)[: case.columns] for row in after["text"]]
        self.pens = bytes_of(after["attributes"], case.rows, case.columns)

    def kind_of(self, y, x, other):
        """What decides how a cell is drawn: its pen, whether it differs from that of the other screen, the cursor."""
        differs = self.rows[y][x] != other.rows[y][x] or self.pens[y][x] != other.pens[y][x]
        return self.pens[y][x], differs, self.cursor == [y, x]

    def html(self, other):
        """The screen as HTML, with a frame around the cells that differ from those of the other one."""
        lines = []
        for y, row in enumerate(self.rows):
            runs = groupby(range(len(row)), key=lambda x, y=y: self.kind_of(y, x, other))
            lines.append("".join(drawn(*kind, [row[x] for x in places]) for kind, places in runs))
        rows = "\n".join(lines)
        return f"<figure><figcaption>{escape(self.name)}</figcaption><pre>{rows}</pre></figure>"


def drawn(byte, is_different, is_cursor, cells):
    """Cells of one kind as HTML."""
    shown = escape("".join(cell if cell.isprintable() else "?" for cell in cells))
    shown = f"<u>{shown}</u>" if is_cursor else shown
    if byte != PLAIN:
        blinks = " k" if byte >> 7 else ""
        shown = f'<span class="f{byte & 15} b{byte >> 4 & 7}{blinks}">{shown}</span>'
    return f"<mark>{shown}</mark>" if is_different else shown


def parts_of(result):
    """The parts that differ besides the text, in words."""
    for part in result.parts:
        if part != "text":
            for line in part_in_words(result.case, part, result.case.after[part], result.answer[part]):
                yield f"<p>{escape(line)}</p>"


def screens_of(engine, result):
    """The screens of a case: the wanted one, that of the engine, and that of Linux if it is another one."""
    case = result.case
    wanted = Screen("wanted", case.after, case)
    found = Screen(engine, {**case.after, **result.answer}, case)
    yield wanted.html(found)
    yield found.html(wanted)
    if case.linux and engine != LINUX:
        yield Screen(LINUX, {**case.after, **case.linux}, case).html(wanted)


def section(engine, result):
    """One differing case."""
    case = result.case
    made = [f"<section><h3>{escape(case.name)}: {escape(engine)}: {result.kind}</h3>"]
    made += [f"<p>{escape(case.paragraph)}</p>", f"<p><code>{escape(in_words(case))}</code></p>"]
    if result.fault:
        return "\n".join([*made, f"<p>{escape(result.fault)}</p></section>"])
    return "\n".join([*made, *screens_of(engine, result), *parts_of(result), "</section>"])


def summary(results, kinds):
    """The table of sequences and engines."""
    cases = [result.case for found in results.values() for result in found]
    others = "".join(f"<th>{kind}" for kind in kinds[1:])
    heads = "".join(f"<th>{escape(name)}: {kinds[0]}{others}" for name in results)
    rows = [f"<tr><th>sequence{heads}</tr>"]
    for group in [*groups_of(cases), "all"]:
        cells = ""
        for found in results.values():
            counts = counts_of([it for it in found if group in ("all", it.case.group)])
            cells += "".join(f"<td>{counts[kind]}" for kind in kinds)
        rows.append(f"<tr><td>{escape(group)}{cells}</tr>")
    return "<table>" + "\n".join(rows) + "</table>"


def html(results, kinds=KINDS):
    """The whole page."""
    sections = [section(name, it) for name, found in results.items() for it in found if it.kind in DIFFERING]
    head = f"<!DOCTYPE html><html lang=en><meta charset=utf-8><title>Engines beside vt</title><style>{STYLE}</style>"
    return "\n".join([head, "<h1>Engines beside vt</h1>", summary(results, kinds), ABOUT, *sections, "</html>"]) + "\n"
