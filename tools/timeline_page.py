"""The page of a timeline: one text of HTML with its drawing, style and script, and no reference to the outside."""
import html
import pathlib

from timeline_drawing import CIRCLE, DEFINITIONS, LANE, LANES, LEFT, LETTERS, NAMES, STEP, Drawing, is_refused
from timeline_screens import final_screens
from timeline_words import texts

HERE = pathlib.Path(__file__).resolve().parent
# The two colours of text that nothing coloured: the page's style has them.
PLAIN = "#aaaaaa", "#000000"


def own_text(name):
    """The text of a file beside this one."""
    return (HERE / name).read_text(encoding="utf-8")


def legend():
    """The signs of the drawing in words."""
    rows = [
        ('<circle class="mark done" cx="10" cy="10" r="3"/>', "a call"),
        (f'<path class="mark done" d="M2 10{CIRCLE}{LETTERS["reldisp"]}"/>',
         "a call that matters for switches: A activate, R reldisp, M setmode, G setkd, L lock, U unlock, K kill, "
         "D disallocate, X exit"),
        ('<path class="mark refused" d="M6 6l8 8m0-8l-8 8"/>', "a refused call"),
        ('<path class="bar ok" d="M2 6H18v8H2zM18 3v14"/>', "a wait that ends with success"),
        ('<path class="bar EINTR" d="M2 6H14v8H2zM10 5l8 10m0-10l-8 10"/>', "a wait that ends with EINTR"),
        ('<path class="raised" d="M6 7h8l-4 7z"/>', "a signal, with its number"),
        ('<path class="over" d="M10 3v14"/>', "the caller ends"),
        ('<rect class="front owned" style="--hue:138" x="1" y="3" width="18" height="14"/>',
         "the display: the console in front, in the colour of its owner"),
        ('<rect class="pending" x="1" y="3" width="18" height="14"/>', "a console is pending"),
        ('<path class="arrow request" d="M1 10H18"/>', "from a call to the signal that it raises"),
        ('<path class="arrow release" d="M1 10H18"/>', "from a release signal to the release or death that answers it"),
        ('<path class="arrow switch" d="M1 10H18"/>', "to the display that goes; from it to an acquire signal"),
    ]  # fmt: skip
    items = [f'<li><svg width="20" height="20" aria-hidden="true">{sign}</svg> {words}</li>' for sign, words in rows]
    return "<ul class=\"legend\">\n" + "\n".join(items) + "\n</ul>"


def row_html(row, runs):
    """A row of a screen, in its colours if there are any."""
    if runs is None:
        return html.escape(row, quote=False)
    made = []
    for run in runs:
        text = html.escape(run.letters, quote=False)
        bold = ' class="bold"' if run.is_bold else ""
        is_plain = (run.ink, run.ground) == PLAIN and not run.is_bold
        made.append(text if is_plain else f'<span{bold} style="color:{run.ink};background:{run.ground}">{text}</span>')
    return "".join(made)


def screen_html(screen, runs):
    """A heading and a text for a screen."""
    words = f"{screen.height} rows and {screen.width} columns; the cursor is in row {screen.y + 1} and column {screen.x + 1}"
    words += f"; BELs: {screen.bells}" if screen.bells else ""
    words += "" if runs else "; its colours aren't known"
    rows = [row_html(row, runs and runs[place]) for place, row in enumerate(screen.rows)]
    name = f"Console {screen.number}"
    return f"<h3>{name}</h3>\n<p>{words}.</p>\n<pre class=\"screen\">" + "\n".join(rows) + "</pre>"


def screens(final, colours):
    """The final text: the screens of all consoles."""
    made = [screen_html(screen, colours.get(screen.number)) for screen in final_screens(final)]
    return "\n".join(made) or "<p>There is none.</p>"


def entries_text(entries):
    """All entries with their sentences, as the script reads them."""
    lines = []
    for place, (line, sentences) in enumerate(texts(entries)):
        lines.append(f"{place}: {line}")
        lines += [f"    {sentence}" for sentence in sentences]
    return html.escape("\n".join(lines), quote=False)


def counts(entries, drawing):
    """What the session has, in a sentence."""
    switches = sum(did["what"] == "switch" for entry in entries for did in entry["did"])
    refused = sum(map(is_refused, entries))
    return f"{len(entries)} entries of {len(drawing.callers)} callers; switches: {switches}; refused calls: {refused}."


def page(title, entries, final, colours):
    """The whole page; for each console the runs of its rows, if their colours are known."""
    drawing = Drawing(entries)
    style, drawn, script = (own_text(f"timeline{end}") for end in (".css", "_drawing.css", ".js"))
    title = html.escape(title)
    last = max(len(entries) - 1, 0)
    return f"""<!doctype html>
<html lang="en">
<head>
<meta charset="utf-8">
<meta name="viewport" content="width=device-width">
<title>{title}</title>
<style>
{drawn}{style}</style>
</head>
<body>
<h1>{title}</h1>
<p>{counts(entries, drawing)} Entries are counted from 0, and time goes to the right.</p>
<p id="help">Point at a column, or use the keys: left and right for the entry before and after, up and down for those of
the same caller, Page Up and Page Down for the switch before and after, Home and End.</p>
<svg width="0" height="0" aria-hidden="true" class="definitions">{DEFINITIONS}</svg>
<div id="view" tabindex="0" role="slider" aria-label="Entry" aria-describedby="help" aria-valuemin="0"
 aria-valuemax="{last}" aria-valuenow="0" data-step="{STEP}" data-left="{LEFT}" data-names="{NAMES}"
 data-lanes="{LANES + 12}" data-lane="{LANE}" data-callers="{' '.join(drawing.callers)}">
{drawing.svg()}
</div>
<div id="panel" aria-hidden="true">Point at a column.</div>
{drawing.strips()}
<h2>The signs</h2>
{legend()}
<h2>The screens at the end</h2>
{screens(final, colours)}
<h2>All entries</h2>
<pre id="entries" tabindex="0" aria-label="All entries">{entries_text(entries)}</pre>
<script>
{script}</script>
</body>
</html>
"""
