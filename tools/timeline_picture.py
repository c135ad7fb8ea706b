"""The drawing of a timeline as a file of SVG that needs no page: for documents, and for renderers that know no
variables of CSS."""
import colorsys
import html
import re

from timeline_drawing import DEFINITIONS, NAMES
from timeline_page import counts, own_text

MARGIN = 6
HUE = re.compile(r'style="--hue:(\d+)"')


def variables():
    """The colours of the page on paper: those of the first rule of its style."""
    rule = own_text("timeline.css").split("}")[0]
    return dict(re.findall(r"--([\w-]+): ([^;]+);", rule))


def colour_of(hue, lightness):
    """A colour of an owner, as the style has it: hsl(HUE 60% LIGHTNESS)."""
    parts = colorsys.hls_to_rgb(int(hue) / 360, int(lightness.rstrip("%")) / 100, 0.6)
    return "#" + "".join(f"{round(part * 255):02x}" for part in parts)


def picture(title, drawing):
    """The whole file."""
    known = variables()

    def owned(match):
        fill, stroke = (colour_of(match[1], known[name]) for name in ("light", "edge"))
        return f'style="fill:{fill};stroke:{stroke}"'

    drawn = f'<g>\n{drawing.names()}\n</g>\n<g transform="translate({NAMES} 0)">\n{drawing.layers()}\n</g>'
    drawn = HUE.sub(owned, re.sub(r' data-entry="\d+"', "", drawn))
    rules = [line for line in own_text("timeline_drawing.css").splitlines() if "--hue" not in line]
    style = re.sub(r"var\(--([\w-]+)\)", lambda match: known[match[1]], "\n".join(rules))
    width, height = NAMES + drawing.width + MARGIN, drawing.height + MARGIN
    return f"""<svg xmlns="http://www.w3.org/2000/svg" width="{width}" height="{height}">
<title>{html.escape(title)}</title>
<desc>{counts(drawing.entries, drawing)}</desc>
<style>
{style}
</style>
{DEFINITIONS}
<rect width="{width}" height="{height}" fill="{known['paper']}"/>
{drawn}
</svg>
"""
