"""Cases of SGR: each number on a fresh pen, those that change a pen where everything is on, and the blanks of a pen."""
from .forms import Case, paragraph
from .sequences import SGR

ROWS, COLUMNS = 2, 10
FONT = ["10", "11", "12"]
ATTRIBUTES = ["", "0", *(str(n) for n in range(1, 10)), "13", "20", *(str(n) for n in range(21, 30))]
COLOURS = [*(str(n) for n in range(30, 38)), "39", *(str(n) for n in range(40, 48)), "49", "50"]
BRIGHT = [*(str(n) for n in range(90, 100)), *(str(n) for n in range(100, 109))]
SEVERAL = [
    "1;2", "2;1", "1;22", "3;4", "4;3", "2;4", "1;3;4", "5;7", "7;27", "31;0", "0;31", "31;1;44", ";31", "31;", "255",
    "1;1;1;1;31",
]  # fmt: skip
INDICES = [0, 1, 7, 8, 9, 15, 16, 21, 46, 52, 100, 196, 231, 232, 243, 255]
TRIPLES = [
    "0;0;0", "255;0;0", "0;128;0", "10;20;200", "85;85;85", "86;86;86", "170;170;170", "200;200;190", "127;127;128",
]  # fmt: skip
BROKEN = ["38", "38;5", "38;2;1;2", "38;1;31", "38;5;256", "38;2;256;0;0", "48;5", "48;1;31"]
EVERYTHING = b"\x1b[1;4;5;7;31;42m"
BLANKS = ["1", "2", "3", "4", "5", "7", "31", "42", "1;31;42", "7;31;42", "5;42", "38;5;9", "48;5;9", "97", "101"]

ORDER = "the order of an attribute byte"
FOLDING = "the folding of colours"
BROKEN_RULE = "38 and 48 without a whole form"
OF_ONE = {"4": "the colour for underline at the start", "21": "21 as 4"}
BLANK = "blanks have the pen's two colours alone"

WORDS = [*ATTRIBUTES, *FONT, *COLOURS, *BRIGHT, *SEVERAL, *(f"{w};5;{i}" for w in (38, 48) for i in INDICES)]


def case(group, words, state, *own, probe=b"x"):
    """A pen after these words, and a character drawn by it."""
    rules = paragraph(f"console_codes(4), {SGR}, {words.split(';')[0] or '0'}", *own)
    before = EVERYTHING if state == "everything-on" else b""
    data = before + b"ab\x1b[" + words.encode() + b"m" + probe
    return Case(f"{group}/{words or 'none'}/{state}", rules, ROWS, COLUMNS, data)


def cases():
    """All of them."""
    for words in ATTRIBUTES:
        yield case("SGR-attributes", words, "fresh", OF_ONE.get(words))
        yield case("SGR-attributes", words, "everything-on", ORDER)
    for words in FONT:
        yield case("SGR-font", words, "fresh")
    for words in COLOURS:
        yield case("SGR-colours", words, "fresh")
    for words in ("39", "49", "30", "40", "37", "47"):
        yield case("SGR-colours", words, "everything-on", ORDER)
    for words in BRIGHT:
        yield case("SGR-bright", words, "fresh", "bright colours")
    for words in SEVERAL:
        yield case("SGR-several", words, "fresh", *([ORDER] if set("234") & set(words.split(";")) else []))
    for which in ("38", "48"):
        for index in INDICES:
            yield case("SGR-256", f"{which};5;{index}", "fresh", FOLDING)
        for triple in TRIPLES:
            yield case("SGR-24-bit", f"{which};2;{triple}", "fresh", FOLDING)
    for words in BROKEN:
        yield case("SGR-broken", words, "fresh", BROKEN_RULE)
    for words in BLANKS:
        yield case("SGR-blanks", words, "fresh", BLANK, probe=b"\x1b[K")
