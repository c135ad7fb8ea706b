"""Cases of text: characters of one, two and no columns, malformed UTF-8, and bytes through the four tables."""
from .forms import Case, paragraph
from .sequences import CONTROL, SETS

ROWS, COLUMNS = 3, 20
WIDTHS = "the columns of characters"
MALFORMED = "malformed UTF-8"
# The page names the VT100 graphics, and none of their characters.
OWN_TABLES = {"0": "the tables' characters"}

# Each text: its name, its bytes, and the own rule that decides.
UTF_8 = [
    ("two-bytes", "aé߿b".encode(), ""), ("three-bytes", "a€╬b".encode(), ""), ("four-bytes", "a𐍈b".encode(), WIDTHS),
    ("wide", "a中文b".encode(), WIDTHS), ("emoji", "a🙂b".encode(), WIDTHS), ("combining", "ae\u0301b".encode(), WIDTHS),
    ("zero-width-space", "a\u200bb".encode(), WIDTHS), ("soft-hyphen", "a\u00adb".encode(), WIDTHS),
    ("no-break-space", "a\u00a0b".encode(), ""), ("replacement", "a\ufffdb".encode(), ""),
    ("not-a-character", "a\uffffb".encode(), WIDTHS), ("next-line", "a\u0085b".encode(), "U+0080 to U+009F"),
    ("wide-at-the-end", "\x1b[1;20H中x".encode(), WIDTHS),
    ("wide-without-wrap", "\x1b[?7l\x1b[1;20H中x".encode(), WIDTHS),
    ("wide-over-its-left-half", "中文\x1b[1;1Hx".encode(), WIDTHS),
    ("wide-over-its-right-half", "中文\x1b[1;2Hx".encode(), WIDTHS),
    ("wide-over-two-halves", "中文\x1b[1;2H字x".encode(), WIDTHS),
    ("wide-in-insert-mode", "abc\x1b[4h\x1b[1;2H中x".encode(), WIDTHS),
    ("full-row", b"0123456789abcdefghij", "the pending wrap"),
    ("full-row-and-one", b"0123456789abcdefghijk", "the pending wrap"),
    ("full-row-and-line-feed", b"0123456789abcdefghij\nk", "the pending wrap"),
    ("full-row-and-return", b"0123456789abcdefghij\r\nk", "the pending wrap"),
    ("full-row-and-tab", b"0123456789abcdefghij\tk", "the pending wrap"),
    ("full-row-and-backspace", b"0123456789abcdefghij\bk", "the pending wrap"),
    ("lone-continuation", b"a\x80b", MALFORMED),
    ("overlong", b"a\xc0\xafb", MALFORMED), ("cut-by-text", b"a\xe4\xb8b", MALFORMED),
    ("cut-by-escape", b"a\xe4\xb8\x1b[2Cb", MALFORMED),
    ("cut-by-control", b"a\xe4\xb8\x08b", MALFORMED), ("surrogate", b"a\xed\xa0\x80b", MALFORMED),
    ("above-the-last", b"a\xf4\x90\x80\x80b", MALFORMED),
    ("byte-ff", b"a\xffb", MALFORMED), ("unfinished", b"ab\xe4\xb8", MALFORMED),
]  # fmt: skip

UNFINISHED = [
    ("escape", b"ab\x1b"), ("control-sequence", b"ab\x1b[3"), ("string", b"ab\x1b]0;title"), ("palette", b"ab\x1b]P12"),
    ("designation", b"ab\x1b("), ("private", b"ab\x1b[?2"),
]  # fmt: skip

LIMITS = [
    ("saturated", b"ab\x1b[70000Dx", "numbers above 65,535"),
    ("modulo-two-to-the-32", b"ab\x1b[4294967298Cx", "numbers above 65,535"),
    ("16-parameters", b"\x1b[" + b"1;" * 15 + b"31mx", ""),
    ("17-parameters", b"\x1b[" + b"1;" * 16 + b"31mx", "over 16 parameters"),
    ("256-bytes", b"\x1b[" + b"0" * 252 + b"3Cx", "at most 256 bytes"),
    ("257-bytes", b"\x1b[" + b"0" * 255 + b"3Cx", "at most 256 bytes"),
    ("intermediate", b"ab\x1b[2 Cx", "other sequences do nothing"),
    ("greater-than", b"ab\x1b[>2Cx", "other sequences do nothing"),
    ("late-question-mark", b"ab\x1b[2?Cx", "other sequences do nothing"),
]  # fmt: skip

BYTES = [bytes(range(at, at + 16)) for at in range(0x20, 0x100, 16)]
TEXTS = [data for _name, data, _own in UTF_8] + [b"abc", b"0123456789abcdef", b"\r\n", b"\n"]


def table_cases():
    """Each of the four tables, as G0 in text that isn't UTF-8, sixteen bytes a case; DEL does nothing."""
    for name in "B0UK":
        for row in BYTES:
            data = b"\x1b%@\x1b(" + name.encode() + row.replace(b"\x7f", b"").replace(b"\x9b", b"")
            rules = paragraph(f"console_codes(4), {SETS}, ESC ( {name}", OWN_TABLES.get(name))
            yield Case(f"table-{name}/{row[0]:02x}", rules, ROWS, COLUMNS, data)


def cases():
    """All of them."""
    for name, data, own in UTF_8:
        yield Case(f"text/{name}", paragraph("console_codes(4), DESCRIPTION, UTF-8 mode", own), ROWS, COLUMNS, data)
    for name, data in UNFINISHED:
        yield Case(f"unfinished/{name}", f"console_codes(4), {CONTROL}, ESC", ROWS, COLUMNS, data)
    for name, data, own in LIMITS:
        rules = paragraph("console_codes(4), ECMA-48 CSI sequences, CSI", own)
        yield Case(f"limits/{name}", rules, ROWS, COLUMNS, data)
    yield from table_cases()
