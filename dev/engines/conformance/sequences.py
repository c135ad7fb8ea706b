"""The table of sequences: each row of console_codes(4), with its paragraph and what shows its effect.

`own` names the rule of docs/reference/screen.md that decides where the page is silent.
"""
import re
from dataclasses import dataclass

CONTROL = "Control characters"
ESCAPE = "ESC- but not CSI-sequences"
CSI = "ECMA-48 CSI sequences"
SGR = "ECMA-48 Select Graphic Rendition"
MODES = "ECMA-48 Mode Switches"
STATUS = "ECMA-48 Status Report Commands"
PRIVATE = "DEC Private Mode (DECSET/DECRST) sequences"
LINUX = "Linux Console Private CSI Sequences"
SETS = "Character sets"
OTHERS = "Comparisons with other terminals"

# Sequences that change more of the machine than their console: the blanking of all of them, and which is in front.
MACHINE_WIDE = re.compile(rb"\x1b\[(9|12|13|14|15)(;[0-9]*)*\]")

# Which of a region's rows the cursor stands in before the sequence.
FIRST, MIDDLE, LAST = 0, 1, 2


@dataclass(frozen=True)
class Sequence:
    """A sequence: its name, its part and paragraph, its bytes, what is written before it and after it."""

    name: str
    part: str
    paragraph: str
    data: bytes
    before: bytes = b""
    probe: bytes = b"x"
    own: str = ""
    at: int = MIDDLE

    @property
    def of_page(self):
        """The part and the paragraph of the manual page."""
        return f"console_codes(4), {self.part}, {self.paragraph}"


@dataclass(frozen=True)
class Numeric:
    """A control sequence with numbers: its final byte, and how far its numbers go."""

    name: str
    final: str
    greatest: str
    middle: str = "3"
    above: str = "9999"
    part: str = CSI
    before: bytes = b""
    probe: bytes = b"x"
    own: str = ""
    at: int = MIDDLE

    def forms(self):
        """Each class of parameters, and a text of it."""
        two = ";" in self.middle
        missing = ";" + self.middle.split(";")[-1]
        zero, one = ("0;0", "1;1") if two else ("0", "1")
        return {
            "none": "", "0": zero, "1": one, "middle": self.middle, "greatest": self.greatest, "above": self.above,
            "missing": missing, "many": self.middle + ";1" * 18,
        }  # fmt: skip

    def sequence(self, numbers):
        """The sequence with these numbers."""
        data = f"\x1b[{numbers}{self.final}".encode()
        return Sequence(self.name, self.part, self.name, data, self.before, self.probe, self.own, self.at)


KEPT_COLUMN = "the cursor keeps its column"
REGION_PROBE = b"x\x1b[4;1H\nv\x1b[6;3H\nw"

NUMERIC = [
    Numeric("ICH", "@", "12"), Numeric("CUU", "A", "6"), Numeric("CUD", "B", "6"), Numeric("CUF", "C", "12"),
    Numeric("CUB", "D", "12"), Numeric("CNL", "E", "6"), Numeric("CPL", "F", "6"), Numeric("CHA", "G", "12"),
    Numeric("CUP", "H", "6;12", "3;7", "9999;9999"), Numeric("ED", "J", "3", "2", "4"),
    Numeric("EL", "K", "2", "2", "3"),
    Numeric("IL", "L", "6", own=KEPT_COLUMN), Numeric("DL", "M", "6", own=KEPT_COLUMN), Numeric("DCH", "P", "12"),
    Numeric("ECH", "X", "12"), Numeric("HPR", "a", "12"), Numeric("VPA", "d", "6"), Numeric("VPR", "e", "6"),
    Numeric("HVP", "f", "6;12", "3;7", "9999;9999"),
    Numeric("TBC", "g", "3", "2", "4", before=b"\x1b[9G", probe=b"\r\tx\ty"),
    Numeric("DECSTBM", "r", "1;6", "2;4", "2;9999", probe=REGION_PROBE), Numeric("HPA", "`", "12"),
]  # fmt: skip

ESC = b"\x1b"
SHIFTS = "what SO and SI do beside"
STRINGS = "strings"
G0_PROBE = b"q\x1b%@q\xe9\x1b%G"
G1_PROBE = b"\x0eq\x0fq"


def control(name, byte, probe=b"x", own="", at=MIDDLE):
    """A control character."""
    return Sequence(name, CONTROL, name, byte, b"", probe, own, at)


def escape(name, paragraph, data, probe=b"x", before=b"", own="", at=MIDDLE, part=ESCAPE):
    """An escape sequence, without its ESC."""
    return Sequence(name, part, paragraph, ESC + data, before, probe, own, at)


CONTROLS = [
    control("NUL", b"\0"), control("BEL", b"\a"), control("BS", b"\b"), control("HT", b"\t"),
    control("LF", b"\n", at=LAST),
    control("VT", b"\v", at=LAST), control("FF", b"\f", at=LAST), control("CR", b"\r"),
    control("SO", b"\x0e", b"q", SHIFTS),
    control("SI", b"\x0f", b"q", SHIFTS), control("CAN", b"\x18"), control("SUB", b"\x1a"), control("DEL", b"\x7f"),
    Sequence("CSI", CONTROL, "CSI", b"\xc2\x9b2C"), Sequence("ESC", CONTROL, "ESC", b"\x1b\x1b[2C"),
]  # fmt: skip

ESCAPES = [
    escape("RIS", "ESC c", b"c", own="what a reset keeps"), escape("IND", "ESC D", b"D", at=LAST),
    escape("NEL", "ESC E", b"E", at=LAST), escape("HTS", "ESC H", b"H", b"\r\tx"),
    escape("RI", "ESC M", b"M", at=FIRST),
    escape("DECID", "ESC Z", b"Z"), escape("DECSC", "ESC 7", b"7", b"\x1b[2;2H\x1b[31mk\x1b8x"),
    escape("DECRC", "ESC 8", b"8", before=b"\x1b7\x1b[2;2H\x1b[32m"), escape("byte-text", "ESC % @", b"%@", b"\xe9x"),
    escape("utf8-text", "ESC % G", b"%G", "é中x".encode(), b"\x1b%@"),
    escape("utf8-text-8", "ESC % 8", b"%8", "é中x".encode(), b"\x1b%@"), escape("DECALN", "ESC # 8", b"#8"),
    *(escape(f"G0-{f}", f"ESC ( {f}", f"({f}".encode(), G0_PROBE) for f in "B0UK"),
    *(escape(f"G1-{f}", "ESC )", f"){f}".encode(), G1_PROBE) for f in "B0UK"),
    escape("G0-other", "ESC (", b"(A", G0_PROBE, own="other tables do nothing"),
    escape("DECPNM", "ESC >", b">"), escape("DECPAM", "ESC =", b"="), escape("palette-reset", "ESC ] R", b"]R"),
    escape("palette-set", "ESC ] P", b"]P1aa5500"), escape("OSC", "ESC ]", b"]0;title\a", own=STRINGS),
    escape("OSC-ST", "ESC ]", b"]2;title\x1b\\", own=STRINGS),
    escape("DCS", "ESC P", b"P1$rab\x1b\\", own=STRINGS, part=OTHERS),
    escape("SOS", "ESC X", b"Xab\x1b\\", own=STRINGS, part=OTHERS),
    escape("PM", "ESC ^", b"^ab\x1b\\", own=STRINGS, part=OTHERS),
    escape("APC", "ESC _", b"_ab\x1b\\", own=STRINGS, part=OTHERS),
    escape("SS2", "ESC N", b"N", own="other sequences do nothing", part=OTHERS),
    escape("G2-0", "ESC * ...", b"*0", own="intermediate bytes", part=OTHERS),
]  # fmt: skip

WRAPS = b"\x1b[4;10Huvwxyz"
ORIGIN = b"\x1b[1;1Hu\x1b[9;1Hv"
NO_COLUMNS = "DECCOLM does nothing"

# Each mode: its name, its part, its number, what is written before it and after it, and the own rule.
MODE_ROWS = [
    ("DECCRM", MODES, "3", b"", b"x", ""), ("IRM", MODES, "4", b"", b"xy", ""), ("LNM", MODES, "20", b"", b"\nx", ""),
    ("DECCKM", PRIVATE, "?1", b"", b"x", ""), ("DECCOLM", PRIVATE, "?3", b"", b"x", NO_COLUMNS),
    ("DECSCNM", PRIVATE, "?5", b"", b"x", ""), ("DECOM", PRIVATE, "?6", b"\x1b[2;5r", ORIGIN, ""),
    ("DECAWM", PRIVATE, "?7", b"", WRAPS, ""), ("DECARM", PRIVATE, "?8", b"", b"x", ""),
    ("X10-mouse", PRIVATE, "?9", b"", b"x", "no mouse"), ("DECTECM", PRIVATE, "?25", b"", b"x", ""),
    ("X11-mouse", PRIVATE, "?1000", b"", b"x", "no mouse"),
]  # fmt: skip


def switched(row):
    """Both sequences of a mode: set, and reset."""
    name, part, number, before, probe, own = row
    for kind, final in (("set", "h"), ("reset", "l")):
        paragraph = f"ESC [ {number.replace('?', '? ')} h"
        yield Sequence(f"{name}-{kind}", part, paragraph, f"\x1b[{number}{final}".encode(), before, probe, own)


SWITCHES = [sequence for row in MODE_ROWS for sequence in switched(row)]


def csi(name, part, paragraph, data, probe=b"x", before=b"", own=""):
    """A control sequence, without its introducer."""
    return Sequence(name, part, paragraph, b"\x1b[" + data, before, probe, own)


SILENT = "what makes no difference on a screen"
REST = [
    csi("SCOSC", CSI, "s", b"s", b"\x1b[2;2H\x1b[31mk\x1b[ux"),
    csi("SCORC", CSI, "u", b"u", before=b"\x1b[s\x1b[2;2H\x1b[32m"),
    csi("DA", CSI, "DA", b"c"), csi("DA-0", CSI, "DA", b"0c"), csi("DSR", STATUS, "ESC [ 5 n", b"5n"),
    csi("CPR", STATUS, "ESC [ 6 n", b"6n"), *(csi(f"DECLL-{n}", CSI, "DECLL", f"{n}q".encode()) for n in range(4)),
    csi("underline-colour", LINUX, "ESC [ 1 ; n ]", b"1;9]", b"\x1b[4mu\x1b[24mx"),
    csi("dim-colour", LINUX, "ESC [ 2 ; n ]", b"2;9]", b"\x1b[2mu\x1b[22mx"),
    csi("default-pair", LINUX, "ESC [ 8 ]", b"8]", b"x\x1b[0my\x1b[Kz", b"\x1b[32;44m"),
    csi("blank-time", LINUX, "ESC [ 9 ; n ]", b"9;5]", own=SILENT),
    csi("bell-pitch", LINUX, "ESC [ 10 ; n ]", b"10;440]", own=SILENT),
    csi("bell-length", LINUX, "ESC [ 11 ; n ]", b"11;100]", own=SILENT),
    csi("console", LINUX, "ESC [ 12 ; n ]", b"12;1]"),
    csi("unblank", LINUX, "ESC [ 13 ]", b"13]", own=SILENT),
    csi("powerdown", LINUX, "ESC [ 14 ; n ]", b"14;5]", own=SILENT),
    csi("previous-console", LINUX, "ESC [ 15 ]", b"15]"),
    csi("cursor-blink", LINUX, "ESC [ 16 ; n ]", b"16;200]", own=SILENT),
    csi("function-key", CSI, "CSI [", b"[A"), csi("other-final", CSI, "CSI", b"3y", own="other sequences do nothing"),
]  # fmt: skip

PLAIN = [*CONTROLS, *ESCAPES, *SWITCHES, *REST]
