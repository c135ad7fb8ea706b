"""Texts with backslashes, as test files and key scripts have them.

`\\e` is ESC, `\\a` BEL, `\\b` BS, `\\t` HT, `\\n` LF, `\\f` FF, `\\r` CR, `\\\\` a backslash and `\\"` a quotation
mark.
`\\xHH` is one byte, `\\x{H..}` a character by its code point, in UTF-8, and `\\cX` a key with Control: `\\cO` is 0F.
Everything else stands for itself, in UTF-8.
"""
from __future__ import annotations

import re

SINGLE = {"e": 0x1B, "a": 0x07, "b": 0x08, "t": 0x09, "n": 0x0A, "f": 0x0C, "r": 0x0D, "\\": 0x5C, '"': 0x22}
ESCAPE = re.compile(r"\\(?:x\{([0-9A-Fa-f]{1,6})\}|x([0-9A-Fa-f]{2})|c([@-_a-z?])|(.?))", re.S)
WANTED = r"wanted \e \a \b \t \n \f \r \\ \" \xHH \x{H..} or \cX"


def character(code: int) -> bytes:
    """The character of a code point in UTF-8; a ValueError says that there is none."""
    if code > 0x10FFFF or 0xD800 <= code <= 0xDFFF:
        raise ValueError(f"U+{code:04X} is no character")
    return chr(code).encode()


def byte_of(match: re.Match[str]) -> bytes:
    """What one escape stands for; a ValueError names an unknown one."""
    code, byte, key, single = match.groups()
    if code:
        return character(int(code, 16))
    if byte:
        return bytes([int(byte, 16)])
    if key:
        return bytes([0x7F if key == "?" else ord(key.upper()) & 0x1F])
    if single not in SINGLE:
        raise ValueError(f"\\{single} isn't an escape: {WANTED}")
    return bytes([SINGLE[single]])


def unescaped(text: str) -> bytes:
    """The bytes that a text stands for; a ValueError says what is wrong with it."""
    made, at = bytearray(), 0
    for match in ESCAPE.finditer(text):
        made += text[at : match.start()].encode() + byte_of(match)
        at = match.end()
    return bytes(made + text[at:].encode())


def escaped(given: bytes) -> str:
    """Bytes as such a text, to be printed on one line."""
    names = {code: name for name, code in SINGLE.items()}
    made = []
    for sign in given.decode("utf-8", "surrogateescape"):
        code = ord(sign)
        if code in names:
            made.append("\\" + names[code])
        elif code < 0x20 or code == 0x7F or 0xDC80 <= code <= 0xDCFF:
            made.append(f"\\x{code & 0xFF:02x}")
        elif 0x80 <= code <= 0x9F:
            made.append(f"\\x{{{code:x}}}")
        else:
            made.append(sign)
    return "".join(made)
