"""Texts of keys: characters stand for themselves, and names between < and > for keys.

The names are Enter, Esc, Tab, Space, Backspace, Up, Down, Left, Right, Home, End, PageUp, PageDown, Insert, Delete and
F1 to F20; <lt> is the character <. C- before a name or a character is Control, M- or A- is Alt and S- is Shift: <C-x>
<M-f> <S-Tab>. Capital and small letters of a name are the same.

A named key is typed on the library's keyboard, so that its bytes depend on the screen's modes as on a console. A
character is sent in UTF-8.
"""
from __future__ import annotations

import difflib
import re

SHIFT, CONTROL, ALT = 0x2A, 0x1D, 0x38
# Scan codes of set 1; those above 0xFF have E0 before them.
SCANS = {
    "esc": 1, "backspace": 14, "tab": 15, "enter": 28, "space": 57, "home": 0xE047, "up": 0xE048, "pageup": 0xE049,
    "left": 0xE04B, "right": 0xE04D, "end": 0xE04F, "down": 0xE050, "pagedown": 0xE051, "insert": 0xE052,
    "delete": 0xE053, **{f"f{n}": 58 + n for n in range(1, 11)}, "f11": 87, "f12": 88,
}  # fmt: skip
# Shift and F1 to F8 are F13 to F20.
SHIFTED = {f"f{n}": f"f{n - 12}" for n in range(13, 21)}
# The named keys as a console's keymap has them: alone, with Shift, with Control, with Alt (keymaps(5)).
KEYMAP = """keymaps 0-1,4,8
strings as usual
keycode 29 = Control
keycode 42 = Shift
keycode 56 = Alt
keycode 1 = Escape Escape Escape Meta_Escape
keycode 14 = Delete Delete BackSpace Meta_Delete
keycode 15 = Tab Meta_Tab Tab Meta_Tab
keycode 28 = Return Return Return Meta_Control_m
keycode 57 = space space nul Meta_space
keycode 102 = Find
keycode 103 = Up
keycode 104 = Prior
keycode 105 = Left
keycode 106 = Right
keycode 107 = Select
keycode 108 = Down
keycode 109 = Next
keycode 110 = Insert
keycode 111 = Remove
""" + "".join(f"keycode {n if n < 69 else n + 18} = F{n - 58} F{n - 46} F{n - 34}\n" for n in range(59, 71))
# A key between < and >; or a sequence that begins with Esc, or a character, which is sent as one piece.
PIECE = re.compile(
    r"<((?:[ACMS]-)*)([A-Za-z][A-Za-z0-9]+|[^\s<>])>|(\x1b(?:\[\[?[0-9;]*[@-~]|O?[^<\x1b])|.)", re.I | re.S)


def scans_of(modifiers: set[str], name: str) -> bytes:
    """The scan bytes of a key that is pressed and released while modifiers are held."""
    if name in SHIFTED:
        modifiers, name = modifiers | {"S"}, SHIFTED[name]
    held = [code for letter, code in zip("SCM", (SHIFT, CONTROL, ALT)) if letter in modifiers]
    code = SCANS[name]
    prefix = [0xE0] if code > 0xFF else []
    key = code & 0x7F
    return bytes([*held, *prefix, key, *prefix, key | 0x80, *(code | 0x80 for code in reversed(held))])


def bytes_of(modifiers: set[str], character: str) -> bytes:
    """The bytes that a console sends for a character with modifiers. Shift changes nothing: the character is given."""
    if "C" in modifiers:
        if character != "?" and not "@" <= character.upper() <= "_":
            raise ValueError(f"Control and {character!r} send nothing on a console")
        character = chr(0x7F if character == "?" else ord(character.upper()) & 0x1F)
    return b"\x1b" * ("M" in modifiers) + character.encode()


def pieces_of(keys: str) -> list[tuple[bool, bytes]]:
    """The keys in order: True with scan bytes, or False with bytes for the program. An unknown name is a ValueError."""
    pieces: list[tuple[bool, bytes]] = []
    known = {*SCANS, *SHIFTED}
    for match in PIECE.finditer(keys):
        if match[3] is not None:
            pieces.append((False, match[3].encode()))
            continue
        modifiers, name = set(match[1].upper().replace("-", "").replace("A", "M")), match[2]
        if len(name) == 1:
            pieces.append((False, bytes_of(modifiers, name)))
        elif name.lower() == "lt":
            pieces.append((False, bytes_of(modifiers, "<")))
        elif name.lower() in known:
            pieces.append((True, scans_of(modifiers, name.lower())))
        else:
            near = difflib.get_close_matches(name.lower(), sorted(known), 1) or ["enter"]
            raise ValueError(f"{match[0]} is no key: perhaps <{near[0]}>; <lt> is the character <")
    return pieces
