"""The keymaps that dev/checks/second_reader.py reads, by the rules of docs/reference/keys.md."""
import re

WEIGHTS = {"plain": 0, "shift": 1, "altgr": 2, "control": 4, "alt": 8}
DEFAULT_TABLES = {0, 1, 2, 4, 5, 8, 12}


class Unread(Exception):
    """Something that the second reader doesn't read."""


def ranges(text):
    """The numbers of a line `keymaps`."""
    found = set()
    for part in text.split(","):
        first, _, last = part.partition("-")
        found.update(range(int(first), int(last or first) + 1))
    return found


class Keymap:
    """The actions of a keymap, as names of symbols, by table and keycode."""

    def __init__(self, text):
        lines = [line.split("#")[0].split() for line in text.splitlines()]
        union = [ranges(words[1]) for words in lines if words[:1] == ["keymaps"]]
        self.tables = set().union(*union) if union else set(DEFAULT_TABLES)
        union = sorted(self.tables)
        self.actions = {}
        for words in lines:
            if not words or words[0] == "keymaps" or words == ["compose", "as", "usual"]:
                continue
            if "keycode" not in words or "=" not in words:
                raise Unread(f"the line of a keymap: {' '.join(words)}")
            at, names = words.index("keycode"), words[words.index("=") + 1 :]
            table = sum({WEIGHTS[word] for word in words[:at]}) if set(words[:at]) <= set(WEIGHTS) else None
            if table is None or (len(names) != 1 and (at or len(names) > len(union))):
                raise Unread(f"the line of a keymap: {' '.join(words)}")
            if any(re.search(r"Lock|^S[A-Z]|^Compose$|Caps_On|Ascii", name) and name != "SAK" for name in names):
                raise Unread(f"the symbols of a keymap: {' '.join(names)}")
            code = int(words[at + 1])
            if at:
                self.tables.add(table)
                self.actions[table, code] = names[0]
            else:
                for table, name in zip(union, names if len(names) > 1 else names * len(union)):
                    self.actions[table, code] = name

    def action(self, table, code):
        return self.actions.get((table, code)) if table in self.tables else None
