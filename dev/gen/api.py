#!/usr/bin/env python3
"""Prints the public types, calls and constants of a crate as Markdown, with their comments and contracts.

usage: dev/gen/api.py CRATE [NAME]
       dev/gen/api.py --write
       dev/gen/api.py --check

Each part has the text of the source: the comment, the signature, and the clauses of the contract. Fields that aren't
public are left out. With NAME, a type, a trait, a call or a constant, only this one is printed. The first lines are the
crate's sentence, the crates that it needs, and where its clauses are in words. A link of a comment leads to the heading
of its name, on the page of the crate or of one that it needs; in code, and if no heading has the name, it is the name
alone. `--write` writes a page for each library into docs/library/api/, with README.md as their list, and removes pages
of crates that are gone; `--check` prints a line for each page that isn't as it would be written. The status is 1 if
there is one, or no such library or name.
"""
import pathlib
import re
import sys
import textwrap

sys.dont_write_bytecode = True
sys.path.insert(0, str(pathlib.Path(__file__).resolve().parents[1]))

import repository  # noqa: E402,F401: it has the folders of the modules below
from check_links import slug  # noqa: E402
from check_promises import PROOFS, TOP, exports_of, libraries, traits  # noqa: E402
from copy_crates import lines_of, needs  # noqa: E402

PAGES = TOP / "docs/library/api"
WIDTH = 120
CLAUSE = re.compile(r"\s*(?:requires|ensures)\b")
ITEM = re.compile(r'pub (?:const )?(extern "C" )?(struct|enum|trait|type|fn|const|static) (\w+)')
METHOD = re.compile(r"    (?:pub )?(?:const )?fn \w+")
PUBLIC_METHOD = re.compile(r"    pub (?:const )?fn \w+")
# A link of a comment: its words in backquotes, and the path of their item if that is another one.
LINK = re.compile(r"\[`([^`]+)`\](?:\(([^()\s]*)\))?")
ON_THE_WAY = ("crate", "self", "super")


def comment_before(lines, at):
    """Gives the lines of the comment before a line, without attributes."""
    first = at
    while first and re.match(r"\s*(///|#\[|// )", lines[first - 1]):
        first -= 1
    return [line for line in lines[first:at] if line.lstrip().startswith("///")]


def call_at(lines, at):
    """Gives the lines of a signature with its contract, without the body."""
    taken, depth = [], 0
    for line in lines[at:]:
        ends = not depth and re.match(r"\s*\{\}?\s*$", line) or not line.strip()
        if ends:
            break
        if not depth and re.search(r"[;{]\s*$", line) and not CLAUSE.match(line):
            taken.append(re.sub(r"\s*[;{]\s*$", "", line))
            break
        taken.append(line.rstrip().removesuffix(";"))
        depth += line.count("(") + line.count("{") - line.count(")") - line.count("}")
        if not depth and line.rstrip().endswith(";"):
            break
    return taken


def block_at(lines, at):
    """Gives the lines of a struct, an enum or a trait up to its end."""
    end = at
    while not re.match(r"\}|.*[;}]\s*$", lines[end]) or (end == at and lines[end].rstrip().endswith("{")):
        end += 1
    return lines[at : end + 1]


def without_private(lines):
    """Gives a struct without its private fields."""
    if len(lines) < 3:
        return [re.sub(r"\((?!pub ).*\)", "(..)", line) for line in lines]
    kept, comment = [], []
    for line in lines[1:-1]:
        if line.lstrip().startswith(("///", "#[")):
            comment.append(line)
        elif line.strip():
            kept += [*comment, line] if line.startswith("    pub ") else []
            comment = []
    fields = [line for line in kept if not line.lstrip().startswith("#[")]
    return [lines[0], *(fields or ["    .."]), lines[-1]]


def item_at(lines, at, kind):
    """Gives the lines of a public item, without its body or its private fields."""
    if kind == "fn":
        return call_at(lines, at)
    if kind == "trait":
        return [lines[at] + " .. }"]
    return without_private(block_at(lines, at)) if kind == "struct" else block_at(lines, at)


def parts_of(crate):
    """Gives the name of each public item with the blocks of lines that it has: its own, and those of its calls."""
    source = TOP / "crates" / crate / "src"
    exports, known, found = exports_of(source / "lib.rt"), traits(), {}
    for file in sorted(source.rglob("*.rt")):
        lines = file.read_text(encoding="utf-8").split("\nmod tests {")[0].splitlines()
        owner, is_trait = None, False
        for at, line in enumerate(lines):
            item = ITEM.match(line)
            if line.startswith("}"):
                owner = None
            if item and (item[3] in exports or item[1]):
                kind, name = item[2], item[3]
                found.setdefault(name, []).insert(0, [*comment_before(lines, at), *item_at(lines, at, kind)])
                owner, is_trait = (name, True) if kind == "trait" else (owner, False)
            of = re.match(r"impl(?:<.*?>)? (?:(\w+)(?:<.*?>)? for )?(\w+)", line)
            if of and (of[1] is None or of[1] in known):
                owner, is_trait = (of[2] if of[2] in exports else None), of[1] is not None
            if owner and (METHOD if is_trait else PUBLIC_METHOD).match(line):
                found.setdefault(owner, []).append([*comment_before(lines, at), *call_at(lines, at)])
    return found


def path_of(words):
    """Gives the parts of a path without those that only lead upwards."""
    return [it for it in words.split("::") if it not in ON_THE_WAY]


def bare(link):
    """Gives the name of a link in backquotes; a module of the crate keeps its whole path."""
    path = path_of(link[1])
    return f"`{link[1] if len(path) == 1 and path[0].islower() else '::'.join(path)}`"


class Headings:
    """The items and calls that have a heading on the page of each library."""

    def __init__(self):
        self.parts = {crate: parts_of(crate) for crate in libraries()}
        self.names = {crate: set(self.headings(found)) for crate, found in self.parts.items()}

    def headings(self, found):
        for name, blocks in found.items():
            yield from (name, *(f"{name}::{name_of(block)}" for block in blocks if name_of(block)))

    def links_on(self, crate):
        """Gives the function that makes a link of a comment one of the page of a crate."""
        near = [crate, *(it for it in needs(lines_of(TOP / "crates.txt")[crate]) if it in self.names)]

        def linked(link):
            path = path_of(link[2] or link[1])
            places = [path[0]] if path[0] in self.names and len(path) > 1 else near
            for place in places:
                for name in ("::".join(path[-2:]), path[-1]):
                    if name in self.names[place]:
                        page = "" if place == crate else f"{place}.md"
                        return f"[`{'::'.join(path_of(link[1]))}`]({page}#{slug(name)})"
            return bare(link)

        return linked


def prose(comment, linked=bare):
    """Gives the paragraphs of a comment, with its links as `linked` makes them."""
    lines = [re.sub(r"^\s*//[/!] ?", "", line) for line in comment]
    text = re.sub(r"super::(?=\w)", "", LINK.sub(linked, "\n".join(lines)))
    text = re.sub(r"\bdocs/([\w/-]*?)([\w-]+)\.md\b", r"[\2](../../\1\2.md)", text)
    wrap = {"width": WIDTH, "break_long_words": False, "break_on_hyphens": False}
    return "\n\n".join(textwrap.fill(" ".join(it.split()), **wrap) for it in text.split("\n\n") if it.strip())


def name_of(block):
    """Gives the name of the call that a block of a type has, or nothing for the type's own block."""
    line = next(it for it in block if not it.lstrip().startswith("///"))
    call = re.match(r"    (?:pub )?(?:const )?fn (\w+)", line)
    return call[1] if call else None


def shown(block, linked):
    """Gives a block as Markdown: its comment, and its code."""
    comment = [line for line in block if line.startswith("///") or (name_of(block) and line.startswith("    ///"))]
    code = block[len(comment):]
    indent = 4 if name_of(block) else 0
    lines = (LINK.sub(bare, line[indent:]) if line.lstrip().startswith("///") else line[indent:] for line in code)
    parts = [prose(comment, linked), "\n".join(("    " + line).rstrip() for line in lines)]
    return "\n\n".join(it for it in parts if it)


def sentence_of(crate, linked=bare):
    lines = (TOP / "crates" / crate / "src/lib.rt").read_text(encoding="utf-8").splitlines()
    return prose([line for line in lines if line.startswith("//!")], linked)


def places_in_words():
    """Gives the title and the name of the page of docs/proofs/ that has each crate."""
    found = {}
    for page in sorted(PROOFS.glob("*.md")):
        text = page.read_text(encoding="utf-8")
        found.update((name, (text.splitlines()[0][2:], page.name)) for name in re.findall(r"^## (\w+)$", text, re.M))
    return found


def page_of(crate, headings, names, words):
    """Gives the page of a crate, with the parts of these names."""
    found, linked = headings.parts[crate], headings.links_on(crate)
    below = needs(lines_of(TOP / "crates.txt")[crate])
    needed = ", ".join(f"[`{it}`]({it}.md)" if (TOP / "crates" / it).is_dir() else f"`{it}`" for it in below)
    head = f"Needs {needed}." if below else "Needs no other crate."
    if crate in words:
        head += f" Its clauses in words: [{words[crate][0]}](../../proofs/{words[crate][1]}#{crate})."
    wrapped = textwrap.fill(head, WIDTH, break_long_words=False, break_on_hyphens=False)
    parts = [f"# {crate}", sentence_of(crate, linked), wrapped]
    for name in sorted(names):
        parts.append(f"## {name}")
        for block in found[name]:
            if name_of(block):
                parts.append(f"### {name}::{name_of(block)}")
            parts.append(shown(block, linked))
    return "\n\n".join(parts) + "\n"


def all_pages():
    """Gives the text of each page of docs/library/api/ by its name."""
    words, headings, rows, pages = places_in_words(), Headings(), [], {}
    for crate, found in headings.parts.items():
        if found:
            pages[f"{crate}.md"] = page_of(crate, headings, found, words)
            names = ", ".join(f"`{it}`" for it in sorted(found))
            rows.append(f"| [`{crate}`]({crate}.md) | {' '.join(sentence_of(crate).split())} | {names} |")
    pages["README.md"] = "\n".join([
        "# Types and calls", "",
        "Each library with its public types, traits, calls and constants: the comment, the signature and the contract,",
        "from the sources by `dev/gen/api.py --write`. [Proofs](../../proofs/README.md) has the clauses in words, and",
        "where the words of a contract are defined. Calls that a trait of the standard library gives are left out.", "",
        "| crate | is | has |", "|---|---|---|", *rows, "",
    ])
    return pages


def stored():
    return {it.name: it.read_text(encoding="utf-8") for it in PAGES.glob("*.md")}


def write():
    PAGES.mkdir(exist_ok=True)
    pages, old = all_pages(), stored()
    for name, text in pages.items():
        if old.get(name) != text:
            (PAGES / name).write_text(text, encoding="utf-8")
    for name in set(old) - set(pages):
        (PAGES / name).unlink()
    return 0


def check():
    pages, old = all_pages(), stored()
    differing = sorted(name for name in {*pages, *old} if pages.get(name) != old.get(name))
    for name in differing:
        print(f"docs/library/api/{name}: dev/gen/api.py --write gives another page")
    return 1 if differing else 0


def main():
    words = sys.argv[1:]
    if words in (["--write"], ["--check"]):
        return write() if words == ["--write"] else check()
    if len(words) not in (1, 2) or words[0].startswith("-"):
        print(__doc__.split("\n\n")[1], file=sys.stderr)
        return 1
    crate = words[0]
    if crate not in libraries():
        print(f"api.py: crates.txt has no library {crate}", file=sys.stderr)
        return 1
    headings = Headings()
    names = words[1:] or list(headings.parts[crate])
    if any(name not in headings.parts[crate] for name in names):
        print(f"api.py: {crate} has no public {words[1]}", file=sys.stderr)
        return 1
    print(page_of(crate, headings, names, places_in_words()), end="")
    return 0


if __name__ == "__main__":
    sys.exit(main())
