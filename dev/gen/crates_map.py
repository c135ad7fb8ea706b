#!/usr/bin/env python3
"""Writes the map of the crates, crates/README.md, from crates.txt, and the lists of crates that follow from it.

usage: dev/gen/crates_map.py --write | --check

The groups and their order are those of crates.txt: a line `# ..` begins a group, and the lines below it are its crates.
The sentence of a crate is the first one of its root file, and its types are those that its sources declare public.
dev/gen/crates_files.py has the text of the second page, crates/FILES.md, with the files of each crate. The crates of
each page of docs/proofs/, in the table at the top of its README.md, are the sections `## CRATE` of the page. --check
compares what stands there, and ends with status 1 if it differs, if a crate has no line in crates.txt, or if a file
that the map names isn't there.
"""
import pathlib
import re
import sys

sys.dont_write_bytecode = True
sys.path.insert(0, str(pathlib.Path(__file__).resolve().parents[1]))

from crates_files import files_text  # noqa: E402: after the folder that it stands in
from repository import TOP  # noqa: E402
from programs import CRATES as PROGRAMS  # noqa: E402

CRATES = TOP / "crates"
MAP, FILES = CRATES / "README.md", CRATES / "FILES.md"
PROOFS = TOP / "docs/proofs"
HEAD = """# Crates

Each crate is a folder here, and uses only crates above it in this list. The groups are those of
[crates.txt](../crates.txt), which has the crates that each one names. A name leads to the crate's root file, `files` to
its files in [the second map](FILES.md), each with a sentence and the names that stand in it, and `proved` to what is
proved about it. [Types and calls](../docs/library/api/README.md) has each public call. A **program** is marked. The
column "types" has the public types of a crate. The definitions that contracts cite are in its folder `specs`, and [the
proof of each function](../CONTRIBUTING.md#where-a-proof-stands) in its folder `proofs`. `tools/copy_crates.py` copies a
crate with all that it needs ([Embed a crate](../docs/guide/embed-a-crate.md#1-copy-the-crates)).
"""
# Where to begin to read: what happens, the call, its file, the section with each step, and what other crates do.
WAYS = [
    ("a byte is drawn", "`Emu::write`", "vt_screen/src/write.rt", "the-way-of-one-byte",
     {"vt_units": "reads it", "vt_canvas": "draws it", "vt_grid": "has the cells"}),
    ("a key is pressed", "`Keyboard::feed`", "key_machine/src/keyboard.rt", "the-way-of-one-scan-byte",
     {"scan_codes": "reads its bytes", "key_tables": "has its action"}),
    ("a process calls", "`World::step`", "vt_world/src/step.rt", "the-way-of-one-call",
     {"vt_switch": "has the display", "vt_procs": "has the callers"}),
    ("a command runs", "`vt_run`", "vt_tool/src/run.rt", "how-the-top-call-is-defined", {"vt": "calls it"}),
]  # fmt: skip
ARCHITECTURE = "../docs/contributing/architecture.md"


class Wrong(Exception):
    """Something that the map can't be written from."""


def groups():
    """The groups of crates.txt: the name of each, with its crates."""
    found, before = [], "#"
    for line in (TOP / "crates.txt").read_text(encoding="utf-8").splitlines():
        name = re.match(r"(\w+)[^:#]*:", line)
        if name:
            found[-1][1].append(name[1])
        elif line.startswith("# ") and not before:
            found.append((line[2:].rstrip("."), []))
        before = line.strip()
    return [(name, crates) for name, crates in found if crates]


def root_of(crate):
    """The root file of a crate, by its path from crates/."""
    for name in ("lib.rt", "main.rt"):
        if (CRATES / crate / "src" / name).is_file():
            return f"{crate}/src/{name}"
    raise Wrong(f"crates.txt has a line for {crate}, and there is no such crate")


def sentence_of(root):
    """The first sentence of a root file."""
    words = []
    for line in (CRATES / root).read_text(encoding="utf-8").splitlines():
        if not line.startswith("//!") or not line[3:].strip():
            break
        words.append(line[3:].strip())
    text = re.sub(r"^(?:An example of the library|The program `\w+`): ", "", " ".join(words))
    sentence = re.match(r".*?\.(?=\s+[A-Z]|$)", text)
    if not sentence:
        raise Wrong(f"crates/{root} begins with no sentence")
    linked = re.sub(r"\bdocs/([\w/-]*?)([\w-]+)\.md\b", r"[\2](../docs/\1\2.md)", sentence[0])
    return re.sub(r"^a program that ", "", linked).replace("|", "\\|")


def sections():
    """The page of docs/proofs/ that has each crate."""
    found = {}
    for page in sorted(PROOFS.glob("*.md")):
        for name in re.findall(r"^## (\w+)$", page.read_text(encoding="utf-8"), re.M):
            if (CRATES / name).is_dir():
                found[name] = page.name
    return found


def types_of(crate):
    """The public types of a crate."""
    types = set()
    for file in (CRATES / crate / "src").rglob("*.rt"):
        types.update(re.findall(r"^pub (?:struct|enum|trait) (\w+)", file.read_text(encoding="utf-8"), re.M))
    return ", ".join(f"`{name}`" for name in sorted(types))


def row_of(crate, proved):
    """The row of a crate."""
    root = root_of(crate)
    sentence = sentence_of(root)
    users = [name for name, its in PROGRAMS.items() if its == crate]
    if users:
        sentence = f"**program `{users[0]}`**: {sentence}"
    elif root.endswith("main.rt"):
        sentence = f"**program**: {sentence}"
    links = [f"[files](FILES.md#{crate})"]
    links += [f"[proved](../docs/proofs/{proved[crate]}#{crate})"] if crate in proved else []
    return f"| [`{crate}`]({root}) | {sentence} | {types_of(crate)} | {', '.join(links)} |"


def map_text():
    """The text of crates/README.md."""
    proved = sections()
    parts = [HEAD, "## Where to begin to read\n", "| when | begin at | other crates | each step |", "|---|---|---|---|"]
    for when, call, file, section, others in WAYS:
        if not (CRATES / file).is_file():
            raise Wrong(f"the map names crates/{file}, and it isn't there")
        then = ", ".join(f"[`{it}`]({root_of(it)}) {does}" for it, does in others.items() if (CRATES / it).is_dir())
        parts.append(f"| {when} | {call} in [{file}]({file}) | {then} | [steps]({ARCHITECTURE}#{section}) |")
    for name, crates in groups():
        parts += ["", f"## {name}", "", "| crate | is | types | |", "|---|---|---|---|"]
        parts += [row_of(crate, proved) for crate in crates]
    named = {crate for _, crates in groups() for crate in crates}
    for folder in sorted(CRATES.iterdir()):
        if (folder / "src").is_dir() and folder.name not in named:
            raise Wrong(f"crates/{folder.name} has no line in crates.txt")
    return "\n".join(parts) + "\n"


def proofs_text():
    """The text of docs/proofs/README.md, with the crates of each page in its table."""
    order = [crate for _, crates in groups() for crate in crates]
    proved = sections()

    def row(match):
        crates = [f"`{crate}`" for crate in order if proved.get(crate) == match[2]]
        return f"{match[1]}{', '.join(crates)} |" if crates else match[0]

    text = (PROOFS / "README.md").read_text(encoding="utf-8")
    return re.sub(r"^(\| \[[^\]]*\]\((\w+\.md)\) \| )(`.*`) \|$", row, text, flags=re.M)


def main():
    if sys.argv[1:] not in (["--write"], ["--check"]):
        print(__doc__.split("\n\n")[1], file=sys.stderr)
        return 2
    status = 0
    try:
        pages = {MAP: map_text(), FILES: files_text(CRATES, groups()), PROOFS / "README.md": proofs_text()}
        for file, text in pages.items():
            if file.is_file() and file.read_text(encoding="utf-8") == text:
                continue
            if sys.argv[1] == "--write":
                file.write_text(text, encoding="utf-8")
            else:
                print(f"{file.relative_to(TOP)}: dev/gen/crates_map.py --write gives another page")
                status = 1
    except Wrong as wrong:
        print(f"crates_map.py: {wrong}")
        return 1
    return status


if __name__ == "__main__":
    sys.exit(main())
