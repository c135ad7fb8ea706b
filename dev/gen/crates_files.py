"""The files of the crates: what each holds, and what it defines. A part of dev/gen/crates_map.py.

The sentence of a file is the first one of its head: lines `//!` of a source, lines `--` of definitions and lemmas. A
source without a head has the sentence of its own type, or of its first type, function or constant. The names of a
source are those of its tests, constants, types and functions. A file of definitions has all names that it defines, and
a file of lemmas none.
"""
import re

HEAD = """# The files of each crate

Tables for each crate, in the order of [the map](README.md): its sources (`src/`), its definitions (`specs/`), which
contracts cite, and its lemmas (`proofs/`, without the parts of functions: [Where a proof
stands](../CONTRIBUTING.md#where-a-proof-stands)). A row has the sentence of the file, and names: the tests,
constants, types and functions of a source, and all that a file of definitions defines. Root files and lists of modules
are left out.
"""
SKIPPED = {"lib.rt", "Lib.antt", "for_laws.antt"}
TYPES = {"struct", "enum", "trait", "union"}
OPEN = r"pub(?:\(\w+\))? "
ITEM = re.compile(rf"(?:{OPEN})?(?:const |unsafe |extern \"C\" )*({'|'.join(TYPES)}|fn|const|static|type) (\w+)")
CALL = re.compile(rf"(?:    )?(?:{OPEN})?(?:const |unsafe |extern \"C\" )*fn (\w+)")
CONSTANT = re.compile(rf"(?:{OPEN})?(?:const|static) (\w\w+)")
TEST = re.compile(r"#\[test\]\n(?:#\[.*\n)*fn (\w+)")
OWNER = re.compile(r"impl(?:<[^>]*>)? (?:[\w:<>]+ for )?(\w+)")
DOC = re.compile(r"\s*/// ?(.*)")
NAME = r"([^\W\d][\w'-]*|◌\S+)"
# What a file defines; inside a module with parameters a line is indented, as the fields of a record are.
DEFINED = re.compile(rf"(?:(?:  )?(?:abbrev |unfoldable |opaque )pub |(?:  )?pub (?:record|data) |pub (?!mod )){NAME}")
MODULES = re.compile(rf"(?:ghost use |use |(?:{OPEN})?(?:mod|use) |#|//|--|\s|}}|$)")


def first_sentence(text):
    """The first sentence of a text, in Markdown."""
    found = re.match(r".*?\.(?=\s+[A-Z]|$)", text)
    sentence = found[0] if found else text
    sentence = re.sub(r"\[(`[^`]*`)\](?:\([^)]*\))?", r"\1", sentence)
    sentence = re.sub(r"\bdocs/([\w/-]*?)([\w-]+)\.md\b", r"[\2](../docs/\1\2.md)", sentence)
    return sentence.replace("|", "\\|")


def block(lines, mark):
    """The paragraph at the start of some lines that begin with a mark."""
    words = []
    for line in lines:
        if not line.startswith(mark) or not line[len(mark) :].strip():
            break
        words.append(line[len(mark) :].strip())
    return " ".join(words)


def documented(lines):
    """Gives each item of a source that is documented: its rank among items, its name, with its type if it is a call of
    one, and the text."""
    owner, text = "", []
    for line in lines:
        doc = DOC.match(line)
        if doc:
            text.append(doc[1])
            continue
        if line.strip().startswith("#["):
            continue
        found, item = OWNER.match(line), ITEM.match(line.strip())
        owner = found[1] if found else "" if line[:1] == "}" else owner
        if item and text:
            name = f"{owner}::{item[2]}" if line[:1] == " " and owner else item[2]
            rank = 0 if item[1] in TYPES else 1 if item[1] == "fn" else 2
            yield rank, name, " ".join(text).split("  ")[0]
        text = text if not line.strip() else []


def sentence_of(path, text):
    """The sentence of a file, and the item that it is of."""
    lines = text.splitlines()
    head = block(lines, "--" if path.suffix == ".antt" else "//!")
    if head or path.suffix == ".antt":
        return first_sentence(head), ""
    items = sorted(documented(lines), key=lambda item: item[0])
    own = [item for item in items if item[1].lower() == path.stem.replace("_", "")] or items
    return (f"`{own[0][1]}`: {first_sentence(own[0][2])}", own[0][1]) if own else ("", "")


def names_of(path, text, told):
    """The names that a row has, beside the item of its sentence."""
    lines = text.splitlines()

    def names(form, group=1):
        return [found[group] for line in lines if (found := form.match(line))]

    if path.suffix == ".antt":
        found = names(DEFINED)
    else:
        types = [item[2] for line in lines if (item := ITEM.match(line)) and item[1] in TYPES and item[2] != told]
        found = [*TEST.findall(text), *names(CONSTANT), *types, *names(CALL)]
    return ", ".join(f"`{name}`" for name in dict.fromkeys(found) if name != told)


def table(crates, crate, part, title, column):
    """The table of a part of a crate, as lines."""
    folder = crates / crate / part
    files = sorted(folder.rglob("*.*t"), key=lambda path: path.relative_to(folder).with_suffix("").parts)
    if part == "proofs":
        files = [path for path in files if path.parent in (folder, folder / "for_laws")]
    rows = []
    for path in files:
        text = path.read_text(encoding="utf-8")
        sentence, told = sentence_of(path, text)
        if path.name in SKIPPED or not sentence and all(map(MODULES.match, text.splitlines())):
            continue
        name = path.relative_to(folder).with_suffix("").as_posix()
        row = f"| [`{name}`]({path.relative_to(crates).as_posix()}) | {sentence} |"
        rows.append(row + (f" {names_of(path, text, told)} |" if column else ""))
    head = [f"| `{part}/` | {title} |" + (f" {column} |" if column else ""), "|---|---|" + ("---|" if column else "")]
    return ["", *head, *rows] if rows else []


def files_text(crates, groups):
    """The text of crates/FILES.md."""
    lines = [HEAD.rstrip("\n")]
    for _, names in groups:
        for crate in names:
            lines += ["", f"## {crate}"]
            lines += table(crates, crate, "src", "holds", "has")
            lines += table(crates, crate, "specs", "holds", "defines")
            lines += table(crates, crate, "proofs", "holds", "")
    return "\n".join(lines) + "\n"
