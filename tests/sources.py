"""Reads the sources of the repository, for the scripts of tests/ and tools/: what they share.

Crates and their files, the heads of items, functions and definitions, what a file of definitions
imports, and the path of docs/READING.md.
"""
import collections
import pathlib
import re

TOP = pathlib.Path(__file__).resolve().parent.parent
ROOT = TOP / "crates"

# what may stand before the word of an item of code
PUBLIC = r"(?:pub(?:\([^)]*\))? )?"
ITEM = re.compile(rf"^\s*(?P<public>{PUBLIC})(?:const |unsafe |async |final )*(?P<kind>fn|struct|enum|union|trait|impl|type|mod|const|static)\b\s*(?P<rest>[^{{(;]*)")
TYPE = re.compile(rf"^{PUBLIC}(?:unsafe )?(?:struct|enum|union|trait|type) (\w+)")
FUNCTION = re.compile(rf"^( *){PUBLIC}(?:final )?(?:const )?(?:unsafe )?fn (\w+)", re.MULTILINE)
# the head of a definition, a record or a lemma; `rest` is all behind its name
HEAD = re.compile(
    r"^(?P<indent> *)(?P<marks>(?:(?:pub|abbrev|unfoldable|opaque) )*)(?:(?P<kind>record|data) )?"
    r"(?P<name>[^\s:(){}\[\],.;=|][^\s:(){}\[\],.;|]*)(?P<rest>(?: [({].*?)? :(?: .*)?)$"
)
# a word of definitions and proofs, and one of code
WORD = re.compile(r"[^\s(){}\[\],.;:λ]+")
NAME = re.compile(r"[A-Za-z_]\w*")
USE = re.compile(r"(?:pub |ghost )*use (Rattle\.[\w.]+?)(?:\.\{(.*)\})?(?: as (\w+))?;?\s*$")
# a file and a definition of the reading path: its star is that of a first reading
FILE = re.compile(r"^\*\*`(crates/\S+\.antt)`\*\*")
ROW = re.compile(r"(?:^- |; )`([^`]+)`(\*?)(?=[:;]|$)")

Step = collections.namedtuple("Step", "number chapter file name star")


def crates():
    """The folders of the crates that have sources."""
    return sorted(it for it in ROOT.iterdir() if (it / "src").is_dir())


def code(crate):
    """The files of code of a crate with their texts."""
    return {file: file.read_text(encoding="utf-8") for file in sorted(crate.glob("src/**/*.rt"))}


def name_of(file):
    """A file as pages and messages name it."""
    return file.relative_to(TOP).as_posix()


def uncommented(text):
    return re.sub(r"(?m)//.*$", "", text)


def imports(lines):
    """The names that a file takes from others: each with the module and the name there, if it is one."""
    found = {}
    for line in lines:
        match = USE.match(line)
        if match and match[2]:
            for name in match[2].split(", "):
                there, _, here = name.partition(" as ")
                found[here or there] = (match[1], there)
        elif match and match[3]:
            found[match[3]] = (match[1], None)
    return found


def reading_path(lines):
    """The definitions of the reading path, in its order."""
    chapter = file = None
    for number, line in enumerate(lines, 1):
        if line.startswith("## "):
            chapter, file = line[3:].strip(), None
        elif FILE.match(line):
            file = FILE.match(line)[1]
        elif file and line.startswith("- "):
            for name, star in ROW.findall(line):
                yield Step(number, chapter, file, name, star)
