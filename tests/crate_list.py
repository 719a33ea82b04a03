"""The crates of the repository, as crates.txt lists them."""
import dataclasses
import functools
import pathlib
import re

TOP = pathlib.Path(__file__).resolve().parent.parent
# What a check reads of a crate.
PARTS = "src", "specs", "proofs"
TEST = re.compile(r"#\[test\]")


@dataclasses.dataclass(eq=False)
class Crate:
    """A crate, and the libraries that it names, of the repository and of the kit."""

    name: str
    uses: list
    of_kit: list = dataclasses.field(default_factory=list)
    below: list = dataclasses.field(default_factory=list)

    @property
    def folder(self):
        return TOP / "crates" / self.name

    @property
    def is_program(self):
        return (self.folder / "src/main.rt").is_file()

    @functools.cached_property
    def tests(self):
        """How many test functions it has."""
        sources = (self.folder / "src").rglob("*.rt")
        return sum(len(TEST.findall(it.read_text(encoding="utf-8"))) for it in sources)

    @functools.cached_property
    def size(self):
        """The bytes of what is proved and of what it is proved by."""
        return sum(it.stat().st_size for part in PARTS for it in (self.folder / part).rglob("*") if it.is_file())

    @functools.cached_property
    def edits(self):
        return sorted((self.folder / "must-fail").glob("*.edit"))


def listed(text):
    """The crates of a crates.txt, each behind those below it."""
    rows = [it.partition("#")[0].strip() for it in text.split("\n")]
    crates = {}
    for head, _, uses in (it.partition(":") for it in rows if it):
        crates[head.split()[0]] = Crate(head.split()[0], uses.split())
    for crate in crates.values():
        crate.uses, crate.of_kit = ([it for it in crate.uses if (it in crates) == own] for own in (True, False))
    for crate in crates.values():
        below = {it: reached(crates[it], crates) for it in reached(crate, crates)}
        crate.below = [crates[it] for it in sorted(below, key=lambda it: (len(below[it]), it))]
    return sorted(crates.values(), key=lambda it: len(it.below))


def reached(crate, crates, above=()):
    """The names of all crates below this one."""
    if crate.name in above:
        raise SystemExit(f"crates.txt: {crate.name} stands on itself")
    found = set(crate.uses)
    for it in crate.uses:
        found |= reached(crates[it], crates, (*above, crate.name))
    return found


def all_crates():
    return listed((TOP / "crates.txt").read_text(encoding="utf-8"))
