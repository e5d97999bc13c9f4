"""What the scripts know of the repository: its crates as crates.txt lists them, their files, and their must-fail edits."""

import os
import re
import sys
from dataclasses import dataclass, field
from pathlib import Path

TOP = Path(__file__).resolve().parent.parent
PROGRAM = "irq_prog"
# What a check reads of a crate.
PARTS = ("src", "specs", "proofs")
# No script runs an unproved trial through a launcher: it wants a program that was built, or none.
os.environ.setdefault("GENIRQ_BUILT", "1")


@dataclass
class Crate:
    """A line of crates.txt: the crate, the group that it stands in, all that it names, and which of that is the repository's."""

    name: str
    group: str
    names: list[str]
    line: str
    below: list[str] = field(default_factory=list)

    @property
    def folder(self):
        return TOP / "crates" / self.name

    def files(self, top=TOP):
        """Its sources, definitions and proofs, here or in a copy of the repository."""
        folder = top / "crates" / self.name
        return sorted(it for part in PARTS for it in (folder / part).rglob("*") if it.suffix in (".rt", ".antt"))


def read_crates(text=None):
    """The crates by name, in the order of crates.txt; a comment `# NAME: ..` begins a group."""
    found, group = {}, ""
    for line in (text if text is not None else (TOP / "crates.txt").read_text()).splitlines():
        if head := re.match(r"# ([a-z ]+):", line):
            group = head[1]
        named, _, names = line.partition("#")[0].partition(":")
        if named.strip():
            found[named.split()[0]] = Crate(named.split()[0], group, names.split(), line)
    for crate in found.values():
        crate.below = [it for it in crate.names if it in found]
    return found


def with_all_below(crates, names):
    """The crates of these names and all that they stand on, in the order of crates.txt."""
    wanted, open_ones = set(), list(names)
    while open_ones:
        name = open_ones.pop()
        if name not in wanted:
            wanted.add(name)
            open_ones += crates[name].below
    return {name: crate for name, crate in crates.items() if name in wanted}


def edits_of_gate(crate):
    """The must-fail edits of a crate that the gate tries."""
    return sorted((TOP / "crates" / crate / "must-fail").glob("*.edit"))


def edits_of_bench(crate):
    """The must-fail edits of a crate that bench/edits/run tries."""
    return sorted((TOP / "bench" / "edits" / crate).glob("*.edit"))


def all_boards():
    """The boards of boards/ and of its folders."""
    return sorted((TOP / "boards").rglob("*.board"))


def stop(usage):
    """Ends a script whose words are none of its forms."""
    print(f"usage: {usage}", file=sys.stderr)
    sys.exit(2)


def say_help(doc):
    """Prints what a script does, and ends."""
    print(doc.strip())
    sys.exit(0)


def end_with(passed, failed):
    """Prints the sum as the last line, and ends with 0 only if something was tried and all of it passed."""
    print(f"{passed} passed, {failed} failed")
    sys.exit(1 if failed or not passed else 0)
