"""The lists of docs/ADDING.md: which files name the variants of an enum, or their words, and so have to be looked at when one is added."""

import functools
import re
import sys

from repository import TOP, read_crates

PAGE = TOP / "docs" / "ADDING.md"
# What can be added, and the enums that get a variant: the first gives the list its name.
LISTS = {
    "a flow": ["FlowKind"],
    "a driver's call": ["Call", "CallWord", "CallWords"],
    "a kind of entry": ["Entry", "CpuEntry", "ThreadEntry", "DriverEntry", "CallEntry"],
    "a kind of controller": ["ControllerKind"],
    "a command": ["Command"],
}
# Tests of single variants, by which files ask for them without naming any.
TESTS = {"FlowKind": ["is_edge_flow", "is_level_flow", "is_eoi_flow"]}
# The words of the variants, as files outside of crates/ have them, and in which folders these stand.
WORDS = {
    "a flow": "edge level eoi",
    "a driver's call": "request free ask disable disable_nosync enable sync affinity moment",
    "a kind of entry": "ask take begin return end finish done disable enable request unlink hardclear synced freed affinity moment",
    "a kind of controller": "latch plain level eoi lpi vector msi remap",
    "a command": "play run check gen chained hotplug sleep",
}
OUTSIDE = ["tools", "bench", "kernel"]
NOT_READ = re.compile(r"tools/(machines/|adds\.py$)|bench/edits/.*\.edit$|.*\.(board|rows|md)$")
# Enums of which each variant is named wherever the program tells some of them apart.
NAMED = ["Entry", "CpuEntry", "ThreadEntry", "DriverEntry", "CallEntry", "Call", "CallWord", "Actor"]


def hidden_variants():
    """The places of the program at which `_ =>` stands for variants of one of these enums."""
    for crate in read_crates().values():
        for file in crate.files() if crate.group not in ("reference", "tests") else ():
            rows = file.read_text(encoding="utf-8").splitlines() if file.suffix == ".rt" else []
            for at, row in enumerate(rows):
                if row.lstrip().startswith("_ =>") and (enum := enum_above(rows[:at], row)) and not may_stand(rows[:at], row):
                    yield f"{file.relative_to(TOP)}:{at + 1}: `_ =>` stands for some of {enum}: name them"


def may_stand(rows, last):
    """Whether the match tells one variant from all others, as `matches!` does."""
    variant = re.compile(rf"\b(?:{'|'.join(NAMED)})::[A-Z]")
    depth, told = len(last) - len(last.lstrip()), 0
    for row in reversed(rows):
        indent = len(row) - len(row.lstrip())
        if row.strip() and indent < depth:
            break
        told += len(variant.findall(row)) if indent == depth else 0
    return told == 1 and last.strip() == "_ => false,"


def enum_above(rows, last):
    """The enum of which the arms above the last one name a variant."""
    pattern = re.compile(rf"[| (]*\b({'|'.join(NAMED)})::[A-Z]")
    depth = len(last) - len(last.lstrip())
    for row in reversed(rows):
        indent = len(row) - len(row.lstrip())
        if row.strip() and indent < depth:
            return None
        if indent == depth and (found := pattern.match(row)):
            return found[1]
    return None


def head_of(file):
    """What a file says of itself: the first sentence of its head, without the places that it cites."""
    text = file.read_text(encoding="utf-8")
    mark = "//!" if file.suffix == ".rt" else "--"
    rows = []
    for row in text.splitlines():
        if not row.startswith(mark):
            break
        rows.append(row.removeprefix(mark).strip())
    sentence = re.sub(r" *\([^()]*\)", "", " ".join(rows)).split(". ")[0].rstrip(".")
    return sentence if len(sentence) <= 110 else sentence[:107].rsplit(" ", 1)[0] + " .."


@functools.cache
def texts():
    """Each file of the crates with its crate, the part of the crate that it stands in, and its text."""
    crates = [(crate, file) for crate in read_crates().values() for file in crate.files()]
    return [(crate, file, file.relative_to(crate.folder).parts[0], file.read_text(encoding="utf-8")) for crate, file in crates]


@functools.cache
def variants(enum):
    """The variants of an enum, as its declaration has them."""
    for _, file, _, text in texts():
        if file.suffix == ".rt" and (body := re.search(rf"^(?:pub(?:\(\w+\))? )?enum {enum} \{{\n(.*?)^\}}", text, re.M | re.S)):
            return set(re.findall(r"^    ([A-Z]\w*)", body[1], re.M))
    return sys.exit(f"adds: no enum {enum}")


def named_in(text, enum):
    """What a text names of an enum: `Enum::Variant` in code, in definitions and proofs a name behind that of its variants."""
    found = set(re.findall(rf"\b{enum}::([A-Z]\w*)", text))
    for name in re.findall(rf"\b{enum}\.TheVariants as (\w+)", text):
        found |= set(re.findall(rf"\b{name}\.([A-Z]\w*)", text))
    return found


def how_named(text, enums):
    """Whether a text declares or names each variant of one of the enums ("each"), names or tests some ("some"), or none."""
    tests = [it for enum in enums for it in TESTS.get(enum, ())]
    if not any(it in text for it in [*enums, *tests]):
        return None
    named = [(named_in(text, enum), variants(enum)) for enum in enums]
    if any(found >= all_ for found, all_ in named) or re.search(rf"\benum ({'|'.join(enums)}) ", text):
        return "each"
    return "some" if any(found for found, _ in named) or tests and re.search(rf"\b({'|'.join(tests)})\b", text) else None


def naming(enums):
    """The files that name variants of the enums, in the order of the crates: by whether they name each, and where they stand
    (`program`, `beside`, or `proofs`)."""
    found = {}
    for crate, file, part, text in texts():
        place = "proofs" if part == "proofs" else "beside" if crate.group in ("reference", "tests") else "program"
        if how := how_named(text, enums):
            found.setdefault((how, place), []).append((crate, file))
    return found


def proofs_of(enum):
    """The proofs that go by cases of the variants that are listed under this enum, those that name each first."""
    enums = next((it for it in LISTS.values() if it[0] == enum), None)
    if enums is None:
        sys.exit(f"adds: one of {', '.join(it[0] for it in LISTS.values())}, not {enum}")
    found = naming(enums)
    return [file.relative_to(TOP) for how in ("each", "some") for _, file in found.get((how, "proofs"), [])]


def outside(what):
    """The files outside of crates/ that have these words: each, or of many nearly each."""
    words = WORDS[what].split()
    for file in sorted(it for folder in OUTSIDE for it in (TOP / folder).rglob("*") if it.is_file()):
        name = str(file.relative_to(TOP))
        if NOT_READ.match(name) or "__pycache__" in name:
            continue
        text = file.read_text(encoding="utf-8", errors="replace").lower()
        if 6 * sum(bool(re.search(rf"(?<![a-z]){it}(?![a-z_])", text)) for it in words) >= 5 * len(words):
            yield name


def in_folders(names):
    """The names of files in a row: without the folder where it is that of the one before."""
    folders = ["", *(it.rpartition("/")[0] for it in names)]
    return ", ".join(f"`{it.rpartition('/')[2] if folders[at] == folders[at + 1] else it}`" for at, it in enumerate(names))


def by_crate(files):
    """A row for each crate, with its files."""
    crates = {}
    for crate, file in files:
        crates.setdefault(crate.name, []).append(str(file.relative_to(TOP / "crates")))
    return [f"- {in_folders(it)}" for it in crates.values()]


def with_heads(files):
    """A row for each file, with what it says of itself."""
    return [f"- `{it.relative_to(TOP / 'crates')}`" + (f": {head}" if (head := head_of(it)) else "") for _, it in files]


def list_of(what):
    """A list, as the page has it."""
    enums, rows = LISTS[what], []
    found = naming(enums)
    parts = [
        ("Each is named here:", ("each", "program"), with_heads),
        ("Some are named here:", ("some", "program"), by_crate),
        ("In the reference and the tests each:", ("each", "beside"), by_crate),
        ("In the reference and the tests some:", ("some", "beside"), by_crate),
    ]
    for title, key, rows_of in parts:
        rows += [title, "", *rows_of(found[key]), ""] if key in found else []
    if names := list(outside(what)):
        rows += [f"Outside of `crates/` their words stand in {in_folders(names)}.", ""]
    each, some = (len(found.get((it, "proofs"), [])) for it in ("each", "some"))
    rows += [f"Proofs that go by cases: {each} name each, {some} some. `tools/cited --proofs {enums[0]}` prints them."]
    return "\n".join(rows) + "\n"


def faults_of_page(write):
    """Each list of the page that isn't what the sources say, and each variant that the program doesn't name; with write the
    lists are put right."""
    yield from hidden_variants()
    text = PAGE.read_text(encoding="utf-8")
    for what, enums in LISTS.items():
        begin, end = f"<!-- {what}: what names {', '.join(enums)} -->\n", f"<!-- end of {what} -->\n"
        if begin not in text or end not in text:
            yield f"docs/ADDING.md has no list for {what}"
            continue
        before, _, rest = text.partition(begin)
        stands, _, after = rest.partition(end)
        wanted = list_of(what)
        if stands != wanted:
            if not write:
                lacks = set(wanted.splitlines()) ^ set(stands.splitlines())
                yield f"docs/ADDING.md, {what}: not what the sources name: {sorted(lacks)[0][:120] if lacks else 'another order'}"
            text = before + begin + wanted + end + after
    if write:
        PAGE.write_text(text, encoding="utf-8")
