"""Kernelnames: what the documents cite of Linux and of the list of differences, looked up.

A citation of Linux is names with a file behind: `NAME`, `NAME` (`FILE`), (`NAME`, `FILE`), `NAME` of `FILE`. A file without a
folder is one of kernel/irq, or one that the page names with its folder too; each name has to be declared in it. In the
sections on differences of DEFINITIONS each other name with an underscore that isn't ours has to be declared in
kernel/irq, in its headers or in a file that is cited there. There too each difference has an anchor of its own, and the
boards and the rules of the harness's profile that are named are those of kernel/, each of them. A board of kernel/boards
cites in its comments, as docs/DEFINITIONS.md#ANCHOR, exactly the differences that name it, and so does its row in the table
of kernel/README; tools/trace judge names anchors that are there.
"""

import functools
import os
import re

from repository import TOP

FOLDER = os.path.abspath(os.environ.get("GENIRQ_KERNEL") or "/var/tmp/genirq-kernel")
SOURCE = f"{FOLDER}/linux-source-6.1"
HEADERS = [f"include/linux/{it}.h" for it in ("irq", "irqdesc", "irqreturn", "interrupt", "irqdomain", "msi", "kthread", "find", "wait", "irqflags")]
NAME, FILE = r"`[A-Za-z_]\w*`", r"`((?:[\w.-]+/)*[\w.-]+\.[ch])`"
CITED = rf"({NAME}(?:(?:, | and ){NAME})*)(?: \(|, | of ){FILE}"
# The sections on differences; the one whose items are some, those whose tables have some.
FIRST, ITEMS, TABLES, LAST = "\n## 24. ", "\n## 25. ", "\n## 26. ", "\n<!-- the files that this page links"
ANCHOR = r'<a id="([a-z0-9-]+)"></a>'
# The harness; an anchor as it is cited outside of the page; the differences that tools/trace judge knows.
KERNEL = TOP / "kernel"
AT = r"docs/DEFINITIONS\.md#([a-z0-9-]+)"
REASONS = TOP / "tools" / "tracing" / "reasons.py"


@functools.cache
def text_of(file):
    """A file of Linux's source; the empty text if it isn't there."""
    try:
        with open(f"{SOURCE}/{file}", encoding="utf-8", errors="replace") as it:
            return it.read()
    except (FileNotFoundError, NotADirectoryError):
        return ""


def forms_of(name):
    """How C declares a name, each as a pattern."""
    yield rf"^[ \t]*#[ \t]*define[ \t]+{name}\b"
    yield rf"^(?:[A-Za-z_][^\n;={{}}()]*[\s*])?{name}\("
    yield rf"^(?!EXPORT_)[A-Za-z_ ]*[A-Z_]+\((?:[^\n()]*, )?{name}\b"
    yield rf"^[A-Za-z_][\w \t*]*[ \t*]{name}(?:\[[^\n]*|[ \t]*=[^\n]*|;| [_a-z]+ = )"
    yield rf"\b(?:struct|enum|union)[ \t]+{name}[ \t]*\{{"
    yield rf"^[ \t]+(?!return|goto)[A-Za-z_][\w \t*]*[ \t*]{name}(?:\[[^\]]*\])?(?:[ \t]*:[ \t]*\d+)?;"
    yield rf"\(\*{name}\)\("
    if name.upper() == name:
        yield rf"^[ \t]+{name}[ \t]*(?:=|,|$)"


@functools.cache
def declares(file, name):
    """Whether the file declares the name: a function, a type, a macro, a constant, a field, a variable."""
    text = text_of(file)
    return name in text and any(re.search(form, text, re.M) for form in forms_of(name))


def is_there(name, cited):
    """Whether kernel/irq, its headers or a cited file declare the name; of an option, whether kernel/irq knows it."""
    own = sorted(f"kernel/irq/{it}" for it in os.listdir(f"{SOURCE}/kernel/irq") if it.endswith((".c", ".h")))
    files = [*own, *HEADERS, *sorted(cited)]
    if name.startswith("CONFIG_"):
        known = "".join(text_of(it) for it in [*files, "kernel/irq/Kconfig"])
        return bool(re.search(rf"\b{name}\b|^config {name.removeprefix('CONFIG_')}$", known, re.M))
    return any(declares(file, name) for file in files)


def citations(text):
    """Each name of Linux that a page has before a file, and that file."""
    whole = {it.rpartition("/")[2]: it for it in re.findall(FILE, text) if "/" in it}
    for names, file in re.findall(CITED, text):
        for name in re.findall(r"`(\w+)`", names):
            yield name, file if "/" in file else f"kernel/irq/{file}" if text_of(f"kernel/irq/{file}") else whole.get(file, file)


def sections(text):
    """The sections on differences of a page; the empty text if it has none."""
    return text.partition(FIRST)[2].partition(LAST)[0]


def boards_of(text):
    """The boards that are named as showing a difference."""
    return {it for named in re.findall(r"\*\*Board\*\*: ([^.;]*)", text) for it in re.findall(r"`([a-z0-9_]+)`", named)}


def shown(text):
    """Each difference, by its anchor, with each board that is named as showing it."""
    for part in re.split(r"(?=<a id=)", sections(text))[1:]:
        for board in boards_of(part.partition("\n\n")[0]):
            yield re.match(ANCHOR, part)[1], board


def cited_by_boards():
    """Each anchor that the comments of a board of the harness cite, with that board."""
    for file in sorted((KERNEL / "boards").glob("*.board")):
        for comment in re.findall(r"^#.*", file.read_text(encoding="utf-8"), re.M):
            yield from ((anchor, file.stem) for anchor in re.findall(AT, comment))


def cited_by_rows():
    """Each anchor that the row of a board cites in the table of differences of kernel/README, with that board."""
    table = (KERNEL / "README.md").read_text(encoding="utf-8")
    for board, cell in re.findall(r"^\|[^|\n]*\| `(\w+)`: ([^|\n]*)\|", table, re.M):
        yield from ((anchor, board) for anchor in re.findall(AT, cell))


def rules_of(text):
    """The rules of the harness's profile that are named."""
    return set(re.findall(r"`([a-z-]+)`", "".join(re.findall(r"in the profile ((?:`[a-z-]+`(?:, )?)+)", text))))


def rules_there():
    """The rules that the harness has."""
    found = re.search(r"^RULES = \((.*?)^\)", (KERNEL / "boardtext.py").read_text(encoding="utf-8"), re.M | re.S)
    return set(re.findall(r'"([a-z-]+)"', found[1] if found else ""))


def both_ways(place, what, named, there):
    """Yields each that is named or there, and whether it is both."""
    for it in sorted(named | there):
        yield f"{what} {it}: " + ("no difference names it" if it in there else f"not in {place}"), it in named & there


def look_at_citings(text):
    """Yields each citing of a difference by a board, and by its row of kernel/README, that is there or has to be, and whether it is both."""
    anchors, named = set(re.findall(ANCHOR, text)), set(shown(text))
    for place, cited in ("the board {}", set(cited_by_boards())), ("the row of {} in kernel/README.md", set(cited_by_rows())):
        for anchor, board in sorted(named | cited):
            lacks = "which doesn't name it" if anchor in anchors else "which isn't there"
            fault = f"cites {anchor}, {lacks}" if (anchor, board) in cited else f"doesn't cite {anchor}, which names it"
            yield f"{place.format(board)}: {fault}", (anchor, board) in named & cited
    for anchor in sorted(set(re.findall(r'^    "([a-z0-9-]+)": "', REASONS.read_text(encoding="utf-8"), re.M))):
        yield f"{REASONS.name}: no anchor {anchor}", anchor in anchors


def others(text, ours):
    """The names of Linux that the sections on differences have without a file."""
    listed = sections(text)
    return set(re.findall(r"`(\w+_\w*)`", listed)) - {name for name, _ in citations(text)} - boards_of(listed) - ours


def look_at_linux(text, ours):
    """Yields each name of Linux that a page cites, with what is wrong of it, and whether it is there; None without a source."""
    found = os.path.isdir(f"{SOURCE}/kernel/irq")
    pairs = sorted(set(citations(text)))
    for name, file in pairs:
        yield f"`{name}`: " + (f"{file} doesn't declare it" if text_of(file) else f"no file {file}"), declares(file, name) if found else None
    for name in sorted(others(text, ours)):
        yield f"`{name}`: neither ours nor of kernel/irq", is_there(name, {file for _, file in pairs}) if found else None


def look_at_differences(text):
    """Yields what is wrong of an item of the list of differences, and whether it is right."""
    listed = sections(text)
    if listed:
        boards = {it.stem for it in (KERNEL / "boards").glob("*.board")}
        yield from both_ways("kernel/boards", "the board", boards_of(listed), boards)
        yield from both_ways("kernel/boardtext.py", "the rule", rules_of(listed), rules_there())
        yield from look_at_citings(text)
    for anchor in sorted(set(re.findall(ANCHOR, text))):
        yield f"the anchor {anchor}: more than one of it", len(re.findall(rf'<a id="{anchor}">', text)) == 1
    list_, items = listed.partition(ITEMS)[2].partition(TABLES)[0], listed.partition(TABLES)[2]
    tables = re.findall(r"^\|.*6\.1 \|.*\n\|---.*\n((?:\|.*\n)+)", items, re.M)
    for item in [*re.findall(r"^- .*", list_, re.M), *"".join(tables).splitlines()]:
        yield f"no anchor: {item[:50]}", bool(re.match(rf"(?:- |\| ){ANCHOR}", item))
