"""Links: makes each file that a document names in backticks a link, by a list of links at the document's end.

A link is a name in brackets, [`NAME`], with a row [`NAME`]: FILE in the list. In the kernel's table of ARCHITECTURE the
definitions of irq_model and the functions of the program are links too.
"""

import re

from repository import TOP, read_crates

PAGES = [f"docs/{it}.md" for it in ("ARCHITECTURE", "DEFINITIONS", "GLOSSARY", "PROMISES", "TOUR")]
MARK = "\n<!-- the files that this page links, by tools/cited --links -->\n"
HEAD = "| kernel | entry | definition | program | law |\n"


def file_of(name):
    """The file that a name in backticks stands for, from the repository's folder; None if it is no file."""
    for path in (f"crates/{name}", name) if "/" in name else ():
        if re.fullmatch(r"(crates|docs|boards|tools|bench|kernel)/[\w./-]+", path) and (TOP / path).is_file():
            return path
    return None


def functions():
    """The file of each function of the program by its type and name; None where several types of that name have it."""
    found = {}
    for crate in read_crates().values():
        for file in crate.files() if crate.group not in ("reference", "tests") else ():
            if file.suffix != ".rt":
                continue
            text = file.read_text(encoding="utf-8")
            for type_, body in re.findall(r"^(?:impl(?:<.*?>)?|pub trait) (?:[\w<>, ]+ for )?(\w+)\b[^\n]*\{(.*?)^\}", text, re.M | re.S):
                for name in set(re.findall(r"\bfn (\w+)\b", body)):
                    path = str(file.relative_to(TOP))
                    found[type_, name] = path if found.get((type_, name), path) == path else None
    return found


class Page:
    """A document, and the links that are made in it."""

    def __init__(self, text):
        self.body = re.sub(r"\[(`[^`\n]+`)\](?![(:])", r"\1", text.partition(MARK)[0])
        self.links = {}

    def link(self, name, path):
        if not path:
            return f"`{name}`"
        self.links[name] = path.removeprefix("docs/") if path.startswith("docs/") else f"../{path}"
        return f"[`{name}`]"

    def each(self, text, path_of, pattern=r"`([^`\n]+)`"):
        """The text with each name linked for which there is a file."""
        return re.sub(rf"(?<!\[){pattern}(?!\])", lambda it: self.link(it[1], path_of(it[1])), text)

    def row(self, row, functions_):
        """A row of the kernel's table."""
        start, kernel, entry, definition, program, law, end = row.split("|")
        definition = re.sub(r"`(\w+)` of `(\w+/specs)`", lambda it: f"`{it[2]}/{it[1]}.antt`" if file_of(f"{it[2]}/{it[1]}.antt") else it[0], definition)
        definition = self.each(definition, lambda it: file_of(it) or file_of(f"irq_model/specs/{it}.antt"))
        program = self.each(program, lambda it: file_of(it) or functions_.get(tuple(it.split("::"))))
        return "|".join([start, kernel, entry, definition, program, law, end])

    def written(self):
        """The document with its links, and the list of those that it has."""
        before, head, rest = self.body.partition(HEAD)
        table, _, after = rest.partition("\n\n")
        known = functions() if head else {}
        table = "\n".join(self.row(it, known) if "`" in it else it for it in table.split("\n"))
        parts = [before, f"{head}{table}\n\n" if head else "", after]
        parts = [it if it.startswith(HEAD) else self.each(it, file_of) for it in parts]
        body = "".join(parts)
        links = "".join(f"[`{name}`]: {to}\n" for name, to in sorted(self.links.items()))
        return f"{body.rstrip()}\n{MARK}{links}"


def write_links():
    """Makes the links of the pages; says how many files each links."""
    for page in PAGES:
        text = Page((TOP / page).read_text(encoding="utf-8")).written()
        (TOP / page).write_text(text, encoding="utf-8")
        print(f"{page}: {len(text.partition(MARK)[2].splitlines())} links")
