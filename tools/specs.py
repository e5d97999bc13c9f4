"""The definitions of specs/, and the words that each is spelled in.

What a definition binds itself names no other, whatever has the same name: by its patterns, by `λ`, by `(x : T)`, by `let`, as a
field, as a parameter of its module. Where this reading can't tell how far a binding reaches, it takes the shorter reach: a word
may then be counted that needn't be.
"""

import re
from dataclasses import dataclass, field
from functools import cache, cached_property
from itertools import accumulate
from pathlib import Path

USE = re.compile(r"(?:pub |ghost )?use ([^\s{};]+?)(?:\.\{(.*?)\})?(?: as ([^\s;]+))?;?", re.S)
HEAD = re.compile(r"((?:abbrev|unfoldable|pub) )*(record |data )?([^\s:(){}]+)(?(1)| :)")
TOKEN = re.compile(r'"(?:[^"\\]|\\.)*"|[(){};,λ]|[^\s(){};,λ"]+')
NAME = re.compile(r"[^\W\d][\w-]*")
OPEN, CLOSE = "({", ")}"


def without_comment(row, mark):
    """A row without its comment; a mark within a string begins none."""
    return re.match(rf'(?:"(?:[^"\\]|\\.)*"|(?!(?<!\S){mark})[^"])*', row)[0].rstrip()


def imports_of(rows):
    """What each imported name stands for: a module, and a name in it, or None where it is the module itself."""
    found = {}
    for module, names, alias in (USE.fullmatch(row).groups() for row in rows):
        if names is None:
            found[alias or module.split(".")[-1]] = (module, None)
        for word in filter(None, map(str.strip, (names or "").split(","))):
            name, _, other = word.partition(" as ")
            found[other or name] = (module, name)
    return found


def end_of(tokens, at):
    """The place of the bracket that closes the one at this place."""
    depths = list(accumulate((it in OPEN) - (it in CLOSE) for it in tokens[at:]))
    return first((at + place for place, depth in enumerate(depths) if depth == 0), "a bracket isn't closed", tokens[at:])


def first(places, what, tokens):
    """The first of these places; an error if there is none."""
    for place in places:
        return place
    raise ValueError(f"{what}: {' '.join(tokens[:8])}")


def names_of(group):
    """The names that a group binds, as `x y` of `x y : T`."""
    names = group[: group.index(":")] if ":" in group else []
    return names if all(NAME.fullmatch(it) for it in names) else []


def names_bound(tokens):
    """The names that the groups of a head bind, as `(a b : T) {c : U}`."""
    found, end = [], -1
    for at, token in enumerate(tokens):
        if token in OPEN and at > end:
            end = end_of(tokens, at)
            found += names_of(tokens[at + 1 : end])
    return found


def words_of(tokens, bound=()):
    """Yields the words of an expression that neither it binds nor its surroundings."""
    here, at = set(bound), 0
    while at < len(tokens):
        token = tokens[at]
        if token in OPEN:
            end = end_of(tokens, at)
            names = names_of(tokens[at + 1 : end])
            yield from words_of(tokens[at + 1 + len(names) : end], here)
            here |= set(names)
            at = end
        elif token in (",", ";"):
            here = set(bound)
        elif token == "let":
            here.add(tokens[at + 1])
        elif token == "λ" and tokens[at + 1] not in OPEN:
            end = first((it for it in range(at, len(tokens)) if tokens[it].endswith(".")), "a λ without its dot", tokens[at:])
            here |= {it.rstrip(".") for it in tokens[at + 1 : end + 1]}
            at = end
        elif tokens[at + 1 : at + 2] != ["="] and token.split(".")[0] not in here:
            yield token
        at += 1


@dataclass(eq=False)
class Definition:
    """A definition: its rows, and the rows that open the modules without a name in which it stands."""

    file: "File"
    name: str
    kind: str
    depth: int
    heads: list[tuple[int, str]]
    rows: list[tuple[int, str]] = field(default_factory=list)

    @cached_property
    def parts(self):
        """The tokens of its head, and of each equation, field or constructor."""
        found = []
        for _, row in self.rows:
            depth = len(row) - len(row.lstrip())
            if row.lstrip()[0] not in CLOSE and (depth == self.depth or (self.kind and depth == self.depth + 2)):
                found.append([])
            found[-1] += TOKEN.findall(row)
        return [it[it.index(self.name) + 1 :] if not at else it for at, it in enumerate(found)]

    def words_of_equation(self, tokens):
        """The words of an equation; what its patterns don't take from elsewhere they bind."""
        depths = list(accumulate((it in OPEN) - (it in CLOSE) for it in tokens))
        at = first((it for it, token in enumerate(tokens) if token == "=" and depths[it] == 0), "an equation without `=`", tokens)
        taken = [it for it in tokens[1:at] if "." in it or self.file.is_constructor(it)]
        return taken + list(words_of(tokens[at + 1 :], {*tokens[1:at]} - {*taken}))

    @cache
    def words(self, only=None):
        """The words that it is spelled in; of its equations only those with this pattern, if one is named."""
        head, *rest = self.parts
        opening = TOKEN.findall(" ".join(row for _, row in self.heads))
        found, bound = [*words_of(opening), *words_of(head)], names_bound(head)
        for part in rest:
            if self.kind:
                part = part[part[0] == "pub" :]
                found += words_of(part[1:], bound)
                bound.append(part[0])
            elif only is None or only in part:
                found += self.words_of_equation(part)
        return [it for it in found if it.split(".")[0] not in names_bound(opening)]


class Words:
    """What a file's words name: by its imports, and by what it defines itself."""

    def __init__(self, path, files, uses):
        self.path, self.files, self.uses = path, files, uses
        self.definitions, self.made_by = {}, {}

    def meant_by(self, word):
        """The definition that a word names; or the module and the name, if it stands outside of specs/; or None."""
        head, _, rest = word.partition(".")
        head = next((it for it in (head, f"◌{head}◌") if it in self.uses or it in self.definitions or it in self.made_by), None)
        if found := self.definitions.get(head) or self.made_by.get(head):
            return found
        if head is None:
            return None
        module, name = self.uses[head]
        name = name or rest.split(".")[0]
        if module not in self.files:
            return module, name
        if found := self.files[module].meant_by(name):
            return found
        raise ValueError(f"{self.path}: `{word}`: {module} has no {name}")


class File(Words):
    """A file of specs/."""

    def __init__(self, path, files):
        rows = [(n, without_comment(it, "--")) for n, it in enumerate(path.read_text(encoding="utf-8").split("\n"), 1)]
        rows = [it for it in rows if it[1] and not it[1].startswith("pub mod ")]
        is_use = re.compile(r"(pub )?use ")
        super().__init__(path, files, imports_of(row for _, row in rows if is_use.match(row)))
        self.read([it for it in rows if not is_use.match(it[1])])
        self.made_by = {part[0]: it for it in self.definitions.values() if it.kind == "data" for part in it.parts[1:]}

    def read(self, rows):
        """Cuts the rows into definitions; a module without a name holds what is indented below it."""
        modules, last, is_open = [], None, False
        for number, row in rows:
            depth = len(row) - len(row.lstrip())
            if is_open:
                modules[-1].append((number, row))
            elif depth <= 2 * len(modules):
                modules = modules[: depth // 2]
                found = HEAD.match(row.lstrip())
                if row.lstrip().startswith("module _"):
                    modules, last, is_open = [*modules, [(number, row)]], None, True
                elif found:
                    last = Definition(self, found[3], (found[2] or "").strip(), depth, [it for head in modules for it in head])
                    self.definitions[last.name] = last
            is_open = is_open and not row.endswith("where")
            if last:
                last.rows.append((number, row))

    def is_constructor(self, word):
        """Whether a pattern takes the word from elsewhere; of the library's names all are taken so."""
        module, name = self.uses.get(word, (None, word))
        file = self.files.get(module, None if module else self)
        return name in file.made_by if file else True


def read_files(top):
    """The files of specs/ of all crates, by their modules."""
    files = {}
    for path in sorted(Path(top).glob("crates/*/specs/**/*.antt")):
        crate, _, *names = path.relative_to(f"{top}/crates").with_suffix("").parts
        files[".".join(["Rattle", crate, "specs", *names])] = File(path, files)
    return files


def clause_words(text, function):
    """The words of a function's clauses, in a file of src/."""
    text = "\n".join(without_comment(it, "//[/!]?") for it in text.split("\n"))
    head = re.search(rf"^pub fn {function}\b.*?^\{{", text, re.M | re.S)
    if not head:
        raise ValueError(f"no function {function}")
    tokens = TOKEN.findall(head[0])
    for at, token in enumerate(tokens):
        if token in ("ensures", "ensures*", "requires"):
            begin = tokens.index("{", at)
            yield from words_of(tokens[begin + 1 : end_of(tokens, begin)], re.findall(r"^ +(\w+):", head[0], re.M))
