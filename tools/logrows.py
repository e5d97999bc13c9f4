"""The rows of a log of genirq (docs/LOG.md), read for tools/rows and tools/timeline.

This reader is for well-formed logs, and isn't part of what is proved: `genirq check` says whether a log is lawful.
"""

from collections import namedtuple

COLUMNS = (
    "row", "line", "actor", "entry", "dev", "way", "answer", "served", "loop", "mask_change", "note", "bit",
    "flags", "error", "opened", "resend", "mask", "at", "status",
)

# The line that a row of a chain names: none, since no line has the number 0.
CHAIN = 0

# The words after the entry's name, by entry, as docs/LOG.md has them.
PLAIN = {
    ("c", "take"): ("way", "answer"),
    ("c", "begin"): ("dev",),
    ("c", "return"): ("dev", "answer", "served"),
    ("c", "end"): ("loop", "mask_change", "note"),
    ("t", "begin"): (),
    ("t", "finish"): ("bit", "mask_change"),
    ("t", "done"): (),
    ("d", "moment"): ("at",),
    ("c", "enter"): ("status",),
    ("c", "exit"): (),
}

# Those of the steps of calls, which a driver makes, a handler on its processor, or a thread.
CALLS = {
    "disable": (),
    "hardclear": (),
    "synced": (),
    "unlink": ("dev", "answer"),
    "freed": ("dev",),
    "wake": ("dev", "answer"),
    "quiet": ("dev",),
    "arm": ("dev", "answer"),
    "serve": ("dev", "served"),
}

# Those whose last word may be missing: an ask that makes an edge, a thread's return whose number tells its answer.
SHORT = {("d", "ask"): ("dev", "answer"), ("t", "return"): ("served", "answer")}

# The first words of rows with `#` that tell what became of the whole machine. Others are the layout, or a comment.
OF_MACHINE = {"asleep", "wake", "vector", "off", "on"}

Row = namedtuple("Row", ("number", "line", "actor", "entry", "fields"))


class BadRow(Exception):
    """A text row that is no row of a log."""


def read_row(number, text):
    """The row of one text line, or None for one that begins with `#`."""
    if text.startswith("#"):
        return None
    words = text.split(" ")
    if len(words) < 3 or words[1][:1] not in ("c", "t", "d"):
        raise BadRow(f"row {number}: {text!r}")
    line, actor, entry, rest = words[0], words[1], words[2], words[3:]
    try:
        if (int(line) == CHAIN) != (entry in ("enter", "exit")):
            raise ValueError(line)
        fields = dict(fields_of(actor, entry, rest))
        return Row(number, int(line), actor, entry, fields)
    except (KeyError, ValueError, IndexError):
        raise BadRow(f"row {number}: {text!r}") from None


def fields_of(actor, entry, rest):
    """The fields of an entry's last words, by the names of COLUMNS."""
    if actor[0] == "t":
        yield "dev", actor[1:]
    if entry == "enable":
        yield "answer", rest[0]
        if rest[0] == "started":
            yield "resend", rest[1]
    elif entry == "request":
        yield "dev", rest[0]
        yield "flags", rest[1]
        yield "answer", rest[2]
        if rest[2] == "refused":
            yield "error", rest[3]
        else:
            yield "opened", rest[3]
            if rest[3] == "started":
                yield "resend", rest[4]
    elif entry == "affinity":
        yield "mask", rest[0]
        yield "answer", rest[1]
        if rest[1] == "refused":
            yield "error", rest[2]
    else:
        yield from zip(names_of(actor[0], entry, len(rest)), rest, strict=True)


def names_of(actor, entry, count):
    """What that many last words of an entry are, by who made it."""
    if (actor, entry) in SHORT:
        return SHORT[actor, entry] if count == 2 else SHORT[actor, entry][:1]
    return CALLS[entry] if entry in CALLS else PLAIN[actor, entry]


def read_rows(lines):
    """All rows of a log's text lines, in order; those that begin with `#` are passed over."""
    for number, text in enumerate(lines, 1):
        row = read_row(number, text.rstrip("\n"))
        if row is not None:
            yield row


def read_marks(lines):
    """The number and the words of each row with `#` that tells of the whole machine, in order."""
    for number, text in enumerate(lines, 1):
        if text.startswith("# ") and (words := text.split()[1:])[:1] and words[0] in OF_MACHINE:
            yield number, words


def split_input(lines):
    """The board's text lines and the log's, of a text in which a line `---` parts them; no board without one."""
    lines = list(lines)
    for place, text in enumerate(lines):
        if text.rstrip("\n") == "---":
            return lines[:place], lines[place + 1 :]
    return [], lines
