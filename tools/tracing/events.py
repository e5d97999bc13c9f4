"""Reads a recording: its facts, and its events in the order of one clock."""

import gzip
import json
import re
from collections import namedtuple

ROW = re.compile(r"^\s*(.{1,16})-(\d+)\s+\[(\d+)\] (\S+) +(\d+(?:\.\d+)?): (?:irq:|genirq:)?([\w@]+): ?(.*)$")
FIELD = re.compile(r"(\w+)=(?:\"([^\"]*)\"|(\S+))")

# `number` counts the events of a file in its own order, from 1; `who` is ("c", processor) in an interrupt or a softirq, else
# ("p", task), the processor being the one that it runs on.
Event = namedtuple("Event", ("number", "time", "cpu", "pid", "task", "who", "name", "args", "text"))


class BadTrace(Exception):
    """A file that no recording made."""


class Trace:
    """A recording."""

    def __init__(self):
        self.head, self.facts, self.after, self.lost, self.refused = {}, {}, {}, {}, []
        self.events, self.unread = [], 0

    def word(self, word, value):
        """A row of `#` with JSON; comments of trace_pipe are passed over."""
        if word == "trace":
            self.head = value
        elif word == "line":
            self.facts[value["line"]] = value
        elif word == "after":
            self.after[value["line"]] = value
        elif word == "lost":
            self.lost = value
        elif word == "refused":
            self.refused.append(value)

    def span(self):
        """The ticks of the clock in a second, by what was marked at the begin and the end; None where it can't be said."""
        marks = [(it.time, int(it.args["text"].split()[1])) for it in self.events
                 if it.name == "tracing_mark_write" and re.fullmatch(r"(begin|end) \d+", it.args["text"])]
        if len(marks) < 2 or marks[-1][1] == marks[0][1]:
            return None
        return (marks[-1][0] - marks[0][0]) * 1e9 / (marks[-1][1] - marks[0][1])


def read_event(number, row):
    """The event of one row of trace_pipe, None for a row that has none."""
    found = ROW.match(row)
    if not found:
        return None
    task, pid, cpu, flags, time, name, rest = found.groups()
    args = {key: quoted or plain for key, quoted, plain in FIELD.findall(rest)}
    if name == "tracing_mark_write":
        args = {"text": rest}
    if name == "irq_handler_entry":
        args["name"] = rest.partition("name=")[2]
    ticks = int(time.replace(".", "")) if "." in time else int(time)
    context = flags[2:3]
    who = ("c", int(cpu)) if context in ("h", "H", "s", "z", "Z") else ("p", int(pid))
    return Event(number, ticks, int(cpu), int(pid), task, who, name, args, rest)


def open_text(name):
    with open(name, "rb") as file:
        packed = file.read(2) == b"\x1f\x8b"
    return gzip.open(name, "rt", errors="replace") if packed else open(name, errors="replace")


def read_trace(name):
    """A recording, its events by the clock; those of one tick in the file's order."""
    trace = Trace()
    with open_text(name) as text:
        try:
            for row in text:
                if row.startswith("#"):
                    word, _, value = row[2:].rstrip("\n").partition(" ")
                    if value.startswith("{"):
                        trace.word(word, json.loads(value))
                elif event := read_event(len(trace.events) + 1, row.rstrip("\n")):
                    trace.events.append(event)
                elif row.strip():
                    trace.unread += 1
        except (OSError, EOFError, ValueError) as fault:
            raise BadTrace(f"{name}: {fault}") from None
    if not trace.head:
        raise BadTrace(f"{name}: no recording: its first row isn't `# trace`; `tools/trace record FILE --from TEXT` makes one")
    trace.events.sort(key=lambda it: (it.time, it.number))
    return trace


def line_of(event):
    """The line that an event names, None for one that names none."""
    text = event.args.get("irq")
    return int(text) if text is not None and text.isdigit() else None


def value(event, name, base=0):
    """A number among an event's fields, None where the probe didn't have it or the kernel couldn't read it."""
    text = event.args.get(name)
    try:
        return int(text, base)
    except (TypeError, ValueError):
        return None
