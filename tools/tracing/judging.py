"""Has `genirq check` judge the pieces of a trace, and says what the first row is that isn't lawful, and why."""

import os
import re
import subprocess
from dataclasses import dataclass

from calls import Calls
from due import first_difference
from events import read_trace
from laying import GIVEN_UP, Laying
from placing import MOST as MOST_TRIES, place
from reasons import reason_of
from repository import TOP
from writing import Written

GENIRQ = os.environ.get("GENIRQ", str(TOP / "genirq"))
# So many rows that aren't lawful are looked for on one line; after each the trace is judged on from the next rest.
MOST = 1000
AROUND = 6


class CannotJudge(Exception):
    """The program can't be run, or calls a text that was made here malformed."""


@dataclass
class Unlawful:
    """The first row of a piece that isn't lawful."""

    piece: object
    place: int
    text: str
    due: str | None
    why: str

    def was_given_up(self):
        """Whether the search for a lawful placing of the piece ended before its end."""
        return self.piece.placing == GIVEN_UP


def check(text):
    """What `genirq check` says of a board and a log: None for lawful, else the number of the line's first unlawful entry."""
    try:
        run = subprocess.run([GENIRQ, "check"], input=text, capture_output=True, text=True, check=False)
    except OSError as fault:
        raise CannotJudge(f"{GENIRQ}: {fault.strerror}") from None
    said = run.stdout.strip()
    if said == "lawful" and run.returncode == 0:
        return None
    found = re.fullmatch(r"unlawful \d+ (\d+)", said)
    if not found:
        raise CannotJudge(f"{GENIRQ} check ended with {run.returncode}: {said or run.stderr.strip()}")
    return int(found[1])


class Line:
    """One line of a trace, judged."""

    def __init__(self, steps, cpus):
        self.steps, self.cpus = steps, cpus
        self.pieces, self.unlawful, self.rows, self.laying = [], [], 0, None

    def lay(self, cuts):
        """Lays the line's steps; what was placed by a search before stays so."""
        before, self.laying = self.pieces, Laying(self.steps, cuts)
        self.pieces = self.laying.lay()
        for old, new in zip(before, self.pieces):
            if old.placing:
                new.keep(old)

    def place(self, most=MOST_TRIES):
        """Looks for lawful placings without judging."""
        for piece in self.pieces:
            place(piece, self.cpus, most)

    def stays(self, row):
        """Whether the kernel says at a take that its line is aimed at the processor that takes: a change was dropped."""
        at = self.laying.steps[row.place].at
        return any(place == at and mask == 1 << int(row.who[1:]) for place, mask in self.steps.targets)

    def was_busy(self, piece, place):
        """Whether the chip refused a move shortly before a row: since the change before the last one."""
        steps = self.laying.steps
        changes = [it.place for it in piece.rows[:place] if it.words[0] == "affinity" and it.place is not None][-2:]
        since = steps[changes[0]].at if len(changes) == 2 else 0
        return any(since <= at <= steps[piece.rows[place].place].at for at in self.steps.busy)

    def judge(self, most=MOST, tries=MOST_TRIES):
        """Judges piece by piece; behind a row that isn't lawful the trace is cut at the next rest, and goes on."""
        cuts, done = set(), 0
        self.lay(cuts)
        while done < len(self.pieces):
            piece = self.pieces[done]
            entry = self.first_wrong(piece, tries)
            done += 1
            if entry is None:
                self.rows += len(piece.rows)
                continue
            self.rows += entry
            self.unlawful.append(self.told(piece, entry - 1))
            if len(self.unlawful) >= most or piece.rows[entry - 1].place is None:
                break
            if piece.broken != entry - 1:
                cuts.add(piece.rows[entry - 1].place)
                self.lay(cuts)
        return self

    def first_wrong(self, piece, tries):
        """The number of the first row of a piece that `check` calls unlawful, None if it calls none so: as the piece
        was laid, or as a search for a lawful placing laid it then."""
        entry = check(Written(piece, self.cpus).text())
        if entry is not None and place(piece, self.cpus, tries):
            entry = check(Written(piece, self.cpus).text())
        return entry

    def told(self, piece, number):
        """What is said of a row that isn't lawful."""
        written, row = Written(piece, self.cpus), piece.rows[number]
        log = list(written.log())
        at, due = first_difference(written.board(), log)
        due = due if at == number + 1 else "?"
        why = reason_of(row, due, piece.rows[:number], piece.target)
        if why in ("waiting-move", "sent-signal") and self.was_busy(piece, number):
            why = "busy-chip"
        elif why == "sent-signal" and self.stays(row):
            why = "hotplug-started"
        return Unlawful(piece, number, log[number], due, why)


def title(line):
    return f"line {line.number} ({', '.join(dict.fromkeys(it.name for it in line.devices)) or 'no action'})"


def around(trace, row, index):
    """The events near a row, with their times."""
    numbers = row.events or []
    if not numbers:
        return []
    place = index[numbers[-1]]
    rate, first = trace.span(), trace.events[0].time
    for it in trace.events[max(0, place - AROUND) : place + 3]:
        when = f"{(it.time - first) / rate * 1e6:.1f} us" if rate else str(it.time)
        yield f"      {it.number:7} {when:>16} c{it.cpu} {it.task}-{it.pid} {it.name}: {it.text}"


def walked(name):
    """A recording, and its lines that can be judged."""
    trace = read_trace(name)
    walk = Calls(trace)
    lines = walk.walk()
    return trace, walk, [lines[it] for it in sorted(lines) if lines[it].steps]


def accounts(trace, walk, judged):
    """Where each event is: in a row of a piece, or in a count by reason; and whether the two add up."""
    placed, reasons = set(), {}
    for line in judged:
        for piece in line.pieces:
            for row in piece.rows:
                placed.update(row.events)
    for source in [walk.reasons, *(it.reasons for it in walk.lines.values())]:
        for reason, numbers in source.items():
            reasons.setdefault(reason, set()).update(numbers)
    counted = set().union(*reasons.values()) if reasons else set()
    left = {it.number for it in trace.events} - placed - counted
    if left:
        reasons["around an interrupt that the probes missed, or beyond the last row that was judged"] = left
    return placed, reasons, len(placed) + sum(len(it) for it in reasons.values()) == len(trace.events)
