"""Wrong traces: one event of a good one is taken out, doubled, or turned round with the next event of its line.

What tells a wrong trace from the good one, the first of these: `check` calls other rows unlawful; more of the trace isn't whole;
or more events stand in no row for some reason. The first two end `tools/trace judge` with 1, the third is a number in its print.
"""

import copy
import hashlib
import random

import judging
from calls import Calls
from events import line_of

KINDS = ("taken out", "doubled", "turned round")
# So many unlawful rows of a line are looked for: more than a stored trace has.
MOST = 8
UNLAWFUL, NOT_WHOLE, COUNTED = TELLS = ("unlawful", "not whole", "counted elsewhere")


def is_next(event, other):
    """Whether the other event is of the same processor and line, and of another kind."""
    return other.cpu == event.cpu and line_of(other) == line_of(event) and other.name != event.name


def edited(trace, kind, place):
    """The trace with one event changed, and the names of what was changed; None where that can't be."""
    wrong = copy.copy(trace)
    events = list(trace.events)
    event = events[place]
    names = event.name
    if kind == "taken out":
        del events[place]
    elif kind == "doubled":
        events.insert(place + 1, event)
    else:
        near = range(place + 1, min(place + 60, len(events)))
        other = next((it for it in near if is_next(event, events[it])), None)
        if other is None:
            return None
        events[place], events[other] = events[other], events[place]
        names = f"{event.name} with {events[place].name}"
    wrong.events = [it._replace(number=n) for n, it in enumerate(events, 1)]
    return wrong, names


class Judge:
    """Asks the program, and asks for the same board and log once."""

    def __init__(self):
        self.known, self.ask = {}, judging.check

    def check(self, text):
        key = hashlib.sha256(text.encode()).digest()
        if key not in self.known:
            self.known[key] = self.ask(text)
        return self.known[key]


def verdict(trace):
    """What is said of a trace: its unlawful rows, its faults, and how many events stand in no row, by reason."""
    walk = Calls(trace)
    lines = walk.walk()
    judged = [judging.Line(lines[it], trace.head["cpus"] or 32).judge(MOST) for it in sorted(lines) if lines[it].steps]
    _, reasons, adds_up = judging.accounts(trace, walk, judged)
    rows = [(it.steps.number, wrong.text, wrong.why) for it in judged for wrong in it.unlawful]
    return rows, {**walk.faults, "sum": not adds_up}, {why: len(them) for why, them in reasons.items()}


def is_more(counts, than):
    return any(count > than.get(why, 0) for why, count in counts.items())


def told_by(wrong, good):
    """What tells a wrong trace from the good one; empty if nothing does. A text that is no board or log tells it, too."""
    try:
        rows, faults, reasons = verdict(wrong)
    except judging.CannotJudge:
        return NOT_WHOLE
    if rows != good[0]:
        return UNLAWFUL
    if is_more(faults, good[1]):
        return NOT_WHOLE
    return COUNTED if is_more(reasons, good[2]) else ""


def try_edits(trace, count, seed):
    """Tries so many edits: of each kind how many there were, by what tells them; and the events of those that nothing tells."""
    judging.check = Judge().check
    drawn, found, missed = random.Random(seed), {}, {}
    good = verdict(trace)
    done = 0
    while done < count:
        kind, place = drawn.choice(KINDS), drawn.randrange(len(trace.events))
        changed = edited(trace, kind, place)
        if changed is None:
            continue
        done += 1
        told = told_by(changed[0], good)
        by = found.setdefault(kind, dict.fromkeys((*TELLS, ""), 0))
        by[told] += 1
        if told in (COUNTED, ""):
            key = (told, kind, changed[1])
            missed[key] = missed.get(key, 0) + 1
    return found, missed
