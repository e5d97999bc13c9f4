"""Every order of small pieces, to compare the search over placings with: each within the places of its entries, either with
asks as the search has them and nothing remembered, or with asks wherever a device may make one.

The traces are those that were written by hand, with some events moved over later ones of other processors.
"""

import copy
import random

from calls import Calls
from due import Due, first_difference
from judging import Line
from placing import Put, Search, ask, entries_of, lay_anew, put_if_due, puts
from writing import Written

# Moves of one trace, and the most events that one event is moved over.
MOVES, FAR = 5, 12
# So many entries are put for one answer.
MOST = 60000


class TooMany(Exception):
    """There are more orders than are tried."""


def jumbled(trace, drawn):
    """The trace with some events moved over later ones of other actors on other processors."""
    events = list(trace.events)
    for _ in range(drawn.randint(1, MOVES)):
        place = drawn.randrange(len(events) - 1)
        for _ in range(drawn.randint(1, FAR)):
            pair = events[place : place + 2]
            if len(pair) < 2 or pair[0].who == pair[1].who or pair[0].cpu == pair[1].cpu:
                break
            events[place : place + 2] = reversed(pair)
            place += 1
    other = copy.copy(trace)
    other.events = [it._replace(number=n, time=n) for n, it in enumerate(events, 1)]
    return other


def pieces_of(trace):
    """The pieces of a trace as they are laid first: whether each is lawful, its entries, and the line before them."""
    lines = Calls(trace).walk()
    for steps in (it for it in lines.values() if it.steps):
        line = Line(steps, 32)
        line.lay(())
        for piece in line.pieces:
            written = Written(piece, 32)
            board, log = list(written.board()), list(written.log())
            due = Due(board)
            for row in log[: piece.head]:
                _, who, *words = row.split(" ")
                due.apply(who, words)
            yield piece, first_difference(board, log)[0] is None, entries_of(piece, written), due


def has_order(entries, line, has_free_asks):
    """Whether the entries have a lawful order."""
    met, left = set(), [MOST]

    def follows(done, line):
        if len(done) == len(entries):
            return True
        left[0] -= 1
        if left[0] < 0:
            raise TooMany
        stand = (done, line.likeness())
        if has_free_asks and stand in met:
            return False
        met.add(stand)
        over = min(it.last for number, it in enumerate(entries) if number not in done)
        for number, entry in enumerate(entries):
            if number in done or entry.first > over or not done.issuperset(entry.before):
                continue
            for put in as_due(line, number, entry) if has_free_asks else puts(line, number, entry):
                if follows(done | {number}, after(line, put.asks, entry.who, put.words)):
                    return True
        return has_free_asks and any(follows(done, after(line, [device])) for device in line.devices)

    return follows(frozenset(), line.copy())


def after(line, asks, who=None, words=None):
    """The line after some asks and an entry."""
    line = line.copy()
    for it in asks:
        line.do_ask("asks", ["ask", it]) if isinstance(it, str) and it != "spare" else ask(line, [it])
    if words:
        line.apply(who, words)
    return line


def as_due(line, number, entry):
    """The entry without an ask of its own, if it is due as the line stands."""
    put = put_if_due(line, number, entry)
    if put and put.asks:
        due = line.due(entry.who)
        put = Put(number, put.words, []) if due == " ".join(put.words) else None
    return [put] if put else []


def try_orders(traces, count, seed):
    """Of so many traces: how many pieces were lawful at once, placed by the search, and without a lawful placing; how many had
    too many orders; and the names of the traces whose answers differ."""
    drawn, sums, wrong = random.Random(seed), dict.fromkeys(("at once", "placed", "none", "too many"), 0), []
    for nth in range(count):
        name, trace = drawn.choice(traces)
        for piece, is_lawful, entries, line in pieces_of(jumbled(trace, drawn)):
            search = Search(entries, line.copy())
            found = search.run(MOST)
            try:
                is_same = {has_order(entries, line, asks) for asks in (False, True)} == {found}
            except TooMany:
                sums["too many"] += 1
                continue
            sums["at once" if is_lawful else "placed" if found else "none"] += 1
            if not is_same or is_lawful and not found or found and not is_kept(piece, search):
                wrong.append(f"{name}, trace {nth + 1}")
    return sums, wrong


def is_kept(piece, search):
    """Whether the rows that a search laid are lawful, and of the same events as before."""
    laid = copy.copy(piece)
    lay_anew(laid, search.entries, search.path)
    written = Written(laid, 32)
    events = [sorted(it.events for it in one.rows if it.events) for one in (piece, laid)]
    return events[0] == events[1] and first_difference(list(written.board()), list(written.log()))[0] is None
