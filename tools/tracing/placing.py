"""A search for a lawful placing of a piece, where the first way to lay it isn't lawful: what is made without the lock
is moved, each entry between its two events, and what is made under it keeps its order.

The first way is followed up to its first entry that isn't due. There another that is due may be put; where none is, the
search goes back over what was put last. A **try** is one entry that is put after the search left the first way. It is
over when all entries stand, when each placing was met, or after so many tries. What is due is said by `Due`. Where the
line stands as it did before with the same entries to come, what follows was tried already.
"""

from dataclasses import dataclass, field, replace

from due import Due, first_difference
from laying import FOUND, GIVEN_UP, NONE, Row
from writing import SPARE, Written

# So many tries are made for a piece.
MOST = 50000
# Waits: nothing is forbidden by one that stands, so each is put as soon as it may come.
WAITS = ("hardclear", "synced", "freed")
# Why an ask stands before an entry.
CAUSES = {"take": "an interrupt came", "begin": "it was found", "unlink": "an interrupt came before the mask"}


@dataclass(eq=False)
class Entry:
    """An entry that is to be placed: its row, who makes it, its words, None where only what stands before says them,
    and the first and the last place at which it may stand."""

    row: object
    who: str
    words: list
    first: int
    last: int
    # the rows of asks that the first way put before it
    asked: list
    # the numbers of the entries that it stands behind: its actor's last, and if it has one place the last of these
    before: list = field(default_factory=list)
    is_early: bool = False

    def is_fixed(self):
        return self.first == self.last


@dataclass
class Put:
    """An entry in its place: its number, its words as they were due, and the devices that ask before it."""

    number: int
    words: list
    asks: list


@dataclass
class Node:
    """Where a search stands: the line, how many entries could come so far by their first places, which of them are
    still to come, how many of those with one place stand, and how many entries in all."""

    line: Due
    opened: int = 0
    left: list = field(default_factory=list)
    fixed: int = 0
    length: int = 0

    def copy(self):
        return replace(self, line=self.line.copy(), left=list(self.left))


# ---- the entries of a piece


def entries_of(piece, written):
    """The entries of a piece behind its head, in the order of its rows; asks aren't among them."""
    entries, asked = [], []
    for row in piece.rows[piece.head :]:
        if row.words[0] == "ask":
            asked.append(row)
            continue
        words = [written.word(it) for it in row.words]
        entries.append(Entry(row, written.who(row), open_words(row, words) if row.step else words, *row.span, asked))
        asked = []
    keep_order([it for it in range(len(entries)) if entries[it].is_fixed()], entries, lambda it: "")
    keep_order(sorted(range(len(entries)), key=lambda it: (at_of(entries[it]), it)), entries, lambda it: it.who)
    mark_early(entries)
    return entries


def open_words(row, words):
    """The words of a row, with None where what stands before says them: how many asks a return served, whether a finish
    that doesn't unmask cleared, why a take isn't handled, and the last note where the trace doesn't tell."""
    if words[0] == "return" or words[0] == "end" and row.step.more.get("unseen"):
        return [*words[:-1], None]
    if words[0] == "finish" and row.step.until is not None:
        return [words[0], None, words[2]]
    return [*words[:2], None] if words[0] == "take" and row.step.words[2] is None else words


def at_of(entry):
    """The place of its own event, by which the entries of an actor are in order."""
    return entry.row.step.at if entry.row.step else entry.first


def keep_order(numbers, entries, key):
    """Says of each of these entries, in order, which one of the same key it stands behind."""
    last = {}
    for number in numbers:
        mine = key(entries[number])
        entries[number].before += [last[mine]] if mine in last else []
        last[mine] = number


def mark_early(entries):
    """Marks the last unlinks before which an edge may be sent that is taken behind them."""
    way = None
    for it in reversed(entries):
        if it.words[0] == "take":
            way = it.words[1]
        it.is_early = it.words[:1] + it.words[2:] == ["unlink", "last"] and way == "line"


# ---- how an entry is put


def asks_before(line, entry):
    """The devices that ask before an entry: before a take one that its handlers find, else the spare one; before a
    begin one that its handler finds; and the spare one before an edge line is masked, if a take comes behind."""
    if entry.is_early:
        return ["spare"] if line.kind == "edge" and not line.recalls and not line.sent else []
    more = entry.row.step.more if entry.row.step else {}
    if entry.words[:2] == ["take", "line"]:
        if line.sent or line.kind != "edge" and line.is_high():
            return []
        found = [device for device, answer in (more.get("rounds") or [[]])[0] if answer in ("handled", "wake")]
        return [next((it for it in found if not line.asks.get(str(it.number))), "spare")]
    if entry.words[0] == "begin" and more.get("answer") in ("handled", "wake"):
        return [] if line.asks.get(entry.words[1]) else [more["device"]]
    return []


def ask(line, devices):
    for it in devices:
        line.do_ask("asks", ["ask", str(SPARE) if it == "spare" else str(it.number)])


def put_if_due(line, number, entry):
    """The entry as it is put, if it is due of its actor now, else None; the line stays as it is."""
    asks, sent, stored, many = asks_before(line, entry), line.sent, line.stored, line.asks
    if asks:
        line.asks = dict(many)
        ask(line, asks)
    due = (line.due(entry.who) or "").split()
    line.asks, line.sent, line.stored = many, sent, stored
    if len(due) != len(entry.words) or any(want not in (None, have) for want, have in zip(entry.words, due)):
        return None
    # what is open of a take is busy or off, of a note counted or quiet
    is_other = entry.words[-1] is None and due[-1] in ("handle", "killed")
    return None if is_other else Put(number, due, asks)


def puts(line, number, entry):
    """How an entry may be put now, if it is due. A run that served, as its thread says, may have had its own ask."""
    put = put_if_due(line, number, entry)
    more = entry.row.step.more if put and entry.row.step else {}
    if more.get("served") and not line.asks.get(str(more["device"].number)):
        return [put, Put(number, put.words, [more["device"]])]
    return [put] if put else []


class Search:
    """A search over the placings of some entries, from a line as it stands before them."""

    def __init__(self, entries, line):
        self.entries, self.by_first = entries, sorted(range(len(entries)), key=lambda it: (entries[it].first, it))
        self.node, self.path, self.stands = Node(line), [], bytearray(len(entries))
        self.stack, self.met, self.tries, self.has_left = [], set(), 0, False
        # the way that came furthest: how many of its entries have one place, all of them, and the one that was too late
        self.furthest = (-1, [], None)

    def run(self, most):
        """Whether all entries stand at last: True or False, or None if the tries ran out."""
        while True:
            self.open()
            if not self.node.left:
                return True
            choices = self.choices()
            if not choices:
                self.look()
                if not self.stack:
                    return False
                choices = self.back()
            self.has_left = self.has_left or choices[0].number != len(self.path)
            if self.has_left and self.tries == most:
                return None
            if len(choices) > 1:
                self.stack.append((self.node.copy(), choices[1:]))
            self.put(choices[0])

    def over(self):
        """The earliest place at which an entry that is still to come must stand."""
        return min(self.entries[it].last for it in self.node.left)

    def open(self):
        """Takes in what may come by its first place."""
        node = self.node
        while node.opened < len(self.entries):
            number = self.by_first[node.opened]
            if node.left and self.entries[number].first > self.over():
                break
            node.left.append(number)
            node.opened += 1

    def choices(self):
        """What may be put next, in the order of the first way; nothing where the line was met as it stands."""
        met = (self.node.opened, frozenset(self.node.left), self.node.line.likeness())
        if met in self.met:
            return []
        self.met.add(met)
        found, over = [], self.over()
        for number in sorted(self.node.left):
            entry = self.entries[number]
            if entry.first <= over and all(self.stands[it] for it in entry.before):
                ways = puts(self.node.line, number, entry)
                if ways and entry.words[0] in WAITS:
                    return ways
                found += ways
        return found

    def put(self, put):
        node, entry = self.node, self.entries[put.number]
        ask(node.line, put.asks)
        node.line.apply(entry.who, put.words)
        node.left.remove(put.number)
        node.fixed, node.length = node.fixed + entry.is_fixed(), node.length + 1
        self.stands[put.number] = 1
        self.path.append(put)
        self.tries += self.has_left

    def look(self):
        """Keeps a way that came further than those before."""
        if self.node.fixed > self.furthest[0]:
            stuck = min(self.node.left, key=lambda it: (self.entries[it].last, it))
            self.furthest = (self.node.fixed, list(self.path), stuck)

    def back(self):
        """Goes back to the last place where something else may be put."""
        self.node, choices = self.stack.pop()
        for it in self.path[self.node.length :]:
            self.stands[it.number] = 0
        del self.path[self.node.length :]
        return choices


# ---- a piece


def lay_anew(piece, entries, path, rest=()):
    """Gives a piece the rows of a way, and behind them those of the other entries, as they were laid first."""
    rows, broken = piece.rows[: piece.head], piece.rows[piece.broken] if piece.broken is not None else None
    for put in path:
        entry = entries[put.number]
        for device in put.asks:
            cause = CAUSES[entry.words[0]]
            rows.append(Row(("asks",), ["ask", device], [], cause, ["ask", device], entry.row.place))
            piece.spare |= device == "spare"
        words = [due if kept is None else have for have, kept, due in zip(entry.row.words, entry.words, put.words)]
        rows.append(replace(entry.row, words=words))
    for number in rest:
        rows += [*entries[number].asked, entries[number].row]
    if broken:
        piece.broken = next(place for place, it in enumerate(rows) if it.step and it.step is broken.step)
    piece.rows = rows


def place(piece, cpus, most=MOST):
    """Looks for a lawful placing of a piece that isn't lawful as it was laid, and says on the piece what came of it.
    Where none is found, the piece is laid by the way that came furthest, if that is further than the first one. Whether
    its rows are others now."""
    written = Written(piece, cpus)
    board, log = list(written.board()), list(written.log())
    wrong, _ = first_difference(board, log)
    if wrong is None:
        return False
    if wrong <= piece.head:
        piece.placing = NONE
        return False
    line = Due(board)
    for row in log[: piece.head]:
        _, who, *words = row.split(" ")
        line.apply(who, words)
    search = Search(entries_of(piece, written), line)
    found = search.run(most)
    piece.placing, piece.tries = {True: FOUND, False: NONE, None: GIVEN_UP}[found], search.tries
    if found:
        piece.forced, piece.unfit = 0, []
        lay_anew(piece, search.entries, search.path)
        return True
    fixed, path, stuck = search.furthest
    if fixed <= sum(it.span[0] == it.span[1] for it in piece.rows[piece.head : wrong - 1] if it.words[0] != "ask"):
        return False
    stand = {it.number for it in path} | {stuck}
    rest = [stuck, *(it for it in range(len(search.entries)) if it not in stand)]
    lay_anew(piece, search.entries, path, rest)
    return True
