"""From the steps of a line to pieces: each a board and a log, every row with the events that it was made of.

Steps that hold the lock stand in the order of the trace. The others are moved between their two events: a wait ends at the
first place where it may, an ask stands before the take or the begin that shows it. What stands before a piece, and what the
converter adds, is made by drivers of its own and has a reason in place of events.
"""

from bisect import bisect_left
from dataclasses import dataclass, field

from steps import ONESHOT, SHARED

# A board has 16,384 calls; a piece ends at the first rest after so many.
CALLS = 15000
WINDOW, LIMIT = 100000, 99900
# The rows with which a call begins.
FIRST = ("request", "disable", "enable", "unlink", "affinity", "ask", "moment")
# Milliseconds of a tick on the kernel that was tried (CONFIG_HZ=250), and after how many ticks the count begins anew (HZ/10).
TICK, FAR = 4, 25
# IRQ_WAKE_THREAD, by include/linux/irqreturn.h.
WOKEN = "2"
# What comes of a search for a lawful placing: there is one, there is none, or its tries ran out.
FOUND, NONE, GIVEN_UP = "found", "none", "given up"


@dataclass
class Row:
    """One row of a piece's log: who made it, its words, and its events, or why it is there without one."""

    who: object
    words: list
    events: list
    reason: str = ""
    call: object = None
    place: int | None = None
    # the step that it was made of, and the first and the last place of the trace at which it may stand
    step: object = None
    span: tuple | None = None


@dataclass
class Piece:
    """A stretch of a line's trace, from rest to rest."""

    line: object
    linked: list
    depth: int
    target: int
    counts: tuple
    rows: list = field(default_factory=list)
    answers: set = field(default_factory=set)
    calls: int = 0
    unfit: list = field(default_factory=list)
    forced: int = 0
    spare: bool = False
    # the row at which the converter saw that the piece isn't lawful
    broken: int | None = None
    # how many rows stand at its head that no event is behind
    head: int = 0
    # what came of a search for a lawful placing (placing.py), if one was needed, and its tries
    placing: str = ""
    tries: int = 0

    @property
    def later(self):
        return "later" in self.answers

    @property
    def said(self):
        """What is said of the search; empty where none was needed."""
        return {"": "", FOUND: f"placed by a search, {self.tries} tries", NONE: "no placing is lawful",
                GIVEN_UP: f"placing given up after {self.tries} tries"}[self.placing]

    def keep(self, other):
        """Takes over how a search laid this piece before the trace was cut elsewhere, up to where it ends now."""
        end = max((it.place for it in self.rows if it.place is not None), default=0)
        self.rows = [it for it in other.rows if it.place is None or it.place <= end]
        self.placing, self.tries, self.broken, self.spare = other.placing, other.tries, other.broken, other.spare
        if self.placing == FOUND:
            self.forced, self.unfit = 0, []


class State:
    """What the rows so far make of a line, as far as placing needs it; `check` judges without it."""

    def __init__(self, linked):
        self.linked, self.flow, self.woken, self.running = list(linked), None, set(), set()
        self.unfinished, self.freeing, self.depth, self.asks, self.seen = set(), None, 0, {}, {}
        self.pending, self.masked, self.is_oneshot = False, False, False

    def is_active(self):
        return bool(self.woken or self.running)

    def is_at_rest(self):
        works = self.flow or self.is_active() or self.freeing or self.unfinished
        return not (works or self.pending or self.masked or self.depth) and bool(self.linked)

    def is_unused(self):
        """Whether nothing is linked, and nothing is left of what was."""
        return not (self.linked or self.flow or self.is_active() or self.freeing or self.pending)

    def apply(self, row):
        getattr(self, "do_" + row.words[0])(row)

    def do_take(self, row):
        if row.words[2] == "handle":
            self.flow, self.pending = row.who, False
        elif row.words[2] == "off":
            self.pending = self.masked = True
        elif self.kind == "edge":
            self.pending = self.masked = True

    def do_begin(self, row):
        if row.who[0] == "thread":
            device = row.who[1]
            self.woken.discard(device)
            self.running.add(device)
        else:
            device = row.words[1]
        self.seen[row.who[0] == "thread", device] = self.asks.get(device, 0)

    def do_return(self, row):
        if row.who[0] == "thread":
            device = row.who[1]
            row.words[1] = self.seen.get((True, device), 0)
            self.asks[device] = self.asks.get(device, 0) - row.words[1]
            return
        device = row.words[1]
        if row.words[2] == "handled":
            row.words[3] = self.seen.get((False, device), 0)
            self.asks[device] = self.asks.get(device, 0) - row.words[3]
        elif row.words[2] == "wake":
            self.woken.add(device)
            if self.is_oneshot:
                self.unfinished.add(device)

    def do_end(self, row):
        if row.words[3] == "killed":
            self.depth += 1
        if row.words[1] == "again":
            self.pending = False
        else:
            self.flow = None
        if row.words[2] == "unmask":
            self.masked = False

    def do_finish(self, row):
        if row.words[1] == "cleared":
            self.unfinished.discard(row.who[1])
        if row.words[2] == "unmask":
            self.masked = False

    def do_done(self, row):
        self.running.discard(row.who[1])

    def do_disable(self, row):
        self.depth += 1

    def opened(self, words):
        if words[:1] == ["started"]:
            self.depth, self.pending, self.masked = 0, False, False
        elif words[:1] == ["lowered"]:
            self.depth -= 1

    def do_enable(self, row):
        self.opened(row.words[1:])

    def do_request(self, row):
        if row.words[3] == "linked":
            if not self.linked:
                self.depth = 1
            self.linked.append(row.words[1])
            self.is_oneshot = "o" in row.words[2]
            self.opened(row.words[4:])

    def do_unlink(self, row):
        if row.words[2] != "notthere":
            self.freeing = row.words[1]
            if row.words[1] in self.linked:
                self.linked.remove(row.words[1])
            if row.words[2] == "last":
                self.depth, self.masked = 1, True

    def do_freed(self, row):
        self.freeing = None

    def do_ask(self, row):
        self.asks[row.words[1]] = self.asks.get(row.words[1], 0) + 1

    def do_nothing(self, row):
        pass

    do_hardclear = do_synced = do_affinity = do_moment = do_nothing


def cpu_of(mask):
    """The lowest processor of a mask, as a mask of it alone."""
    return mask & -mask


def owed_runs(steps):
    """Between which steps a thread owes a run: from a begin to its next one, if no wake stands between them. However
    the line looks there, it isn't at rest: a wake came after the mark was tested that the first begin stands for."""
    woken, begun, spans = set(), {}, []
    for place, step in enumerate(steps):
        device = step.more.get("device")
        if step.words[0] == "return" and step.words[2:3] == ["wake"]:
            woken.add(device)
        elif step.words[0] == "begin" and step.who[0] == "thread":
            if device not in woken and device in begun:
                spans.append((begun[device], place))
            woken.discard(device)
            begun[device] = place
    return spans


class Laying:
    """Lays the steps of one line into pieces."""

    def __init__(self, line, cuts=()):
        self.line, self.pieces, self.state, self.waits, self.cuts = line, [], None, [], sorted(cuts)
        self.steps = sorted(line.steps, key=lambda it: it.at)
        self.target, self.coming, self.kinds, self.base = 0, None, {}, 0
        self.moved, self.searched, self.place, self.due_cut = 0, 0, None, False
        self.holes, self.skipped, self.is_skipping, self.is_broken = list(line.holes), 0, False, False
        self.owed = owed_runs(self.steps)
        # where the line is aimed isn't known, or it isn't where it seemed to be
        self.is_lost, self.is_wrong = True, False

    def lay(self):
        if not self.steps:
            return []
        self.fill_notes()
        self.begin(self.line.first, self.line.depth or 0, 0)
        for place, step in enumerate(self.steps):
            self.due_cut = self.due_cut or place - 1 in self.cuts
            self.place = place
            if self.is_over_hole(step, place):
                continue
            if step.until is not None:
                self.waits.append(step)
                self.settle_waits(step.at)
                continue
            self.settle_waits(step.at)
            # a move at once makes void a change that waits
            is_free = not self.waits and (self.coming is None or step.who == ("own",))
            is_free = is_free and (self.state.is_at_rest() or self.state.is_unused())
            if is_free and (self.due_cut or self.wants_cut(step)) and not any(a < place <= b for a, b in self.owed):
                self.begin(self.state.linked, 0, place)
            self.put_step(step)
        self.settle_waits(float("inf"))
        return self.pieces

    def is_over_hole(self, step, place):
        """Where probes missed an interrupt, the steps up to the next rest stand in no row: a new piece begins there."""
        while self.holes and self.holes[0] < step.at:
            self.holes.pop(0)
            self.is_skipping, self.is_lost, self.waits = True, True, []
            self.state.pending = self.state.masked = False
        if self.is_skipping and step.words[0] == "take" and self.state.is_at_rest():
            self.is_skipping = False
            self.begin(self.state.linked, 0, place)
        if self.is_skipping:
            words = ["take", step.words[1], step.words[2] or "off"] if step.words[0] == "take" else list(step.words)
            self.state.apply(Row(step.who, words, []))
            self.skipped += 1
        return self.is_skipping

    def fill_notes(self):
        """What a note made of the counts is seen by the next note; of the last one it isn't if only threads were woken."""
        ends = [it for it in self.line.ends]
        for this, after in zip(ends, [*ends[1:], None]):
            if this.words[3] is not None:
                continue
            this.words[3] = "counted" if self.was_counted(this, after) else "quiet"
            note = this.more["note"]
            this.more["unseen"] = this.words[3] == "quiet" and after is None and note and note.args.get("ret") == WOKEN

    def was_counted(self, this, after):
        note, later = this.more["note"], after and after.more["note"]
        if not note:
            return False
        unhandled, count = int(note.args.get("unh", 0)), int(note.args.get("cnt", 0))
        if later and int(later.args.get("cnt", 0)) != 0:
            return int(later.args["cnt"]) != count
        return unhandled > 0 or int(note.args.get("ret", 1)) == 0

    # ---- pieces

    def begin(self, linked, depth, place):
        """Begins a piece: what was linked stands at its head."""
        self.due_cut = False
        note = self.note_from(place)
        counts = tuple(int(note.args.get(it, 0)) for it in ("cnt", "unh", "lun")) if note else (0, 0, 0)
        if self.is_wrong:
            self.target, self.is_wrong = self.next_target(self.steps[place].at), False
        if self.target == 0 or self.is_lost:
            self.target, self.coming, self.is_lost = self.first_target(place), None, False
        piece = Piece(self.line, list(linked), depth, self.target, counts)
        self.pieces.append(piece)
        self.state = State([])
        self.state.kind = self.line.kind
        self.coming, self.kinds, self.base = None, {}, counts[2] if counts[1] else 0
        for number, device in enumerate(linked):
            flags = self.flags_of(device, len(linked))
            self.put(Row(("device", device), ["request", device, flags, "linked", *([] if number else ["started"]), "no"], [],
                         "linked before this piece", ["request", device]))
        for _ in range(depth if linked else 0):
            self.put(Row(("own",), ["disable"], [], "disabled before this piece", ["disable_nosync"]))
        if counts[1]:
            self.prelude(piece, place)
        piece.head = len(piece.rows)

    def flags_of(self, device, count):
        flags = device.flags if device.flags is not None else self.line.flags
        if flags is None:
            return "s" if count > 1 else "-"
        return ("s" if flags & SHARED else "") + ("o" if flags & ONESHOT else "") or "-"

    def prelude(self, piece, place):
        """A round in which nothing is found, so that the count of unhandled ends isn't 0; before it one that wakes, if the last did."""
        if not piece.linked or piece.depth:
            return
        why = "the count of unhandled ends before this piece"
        note = self.note_from(place)
        if int(note.args.get("thl", 0)) < 0:
            device = next((it.more["device"] for it in self.steps[place:] if it.more.get("answer") == "wake"), None)
            if device:
                self.ask(device, why)
                self.round(piece, device, "quiet", why)
                finish = ["finish", "cleared", "unmask" if self.state.masked else "asis"]
                for words in [["begin"], ["return", 0], *([finish] if self.state.is_oneshot else []), ["done"]]:
                    self.put(Row(("thread", device), words, [], why))
        self.ask(None, why)
        self.round(piece, None, "counted", why)

    def round(self, piece, woken, note, why):
        """A round of the head: each handler finds nothing, but one that wakes."""
        cpu = f"c{(self.target or 1).bit_length() - 1}"
        self.put(Row(cpu, ["take", "line", "handle"], [], why))
        masks = self.line.kind == "level" or self.line.kind == "eoi" and self.state.is_oneshot
        self.state.masked = masks
        for device in piece.linked:
            self.put(Row(cpu, ["begin", device], [], why))
            self.put(Row(cpu, ["return", device, "wake" if device is woken else "nothing", 0], [], why))
        opens = masks and not self.state.unfinished
        self.put(Row(cpu, ["end", "leave", "unmask" if opens else "asis", note], [], why))

    def note_from(self, place):
        """The first note from a place on."""
        return next((it.more["note"] for it in self.steps[place:] if it.words[0] == "end" and it.more.get("note")), None)

    def first_target(self, place):
        """Where a line is aimed as a piece begins that nothing stands before: where its first interrupt comes."""
        cpus = (it.who for it in self.steps[place:] if it.words[0] == "take" and it.words[1] == "line")
        cpu = next(cpus, None)
        return 1 << int(cpu[1:]) if cpu else self.next_target(self.steps[place].at)

    def next_target(self, at, second=False):
        """Where the kernel aims the line from a place on, as its next handled take shows, or the one after that: a move that
        waits is made before the handlers of an edge line, and after those of another."""
        masks = [mask for place, mask in self.line.targets[bisect_left(self.line.targets, (at, 0)) :][: 1 + second] if mask]
        return cpu_of(masks[-1]) if masks else cpu_of(self.line.targets[-1][1] or 1) if self.line.targets else 1

    def wants_cut(self, step):
        piece = self.pieces[-1]
        if piece.calls > CALLS:
            return True
        if step.words[0] == "take":
            for device, answer in (it for one in step.more.get("rounds", []) for it in one):
                if {self.kinds.get(device), answer} == {"handled", "wake"}:
                    return True
        if step.words[0] == "affinity" and step.words[2] in ("now", "later"):
            return {step.words[2], *piece.answers} == {"now", "later"}
        return False

    # ---- rows

    def put(self, row):
        row.place = self.place
        row.span = row.step.span() if row.step else (self.steps[row.place].at,) * 2 if row.place is not None else None
        self.pieces[-1].rows.append(row)
        self.pieces[-1].calls += row.call is not None and (row.words[0] in FIRST or row.words[0] == "hardclear" and row.call == ["sync"])
        self.state.apply(row)

    def ask(self, device, reason):
        """A device asks; with none, the spare device that is never linked."""
        device = device or "spare"
        if device == "spare":
            self.pieces[-1].spare = True
        self.put(Row(("asks",), ["ask", device], [], reason, ["ask", device]))

    def put_step(self, step):
        kind = step.words[0]
        if kind in ("take", "affinity"):
            getattr(self, "put_" + kind)(step)
            return
        if kind == "begin" and step.who[0] == "c":
            device, answer = step.more["device"], step.more.get("answer")
            if answer in ("handled", "wake"):
                self.kinds[device] = answer
                if self.state.asks.get(device, 0) == 0:
                    self.ask(device, "its handler found it")
            elif answer == "nothing" and self.state.asks.get(device, 0) > 0:
                self.pieces[-1].unfit.append("a handler that finds nothing, though its thread has yet to serve what it found")
        elif kind == "begin" and step.more["device"] not in self.state.woken:
            self.move_begin(step.more["device"])
        elif kind == "end" and step.more.get("note") and int(step.more["note"].args.get("ret", 1)) == 0:
            self.moment(step)
        self.put(Row(step.who, list(step.words), step.events, call=step.call, step=step))

    def moment(self, step):
        """The time of a note that finds nothing, where it is long after the one before: only then it counts."""
        place = step.more["nth"]
        after = next((it.more["note"] for it in self.line.ends[place + 1 : place + 2] if it.more["note"]), None)
        before, now = int(step.more["note"].args.get("lun", 0)), int(after.args.get("lun", 0)) if after else 0
        self.base = self.base or before
        if before and now - before > FAR:
            self.put(Row(("own",), ["moment", (now - self.base) * TICK + 1], [], "the time of the note", ["moment"]))

    def put_take(self, step):
        """A take, with the ask that is behind it, and a move where it comes on another processor than the last change says."""
        cpu, words = 1 << int(step.who[1:]), list(step.words)
        if words[2] is None:
            words[2] = "busy" if self.state.flow else "off"
        if cpu != self.target and words[1] == "line" and self.pieces[-1].broken is None:
            # not lawful, and said so by `check`: what follows is judged from the next rest on
            self.due_cut, self.is_broken, self.is_wrong = True, True, True
        if step.words[1] == "line":
            found = [device for device, answer in (step.more.get("rounds") or [[]])[0] if answer in ("handled", "wake")]
            is_high = self.line.kind != "edge" and any(self.state.asks.values())
            if not is_high:
                self.ask(next((it for it in found if not self.state.asks.get(it)), None), "an interrupt came")
        if self.is_broken:
            self.pieces[-1].broken, self.is_broken = len(self.pieces[-1].rows), False
        self.put(Row(step.who, words, step.events, step=step))
        if self.coming is not None:
            self.target, self.coming = self.coming, None

    def put_affinity(self, step):
        mask, words = step.words[1], list(step.words)
        target = mask if mask & mask - 1 == 0 else self.next_target(step.at + 1, words[2] == "later" and self.line.kind != "edge")
        words[1] = target if target & mask else cpu_of(mask) or mask
        if step.who == ("own",) and words[1] == self.target and self.coming is None:
            self.line.drop(step.events, "a start or a move that aims a line where it is aimed")
            return
        if words[2] == "now":
            self.target = words[1]
        elif words[2] == "later":
            self.coming = words[1]
        if words[2] in ("now", "later"):
            self.pieces[-1].answers.add(words[2])
        self.moved += step.who == ("own",)
        self.put(Row(step.who, words, step.events, call=step.call, step=step))

    # ---- what is made without the lock

    def move_begin(self, device):
        """A run begins before the wake that followed the begin of the run before: that begin is moved to before it."""
        rows = self.pieces[-1].rows
        places = [n for n, it in enumerate(rows) if it.who == ("thread", device) and it.words[0] == "begin"]
        if not places:
            return
        wakes = [n for n, it in enumerate(rows[: places[-1]]) if it.words[0] == "return" and it.words[1:3] == [device, "wake"]]
        if wakes:
            rows.insert(wakes[-1], rows.pop(places[-1]))
            self.state.woken.add(device)
            self.searched += 1

    def may(self, step):
        """Whether a step that waits may come now."""
        word, state = step.words[0], self.state
        if word in ("hardclear", "finish"):
            return state.flow is None
        if word == "synced":
            return not state.is_active()
        if word == "freed":
            return step.more["device"] not in state.woken | state.running
        return True

    def settle_waits(self, at):
        """Puts the waiting steps that may come, in their order; one whose time is over is put as it is."""
        left = []
        for step in self.waits:
            held = any(it.call is not None and it.call is step.call or it.who[0] == "thread" and it.who == step.who for it in left)
            if not held and (self.may(step) or step.until <= at):
                self.pieces[-1].forced += not self.may(step)
                if step.words[0] == "finish":
                    step.words[1] = "kept" if step.who[1] in self.state.woken else "cleared"
                self.put_step(step)
            else:
                left.append(step)
        self.waits = left
