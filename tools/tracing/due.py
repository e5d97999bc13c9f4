"""What was due in place of a row: the table of steps (docs/DEFINITIONS.md, section 11) over one line, kept row by row.

It explains a verdict and gives none: `genirq check` judges. A history is looked through once, so long pieces can be.
The search over placings (placing.py) goes by it too, on copies of a line.
"""

from copy import copy

FLAGS = {"shared": "s", "oneshot": "o", "noauto": "n"}
SEVERAL = {"sync": 2, "disable": 3, "free": 3}


class Due:
    """One line of a board, and what its rows so far make of it."""

    def __init__(self, board):
        self.devices, self.scripts, self.driver, self.later, self.cpus = {}, {}, None, False, 1
        self.kind, self.recalls, self.window, self.limit = "edge", False, 100000, 99900
        for row in board:
            self.read(row.partition("#")[0].split())
        self.linked, self.flags, self.depth, self.masked, self.pending, self.soft = [], {}, 1, True, False, False
        self.sent = self.stored = self.killed = False
        self.flow, self.at_work, self.called, self.answers = None, None, [], []
        self.woken, self.stage, self.unfinished, self.asks, self.seen = set(), {}, set(), {}, {}
        self.freeing = self.waiting = None
        self.made = {it: [0, 0] for it in self.scripts}
        self.count = self.unhandled = self.served = self.last = self.now = self.last_time = 0
        self.deferred = False

    def read(self, words):
        if not words:
            return
        if words[0] == "cpus":
            self.cpus = int(words[1])
        elif words[0] == "spurious":
            self.window, self.limit = int(words[1]), int(words[2])
        elif words[0] == "domain" and words[3] in ("eoi", "level"):
            self.kind = words[3]
        elif words[0] == "domain":
            self.recalls = words[3] == "latch"
        elif words[0] == "line":
            self.mask, self.later = int(words[words.index("mask") + 1]), "later" in words
        elif words[0] == "device":
            self.devices[words[1]] = words[3]
        elif words[0] == "driver":
            self.driver = "d" + words[1]
            self.scripts[self.driver] = []
        elif self.driver:
            self.scripts[self.driver].append(words)

    # ---- copies

    def copy(self):
        """The line as it stands; the board is shared."""
        other = copy(self)
        for name in ("linked", "called", "answers", "flags", "stage", "asks", "seen", "woken", "unfinished"):
            setattr(other, name, getattr(self, name).copy())
        other.made = {who: list(it) for who, it in self.made.items()}
        return other

    def likeness(self):
        """What all that is due from now on depends on, if the same entries stand before: of asks only whether there are
        any, now and behind the run that is under way, and of what threads served only whether a note has seen it."""
        asks = []
        for device, many in self.asks.items():
            seen = self.seen.get("t" + device, 0) if self.stage.get(device) == "begun" else 0
            asks.append((device, many > 0, seen > 0, many > seen))
        return (
            self.flow, self.at_work, self.at_work and self.seen[self.at_work] > 0, tuple(self.called),
            tuple(self.answers), frozenset(self.woken), tuple(sorted(self.stage.items())), frozenset(self.unfinished),
            tuple(sorted(asks)),
            tuple(self.linked), self.depth, self.masked, self.pending, self.soft, self.sent, self.stored, self.killed,
            self.freeing, self.mask, self.waiting, self.count, self.unhandled, self.deferred, self.served != self.last,
            self.last_time,
        )

    # ---- what is due

    def due(self, who):
        return {"t": self.of_thread, "c": self.of_cpu, "d": self.of_driver}[who[0]](who)

    def of_thread(self, who):
        device = who[1:]
        stage = self.stage.get(device)
        if stage is None:
            return "begin" if device in self.woken else None
        if stage == "begun":
            return f"return {self.seen['t' + device]}"
        if stage == "returned" and self.is_oneshot():
            if self.flow:
                return None
            kept = device in self.woken
            opens = not kept and self.depth == 0 and self.masked and not self.unfinished - {device}
            return f"finish {'kept' if kept else 'cleared'} {'unmask' if opens else 'asis'}"
        return "done"

    def is_oneshot(self):
        return "o" in self.flags.get("", "")

    def is_high(self):
        return any(self.asks.values())

    def signals(self):
        if self.kind == "edge":
            return self.sent
        return self.is_high() and not self.masked and not (self.kind == "eoi" and self.flow)

    def of_cpu(self, who):
        if self.flow == who:
            return self.of_flow()
        if who != f"c{(self.mask & -self.mask).bit_length() - 1}" or not (self.signals() or self.soft):
            return None
        answer = "busy" if self.flow else "off" if self.depth or not self.linked else "handle"
        return f"take {'line' if self.signals() else 'resend'} {answer}"

    def of_flow(self):
        if self.at_work:
            kind, asked = self.devices[self.at_work], self.seen[self.at_work]
            if kind == "null" or kind == "check" and asked:
                return f"return {self.at_work} wake 0"
            return f"return {self.at_work} {f'handled {asked}' if kind == 'direct' and asked else 'nothing 0'}"
        ahead = [it for it in self.linked if it not in self.called]
        if ahead:
            return f"begin {ahead[0]}"
        note = self.note()[0]
        off = self.depth > 0 or note == "killed"
        again = self.kind == "edge" and self.pending and not off
        opens = again and self.masked if self.kind == "edge" else (
            not off and self.masked and not self.unfinished and (self.kind == "level" or self.is_oneshot()))
        return f"end {'again' if again else 'leave'} {'unmask' if opens else 'asis'} {note}"

    def of_driver(self, who):
        script, (place, made) = self.scripts.get(who, []), self.made.get(who, (0, 0))
        if place >= len(script):
            return None
        word, *words = script[place]
        if (word, made) in (("disable", 1), ("sync", 0), ("free", 1)):
            return None if self.flow else "hardclear"
        if (word, made) in (("disable", 2), ("sync", 1)):
            return None if self.woken or self.stage else "synced"
        if (word, made) == ("free", 2):
            return None if words[0] in self.woken or words[0] in self.stage else f"freed {words[0]}"
        if word in ("free", "request") and self.freeing:
            return None
        return getattr(self, "first_" + word, lambda it: word.split("_")[0])(words)

    def first_free(self, words):
        return f"unlink {words[0]} {'notthere' if words[0] not in self.linked else 'last' if len(self.linked) == 1 else 'more'}"

    def first_ask(self, words):
        return f"ask {words[0]}"

    def first_moment(self, words):
        return f"moment {words[1]}"

    def first_affinity(self, words):
        there = int(words[1]) & (1 << self.cpus) - 1
        return f"affinity {words[1]} {'refused 22' if not there else 'later' if self.later else 'now'}"

    def resend(self):
        return "chip" if self.kind == "edge" and self.pending else "no"

    def first_enable(self, _):
        if not self.linked or not self.depth:
            return "enable unbalanced"
        return f"enable started {self.resend()}" if self.depth == 1 else "enable lowered"

    def first_request(self, words):
        flags = "".join(letter for word, letter in FLAGS.items() if word in words) or "-"
        head = f"request {words[0]} {flags}"
        there = [self.flags[it] for it in self.linked]
        if "s" in flags and "n" in flags:
            return head + " refused 22"
        if any("s" not in it or "s" not in flags or ("o" in it) != ("o" in flags) for it in there):
            return head + " refused 16"
        if self.devices[words[0]] == "null" and "o" not in flags:
            return head + " refused 22"
        if not self.linked:
            return head + (" linked no" if "n" in flags else f" linked started {self.resend()}")
        return head + (" linked" + self.first_enable(words)[len("enable"):] if self.killed else " linked no")

    # ---- the note

    def note(self):
        """The note that is due, and the counts after it."""
        wake, handled = "wake" in self.answers, "handled" in self.answers
        count, unhandled, deferred, last, time = self.count, self.unhandled, self.deferred, self.last, self.last_time
        if wake and not handled and not deferred:
            return "quiet", (count, unhandled, True, last, time)
        if wake and not handled:
            handled, last = self.served != last, self.served
        elif wake:
            deferred = False
        if not handled:
            unhandled, time = 1 if self.now > time + 100 else unhandled + 1, self.now
        if not unhandled:
            return "quiet", (count, unhandled, deferred, last, time)
        count += 1
        if count < self.window:
            return "counted", (count, unhandled, deferred, last, time)
        return "killed" if unhandled > self.limit else "counted", (0, 0, deferred, last, time)

    # ---- what a row makes of the line

    def apply(self, who, words):
        getattr(self, ("thread_" if who[0] == "t" else "do_") + words[0])(who, words)
        if who[0] == "d" and who in self.made:
            script, place = self.scripts[who], self.made[who]
            place[1] += 1
            word = script[place[0]][0]
            if place[1] >= (1 if words[-1] == "notthere" else SEVERAL.get(word, 1)):
                place[:] = [place[0] + 1, 0]

    def open(self, resend):
        self.depth, self.masked, self.pending = 0, False, False
        self.sent, self.stored = self.sent or self.stored or resend == "chip", False

    def close(self):
        self.masked = True
        if self.recalls and self.sent:
            self.sent, self.stored = False, True

    def do_ask(self, who, words):
        self.asks[words[1]] = self.asks.get(words[1], 0) + 1
        if self.kind == "edge":
            self.sent, self.stored = self.sent or not self.masked, self.stored or self.masked

    def do_take(self, who, words):
        self.sent = False
        if self.waiting is not None:
            self.mask, self.waiting = self.waiting, None
        if words[2] == "handle":
            self.flow, self.called, self.answers, self.pending = who, [], [], False
            self.masked = self.masked or self.kind == "level" or self.kind == "eoi" and self.is_oneshot()
            return
        self.pending = self.pending or words[2] == "off" or self.kind == "edge"
        if self.kind != "eoi" or words[2] == "off":
            self.close() if self.kind == "edge" else setattr(self, "masked", True)

    def do_begin(self, who, words):
        self.at_work = words[1]
        self.called.append(words[1])
        self.seen[words[1]] = self.asks.get(words[1], 0)

    def do_return(self, who, words):
        self.at_work = None
        self.answers.append(words[2])
        if words[2] == "handled":
            self.asks[words[1]] -= self.seen[words[1]]
        elif words[2] == "wake":
            self.woken.add(words[1])
            if self.is_oneshot():
                self.unfinished.add(words[1])

    def do_end(self, who, words):
        self.count, self.unhandled, self.deferred, self.last, self.last_time = self.note()[1]
        if words[3] == "killed":
            self.depth, self.killed = self.depth + 1, True
        if words[2] == "unmask":
            self.masked, self.sent, self.stored = False, self.sent or self.stored, False
        self.called, self.answers = [], []
        if words[1] == "again":
            self.pending = False
        else:
            self.flow = None

    def thread_begin(self, who, words):
        self.woken.discard(who[1:])
        self.stage[who[1:]] = "begun"
        self.seen[who] = self.asks.get(who[1:], 0)

    def thread_return(self, who, words):
        self.stage[who[1:]] = "returned"
        self.served += self.seen[who] > 0
        self.asks[who[1:]] = self.asks.get(who[1:], 0) - self.seen[who]

    def thread_finish(self, who, words):
        self.stage[who[1:]] = "finished"
        if words[1] == "cleared":
            self.unfinished.discard(who[1:])
        if words[2] == "unmask":
            self.masked = False

    def thread_done(self, who, words):
        self.stage.pop(who[1:], None)

    def do_disable(self, who, words):
        self.depth += 1

    def do_enable(self, who, words):
        self.opened(words[1:])

    def opened(self, words):
        if words[0] == "started":
            self.open(words[1])
        elif words[0] == "lowered":
            self.depth -= 1

    def do_request(self, who, words):
        if words[3] == "refused":
            return
        if not self.linked:
            self.depth = 1
        self.linked.append(words[1])
        self.flags[words[1]] = self.flags[""] = words[2]
        self.count, self.unhandled, self.killed = 0, 0, False
        self.opened(words[4:])

    def do_unlink(self, who, words):
        if words[2] == "notthere":
            return
        self.linked.remove(words[1])
        self.freeing = words[1]
        if words[2] == "last":
            self.depth = 1
            self.close()

    def do_freed(self, who, words):
        self.freeing = None

    def do_affinity(self, who, words):
        if words[2] == "now":
            self.mask, self.waiting = int(words[1]), None
        elif words[2] == "later":
            self.waiting = int(words[1])

    def do_moment(self, who, words):
        self.now = max(self.now, int(words[1]))

    def do_nothing(self, who, words):
        pass

    do_hardclear = do_synced = do_nothing


def first_difference(board, log):
    """The number of the first row that isn't due, and what was due of its actor (None for nothing); (None, None) if all are."""
    line = Due(board)
    for number, row in enumerate(log, 1):
        _, who, *words = row.split(" ")
        due = line.due(who)
        if due != " ".join(words):
            return number, due
        line.apply(who, words)
    return None, None
