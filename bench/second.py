"""The rules of docs/DEFINITIONS.md once more: what is due on a line, and whole plays by `play`, `chained`,
`hotplug` and `sleep`.

It is written from the documents, to be compared with the program and with what cases/ has, and knows nothing of either. All is
looked up in histories; nothing is kept beside them. An entry is the words of its row, who made it first. Boards with domains
below others aren't read, nor are long plays played.
"""

from dataclasses import dataclass, field

SYSTEM = "d65535"
# Of each kind of controller: trigger, flow, keeps, recalls, retriggers.
CONTROLLERS = {
    "latch": ("edge", "edge", True, True, True),
    "plain": ("edge", "edge", False, False, False),
    "level": ("level", "level", False, False, False),
    "eoi": ("level", "eoi", False, False, False),
    "lpi": ("edge", "eoi", True, True, True),
    "pin": ("edge", "edge", True, True, False),
}
# How many entries a call makes, of the calls that make several.
SEVERAL = {"sync": 2, "disable": 3, "free": 3, "disable_hard": 2}
# The calls that name a device; the others name a line.
OF_DEVICES = ("request", "free", "ask", "quiet", "arm", "serve", "wake")
# All is looked up, so a long play takes long.
MOST_ROWS = 300
FLAGS = {"shared": "s", "oneshot": "o", "noauto": "n"}


class Unread(Exception):
    """A board that isn't read here."""


class Full(Exception):
    """A log is as long as the board allows, and an entry is due."""


class Long(Exception):
    """A play has many rows, and goes on."""


# ---- tests on one entry


def by(who, *verbs):
    """Whether an entry is by this one, with one of the verbs if there are some."""
    return lambda e: e[0] == who and (not verbs or e[1] in verbs)


def is_take(e, *answers):
    return e[1] == "take" and (not answers or e[3] in answers)


def is_begin(e):
    return e[0][0] == "c" and e[1] == "begin"


def is_return(e):
    return e[0][0] == "c" and e[1] == "return"


def is_linked(e):
    return e[1] == "request" and e[4] == "linked"


def is_unlink(e):
    return e[1] == "unlink" and e[3] != "notthere"


def is_start(e):
    return e[1] in ("enable", "request") and "started" in e


def is_lowering(e):
    return is_start(e) or e[1] in ("enable", "request") and "lowered" in e


def is_kill(e):
    return e[1] == "end" and e[4] == "killed"


def goes_again(e):
    return e[1] == "end" and e[2] == "again"


def makes_edge(e):
    """Whether a device makes an edge, on an edge line."""
    return e[1] == "ask" and e[-1] != "no" or e[1] == "arm" and e[-1] == "yes"


def wakes(dev):
    """Whether an entry wakes the device's thread."""
    return lambda e: is_return(e) and e[2:4] == (dev, "wake") or e[1:] == ("wake", dev, "yes")


def is_handled(e):
    """Whether a thread's return answers Handled."""
    return e[3] == "handled" if len(e) > 3 else e[2] != "0"


def place_in(calls, entries):
    """How many of the calls are complete by the entries that were made for them, and how many entries the next one has made."""
    complete = 0
    for call in calls:
        needs = 1 if entries and entries[0][-1] == "notthere" else SEVERAL.get(call[0], 1)
        if len(entries) < needs:
            break
        entries, complete = entries[needs:], complete + 1
    return complete, len(entries)


def left_of(calls, entries):
    """The first call that isn't complete, with how many entries it has made; None if there is none."""
    complete, made = place_in(calls, entries)
    return (calls[complete], made) if complete < len(calls) else None


def times(words):
    """The words, each as often as its `*N` says."""
    return [word for word, _, often in (it.partition("*") for it in words) for _ in range(int(often or 1))]


def since(past, is_it):
    """What stands after the last such entry; all of it where there is none."""
    return next((past[at + 1 :] for at in range(len(past) - 1, -1, -1) if is_it(past[at])), past)


def after_last(past, sets, clears):
    """Whether an entry that sets something stands with none after it that clears it."""
    for e in reversed(past):
        if sets(e):
            return True
        if clears(e):
            return False
    return False


@dataclass
class Line:
    """What is fixed of a line, and its history. What is asked is asked of a past, which is the history if none is handed in."""

    number: str
    trigger: str
    flow_kind: str
    keeps: bool
    recalls: bool
    retriggers: bool
    mask: int
    unlazy: bool
    later: bool
    board: object
    past: list = field(default_factory=list)

    # -- links and depth

    def devices(self):
        return [dev for dev, (line, *_) in self.board.devices.items() if line == self.number]

    def linked(self, past):
        found = []
        for e in past:
            if is_linked(e):
                found.append(e[2])
            elif is_unlink(e):
                found.remove(e[2])
        return found

    def depth(self, past):
        depth, linked = 1, 0
        for e in past:
            if is_linked(e) and linked == 0:
                depth = 0 if is_start(e) else 1
            elif is_unlink(e) and linked == 1:
                depth = 1
            elif e[1] == "disable" or is_kill(e):
                depth += 1
            elif is_lowering(e):
                depth = max(0, depth - 1)
            linked += is_linked(e) - is_unlink(e)
        return depth

    def is_off(self, past):
        return self.depth(past) > 0

    def flags_of(self, past, dev):
        return next((e[3] for e in reversed(past) if is_linked(e) and e[2] == dev), "-")

    def is_oneshot(self, past):
        return next(("o" in e[3] for e in reversed(past) if is_linked(e)), False)

    # -- asks

    def unserved(self, past, dev):
        """The asks since the last Serve of the device, and since the beginning of its last run that returned and served."""
        who, begun, served = "t" + dev, 0, 0
        in_thread = self.board.serving_part(dev) == "thread"
        for at, e in enumerate(past):
            if e[:2] == (who, "begin") if in_thread else is_begin(e) and e[2] == dev:
                begun = at + 1
            elif (e[:2] == (who, "return") and e[2] != "0") if in_thread else (is_return(e) and e[2] == dev and e[4] != "0"):
                served = max(served, begun)
            elif e[1:3] == ("serve", dev):
                served = at + 1
        return sum(1 for e in past[served:] if e[1:3] == ("ask", dev))

    def is_quiet(self, past, dev):
        return after_last(past, lambda e: e[1:3] == ("quiet", dev), lambda e: e[1:3] == ("arm", dev))

    def is_high(self, past):
        return self.trigger == "level" and any(self.unserved(past, dev) for dev in self.devices() if not self.is_quiet(past, dev))

    # -- flow, rounds, what waits

    def closes(self, e):
        return e[1] == "end" and (e[2] == "leave" or self.flow_kind == "eoi")

    def flow(self, past):
        """The processor of the flow in progress."""
        return next((None if self.closes(e) else e[0] for e in reversed(past) if is_take(e, "handle") or self.closes(e)), None)

    def round(self, past):
        return since(past, lambda e: is_take(e, "handle") or self.flow_kind != "eoi" and goes_again(e))

    def ahead(self, past):
        begun = [e[2] for e in self.round(past) if is_begin(e)]
        return [dev for dev in self.linked(past) if dev not in begun]

    def at_work(self, past):
        return next((e[2] if is_begin(e) else None for e in reversed(past) if is_begin(e) or is_return(e)), None)

    def is_pending(self, past):
        sets = ("off", "busy") if self.trigger == "edge" else ("off",)
        return after_last(past, lambda e: is_take(e, *sets), lambda e: is_take(e, "handle") or goes_again(e) or is_start(e))

    def is_soft(self, past):
        return after_last(past, lambda e: is_start(e) and e[-1] == "soft", lambda e: e[1:3] == ("take", "resend"))

    # -- mask, edges, signal

    def masks(self, e, before):
        if e[1] == "take":
            if self.flow_kind == "level":
                return True
            if self.flow_kind == "edge":
                return e[3] != "handle"
            return e[3] == "off" or e[3] == "handle" and self.trigger == "level" and self.is_oneshot(before)
        return self.unlazy and (e[1] == "disable" or is_kill(e)) or is_unlink(e) and e[3] == "last"

    def unmasks(self, e):
        return is_start(e) or e[1] in ("end", "finish") and e[3] == "unmask"

    def is_masked(self, past):
        for at in range(len(past) - 1, -1, -1):
            if self.masks(past[at], past[:at]):
                return True
            if self.unmasks(past[at]):
                return False
        return True

    def cell(self, past):
        """Whether the cell of an edge line presents an edge, and whether it stores one: what its operations leave."""
        masked, sent, stored = True, False, False
        for at, e in enumerate(past):
            if is_take(e):
                sent = False
            if makes_edge(e):
                sent, stored = sent or not masked, stored or masked and self.keeps
            if self.masks(e, past[:at]):
                masked = True
                if self.recalls and sent:
                    sent, stored = False, True
            elif self.unmasks(e):
                masked, sent, stored = False, sent or stored, False
            if is_start(e) and e[-1] == "chip" or self.flow_kind == "eoi" and goes_again(e):
                sent = True
        return (sent, stored) if self.trigger == "edge" else (False, False)

    def signals(self, past):
        if self.trigger == "edge":
            return self.cell(past)[0]
        return self.is_high(past) and not self.is_masked(past) and not (self.flow_kind == "eoi" and self.flow(past))

    def aim(self, past):
        """The mask in force, and the one that waits for the next take."""
        mask, waiting = self.mask, None
        for e in past:
            if is_take(e) and waiting is not None:
                mask, waiting = waiting, None
            if e[1] == "affinity" and e[3] != "refused":
                mask, waiting = (int(e[2]), None) if e[3] == "now" else (mask, int(e[2]))
        return mask, waiting

    def target(self, past):
        return next(f"c{cpu}" for cpu in range(self.board.cpus) if self.aim(past)[0] >> cpu & 1)

    # -- threads

    def is_woken(self, past, dev):
        return after_last(past, wakes(dev), by("t" + dev, "begin"))

    def is_running(self, past, dev):
        return after_last(past, by("t" + dev, "begin"), by("t" + dev, "done"))

    def is_unfinished(self, past, dev):
        if "o" not in self.flags_of(past, dev):
            return False
        linked = since(past, lambda e: is_linked(e) and e[2] == dev)
        finished = lambda e: e[:3] == ("t" + dev, "finish", "cleared")  # noqa: E731
        return after_last(linked, wakes(dev), finished)

    # -- scripts

    def calls(self, driver):
        return [call for line, call in self.board.scripts.get(driver, ()) if line == self.number]

    def place(self, driver, past):
        """How many of the driver's calls on the line are complete, and how many entries its next one has made."""
        return place_in(self.calls(driver), [e for e in past if e[0] == driver])

    def due_call(self, driver, past):
        """The driver's first call on the line that isn't complete, with how many entries it has made."""
        return left_of(self.calls(driver), [e for e in past if e[0] == driver])

    # -- runs of handlers and threads

    def told_word(self, past, dev, part):
        """What the board says a told device's run answers that begins after the past: the next answer, and behind the last nothing."""
        begins = by("t" + dev, "begin") if part == "thread" else lambda e: is_begin(e) and e[2] == dev
        answers = self.board.answers.get((part, dev), [])
        begun = sum(map(begins, past))
        return answers[begun] if begun < len(answers) else "nothing"

    def run_word(self, past, dev, part):
        """What a run of the part that begins after the past answers, `claims` among it."""
        kind = self.board.kind(dev)
        if kind == "told":
            return self.told_word(past, dev, part)
        if kind in ("null", "stuck", "odd") and part == "handler":
            return "wake" if kind == "null" else "nothing"
        recognises = "wake" if kind == "check" and part == "handler" else "handled"
        return recognises if self.unserved(past, dev) else "nothing"

    def returned(self, past, dev, part, run):
        """The answer of a run that began after the past, and how many asks it serves, by what came since its begin."""
        word = self.run_word(past, dev, part)
        serves = part == self.board.serving_part(dev) and (word == "handled" or self.board.kind(dev) == "odd")
        serves = serves and ("serve", dev) not in self.board.run_calls(part, dev)
        serves = serves and not any(e[1:3] == ("serve", dev) for e in run)
        return "handled" if word == "claims" else word, str(self.unserved(past, dev) if serves else 0)

    def call_of_run(self, who, past):
        """The call that a run of the thread or of the processor's handler has left, with how many entries it has made."""
        if who[0] == "t":
            if not self.is_running(past, who[1:]) or any(map(by(who, "return"), since(past, by(who, "begin")))):
                return None
            return left_of(self.board.run_calls("thread", who[1:]), [e for e in since(past, by(who, "begin")) if e[0] == who])
        dev, run = self.at_work(past), since(past, is_begin)
        if self.flow(past) != who or not dev or self.run_word(past[: len(past) - len(run) - 1], dev, "handler") == "nothing":
            return None
        return left_of(self.board.run_calls("handler", dev), [e for e in run if e[0] == who])

    def mutex_holder(self, past):
        """Who made the last unlink, if it has no Freed of the same."""
        freed = set()
        for e in reversed(past):
            if is_unlink(e):
                return None if e[0] in freed else e[0]
            if e[1] == "freed":
                freed.add(e[0])
        return None

    # -- who waits for whom

    def waits_for(self, who, past):
        """The actors that an actor waits for that has something left to do here, and no entry due."""
        if self.due(who, past):
            return set()
        if left := self.due_call(who, past) if who[0] == "d" else self.call_of_run(who, past):
            return self.in_the_way(*left, past)
        return {self.flow(past)} - {None} if who[0] == "t" and self.is_running(past, who[1:]) else set()

    def reached(self, who, past):
        """All that the actor waits for, at once or through others."""
        found, left = set(), [who]
        while left:
            new = self.waits_for(left.pop(), past) - found
            found |= new
            left += new
        return found

    def is_hung(self, who, past):
        return who in self.reached(who, past)

    def is_held_up(self, who, past):
        return any(self.is_hung(other, past) for other in self.reached(who, past))

    # -- the note

    def note(self, past):
        """The note of an end that comes after the past."""
        return self.judge(self.counts(past), past)

    def counts(self, past):
        """What is kept for the note."""
        counts = {"irqs": 0, "unhandled": 0, "handled": 0, "last": 0, "deferred": False, "now": 0, "at": 0}
        for at, e in enumerate(past):
            if e[1] == "end":
                self.judge(counts, past[:at])
            elif e[1] == "moment":
                counts["now"] = max(counts["now"], int(e[2]))
            elif is_linked(e):
                counts["irqs"] = counts["unhandled"] = 0
            elif e[0][0] == "t" and e[1] == "return":
                counts["handled"] += is_handled(e)
        return counts

    def judge(self, counts, past):
        said = {e[3] for e in self.round(past) if is_return(e)}
        handled = "handled" in said
        if "wake" in said and not handled:
            if not counts["deferred"]:
                counts["deferred"] = True
                return "quiet"
            handled, counts["last"] = counts["handled"] != counts["last"], counts["handled"]
        elif "wake" in said:
            counts["deferred"] = False
        if not handled:
            counts["unhandled"] = 1 if counts["now"] - counts["at"] > 100 else counts["unhandled"] + 1
            counts["at"] = counts["now"]
        if counts["unhandled"] == 0:
            return "quiet"
        counts["irqs"] += 1
        if counts["irqs"] < self.board.window:
            return "counted"
        killed = counts["unhandled"] > self.board.limit
        counts["irqs"] = counts["unhandled"] = 0
        return "killed" if killed else "counted"

    # -- the table of steps

    def due(self, who, past=None):
        """The entry that is due; None if none is."""
        past = self.past if past is None else past
        return {"t": self.due_of_thread, "c": self.due_of_cpu, "d": self.due_of_driver}[who[0]](who, past)

    def due_of_thread(self, who, past):
        dev = who[1:]
        if dev not in self.devices():
            return None
        if not self.is_running(past, dev):
            return (who, "begin") if self.is_woken(past, dev) else None
        run = since(past, by(who, "begin"))
        if left := self.call_of_run(who, past):
            return self.due_of_call(who, *left, past)
        if not any(map(by(who, "return"), run)):
            answer, served = self.returned(past[: len(past) - len(run) - 1], dev, "thread", run)
            return who, "return", served, *(() if (answer == "handled") == (served != "0") else (answer,))
        if self.is_oneshot(past) and not any(map(by(who, "finish"), since(run, by(who, "return")))):
            return None if self.flow(past) else self.finish(who, dev, past)
        return who, "done"

    def finish(self, who, dev, past):
        kept = self.is_woken(past, dev)
        others = any(self.is_unfinished(past, it) for it in self.devices() if it != dev)
        opens = not kept and not self.is_off(past) and self.is_masked(past) and not others
        return who, "finish", "kept" if kept else "cleared", "unmask" if opens else "asis"

    def due_of_cpu(self, who, past):
        flow = self.flow(past)
        if flow == who:
            return self.due_in_flow(who, past)
        if self.target(past) != who or not (self.signals(past) or self.is_soft(past)):
            return None
        way = "line" if self.signals(past) else "resend"
        return who, "take", way, "busy" if flow else "off" if self.is_off(past) or not self.linked(past) else "handle"

    def due_in_flow(self, who, past):
        if left := self.call_of_run(who, past):
            return self.due_of_call(who, *left, past)
        if dev := self.at_work(past):
            run = since(past, is_begin)
            return who, "return", dev, *self.returned(past[: len(past) - len(run) - 1], dev, "handler", run)
        if ahead := self.ahead(past):
            return who, "begin", ahead[0]
        return self.end(who, past)

    def end(self, who, past):
        note = self.note(past)
        off = self.is_off(past) or note == "killed"
        again = self.trigger == "edge" and self.flow_kind != "level" and self.is_pending(past) and not off
        if self.flow_kind == "edge":
            opens = again and self.is_masked(past)
        elif self.trigger == "edge" or self.flow_kind == "eoi" and not self.is_oneshot(past):
            opens = False
        else:
            held = any(self.is_unfinished(past, dev) for dev in self.devices())
            opens = not off and self.is_masked(past) and not held
        return who, "end", "again" if again else "leave", "unmask" if opens else "asis", note

    def due_of_driver(self, who, past):
        due = self.due_call(who, past)
        return self.due_of_call(who, *due, past) if due else None

    def due_of_call(self, who, call, made, past):
        """The next entry of a call that has made so many; None if it waits."""
        return self.entry_of_call(who, call, made, past) if not self.in_the_way(call, made, past) else None

    def step_of_call(self, call, made):
        """The verb of the call's next entry."""
        verbs = {"sync": ["hardclear", "synced"], "sync_hard": ["hardclear"], "disable_hard": ["disable", "hardclear"]}
        verbs |= {"disable": ["disable", "hardclear", "synced"], "free": ["unlink", "hardclear", "freed"], "disable_nosync": ["disable"]}
        return verbs[call[0]][made] if call[0] in verbs else call[0]

    def in_the_way(self, call, made, past):
        """The actors that the call's next entry waits for."""
        verb = self.step_of_call(call, made)
        if verb == "hardclear":
            return {self.flow(past)} - {None}
        if verb in ("unlink", "request"):
            return {self.mutex_holder(past)} - {None}
        devices = self.devices() if verb == "synced" else [call[1]] if verb == "freed" else []
        return {"t" + dev for dev in devices if self.is_woken(past, dev) or self.is_running(past, dev)}

    def entry_of_call(self, who, call, made, past):
        verb, words = self.step_of_call(call, made), call[1:]
        if verb in ("disable", "hardclear", "synced"):
            return who, verb
        if verb in ("freed", "quiet"):
            return who, verb, words[0]
        if verb in ("ask", "arm", "serve", "wake"):
            return who, verb, words[0], *getattr(self, verb + "_answer")(words[0], past)
        return self.other_entry(who, verb, words, past)

    def other_entry(self, who, verb, words, past):
        if verb == "unlink":
            linked = self.linked(past)
            return who, verb, words[0], "notthere" if words[0] not in linked else "last" if len(linked) == 1 else "more"
        if verb == "request":
            flags = "".join(letter for word, letter in FLAGS.items() if word in words) or "-"
            return who, verb, words[0], flags, *self.request_answer(words[0], flags, past)
        if verb == "enable":
            return who, verb, *self.enable_answer(past)
        return who, verb, words[1], *(self.affinity_answer(int(words[1])) if verb == "affinity" else ())

    def ask_answer(self, dev, past):
        """Nothing, where an ask makes an edge; on a level line it counts as one that does."""
        is_silent = self.is_quiet(past, dev) or "held" in self.board.options(dev) and self.unserved(past, dev)
        return ("no",) if self.trigger == "edge" and is_silent else ()

    def arm_answer(self, dev, past):
        rises = self.is_quiet(past, dev) and self.unserved(past, dev) and "forgets" not in self.board.options(dev)
        return ("yes" if self.trigger == "edge" and rises else "no",)

    def serve_answer(self, dev, past):
        return (str(self.unserved(past, dev)),)

    def wake_answer(self, dev, past):
        can = dev in self.linked(past) and self.board.has_thread(dev) and not self.is_woken(past, dev)
        return ("yes" if can else "no",)

    def affinity_answer(self, mask):
        if not mask & (1 << self.board.cpus) - 1:
            return "refused", "22"
        return ("later",) if self.later else ("now",)

    def resend(self, past):
        if self.trigger == "level" or not self.is_pending(past):
            return "no"
        return "chip" if self.retriggers else "soft"

    def enable_answer(self, past):
        if not self.linked(past) or not self.is_off(past):
            return ("unbalanced",)
        return ("started", self.resend(past)) if self.depth(past) == 1 else ("lowered",)

    def request_answer(self, dev, flags, past):
        linked = self.linked(past)
        there = [self.flags_of(past, it) for it in linked]
        if "s" in flags and "n" in flags:
            return "refused", "22"
        if any("s" not in it or "s" not in flags or ("o" in it) != ("o" in flags) for it in there):
            return "refused", "16"
        if "o" in flags and len(linked) >= 64:
            return "refused", "16"
        if self.board.devices[dev][1] == "null" and "o" not in flags:
            return "refused", "22"
        if not linked:
            return ("linked", "no") if "n" in flags else ("linked", "started", self.resend(past))
        if after_last(past, is_kill, is_linked):
            return "linked", *self.enable_answer(past)
        return "linked", "no"


class Board:
    """The board of a text without a fault."""

    def __init__(self, text):
        self.cpus, self.window, self.limit, self.log = 1, 100_000, 99_900, 10_000
        self.domains, self.rows, self.devices, self.drivers, self.calls, self.picks = {}, [], {}, [], [], []
        self.answers, self.runs, self.run = {}, {}, None
        for row in text.split("\n"):
            if words := row.partition("#")[0].split():
                self.read(*words)
        self.lines, taken = [], set()
        for words in self.rows:
            if self.has_place(words[1:3], taken):
                self.lines.append(self.line_of(words))
        there = {line.number for line in self.lines}
        self.scripts = {driver: [] for driver in self.drivers}
        for driver, call in self.calls:
            line = self.devices[call[1]][0] if call[0] in OF_DEVICES else call[1]
            if line in there:
                self.scripts[driver].append((line, call))

    def read(self, word, *words):
        if word == "cpus":
            self.cpus = int(words[0])
        elif word == "log":
            self.log = int(words[0])
        elif word == "spurious":
            self.window, self.limit = map(int, words)
        elif word == "domain":
            name, *kind = words
            size, controller = (int(kind[1]), kind[2:]) if kind[0] == "linear" else (1 << 32, kind[1:])
            if controller[0] not in CONTROLLERS or len(controller) > 1:
                raise Unread(f"the domain {name}")
            self.domains[name] = size, CONTROLLERS[controller[0]]
        elif word == "line":
            self.rows.append(words)
        elif word == "device":
            self.devices[words[0]] = words[1:]
        elif word == "driver":
            self.drivers.append("d" + words[0])
            self.run = None
        elif word in ("handler", "thread"):
            self.run = self.runs.setdefault((word, words[0]), [])
        elif word == "answers":
            part = ("thread" if words[1:2] == ("thread",) else "handler", words[0])
            self.answers[part] = times(words[1 + (part[0] == "thread") :])
        elif word == "picks":
            self.picks += times(words)
        elif word != "board" and self.run is not None:
            self.run.append((word, *words))
        elif word != "board":
            self.calls.append((self.drivers[-1], (word, *words)))

    def kind(self, dev):
        return self.devices[dev][1]

    def options(self, dev):
        return self.devices[dev][2:]

    def has_thread(self, dev):
        return self.kind(dev) in ("check", "null") or self.kind(dev) == "told" and "wake" in self.answers.get(("handler", dev), ())

    def serving_part(self, dev):
        """The part whose runs serve the device; of a stuck one none does."""
        return None if self.kind(dev) == "stuck" else "thread" if self.has_thread(dev) else "handler"

    def run_calls(self, part, dev):
        return self.runs.get((part, dev), [])

    def has_place(self, place, taken):
        """Whether the layout gives the line this place."""
        name, number = place
        free = int(number) < self.domains[name][0] and (name, number) not in taken
        taken.add((name, number))
        return free

    def line_of(self, words):
        number, name, _, *options = words
        mask = int(options[options.index("mask") + 1]) if "mask" in options else (1 << 32) - 1
        return Line(number, *self.domains[name][1], mask, "unlazy" in options, "later" in options, self)

    def actors(self, kinds):
        """The actors of these kinds, the lowest first."""
        every = {
            "t": [f"t{dev}" for dev in sorted(self.devices, key=int)],
            "c": [f"c{cpu}" for cpu in range(self.cpus)],
            "d": sorted(self.drivers, key=lambda it: int(it[1:])),
        }
        return [actor for kind in kinds for actor in every[kind]]


# ---- plays


class Play:
    """A play of a board by the stated order: `rows` is what is printed behind the layout; `is_full`, that a log was full; and
    `is_long`, that there are more rows."""

    def __init__(self, board):
        self.board, self.rows, self.moves, self.is_full, self.is_long = board, [], [], False, False
        self.picks = list(board.picks)
        try:
            while step := self.next():
                self.take(step)
        except Full:
            self.is_full = True
        except Long:
            self.is_long = True

    def next(self):
        """The next step, or None at the end of the play."""
        while self.picks:
            if step := self.step_of(self.picks.pop(0)):
                return step
        return self.first(self.board.actors("tcd"))

    def first(self, actors):
        """The step of the first of the actors that has one."""
        return next((step for actor in actors if (step := self.step_of(actor))), None)

    def step_of(self, actor):
        """The actor's next step: a line and the entry that is due there."""
        if actor[0] == "d":
            current = self.current(actor)
            return self.on(current[0], actor) if current else None
        if actor[0] == "c":
            flows = [line for line in self.board.lines if line.flow(line.past) == actor]
            return next((step for line in flows or self.board.lines if (step := self.on(line, actor))), None)
        return next((step for line in self.board.lines if actor[1:] in line.devices() and (step := self.on(line, actor))), None)

    def on(self, line, actor):
        entry = line.due(actor)
        return (line, entry) if entry else None

    def current(self, driver):
        """The line of the driver's first call that isn't complete, and the call."""
        done = {line.number: line.place(driver, line.past)[0] for line in self.board.lines}
        for number, call in self.board.scripts.get(driver, ()):
            if done[number] == 0:
                return next(line for line in self.board.lines if line.number == number), call
            done[number] -= 1
        return None

    def hung(self):
        """The first line on which an actor is hung, and the lowest such actor; None where none is."""
        actors = self.board.actors("tcd")
        return next(((line.number, who) for line in self.board.lines for who in actors if line.is_hung(who, line.past)), None)

    def take(self, step):
        line, entry = step
        if len(line.past) >= self.board.log:
            raise Full
        line.past.append(entry)
        self.moves.append(step)
        self.say(" ".join((line.number, *entry)))

    def say(self, row):
        if len(self.rows) >= MOST_ROWS:
            raise Long
        self.rows.append(row)


class Chained(Play):
    """A play of a board behind one demultiplexer. A step that is of no line is a mark: its row, and the status of an enter."""

    def __init__(self, board):
        self.status, self.taken = None, set()
        super().__init__(board)

    def place(self, line):
        return self.board.lines.index(line)

    def has_take_due(self, line):
        entry = line.due("c0")
        return entry is not None and entry[1] == "take"

    def status_now(self):
        return sum(1 << self.place(line) for line in self.board.lines if self.has_take_due(line))

    def is_in_status(self, line):
        return self.status >> self.place(line) & 1

    def is_left(self, line):
        return self.is_in_status(line) and self.has_take_due(line) and line.number not in self.taken

    def children(self):
        """The children in the order in which they are taken."""
        return self.board.lines

    def is_taking(self, entry):
        """Whether the entry counts as the child's take of this chain."""
        return entry[:2] == ("c0", "take")

    def step_of(self, actor):
        if actor[0] != "c":
            return super().step_of(actor)
        if actor != "c0":
            return None
        return self.to_enter() if self.status is None else self.in_chain()

    def to_enter(self):
        status = self.status_now()
        return (None, f"0 c0 enter {status}", status) if status else None

    def in_chain(self):
        flows = [line for line in self.board.lines if line.flow(line.past) == "c0"]
        child = next((line for line in flows or self.children() if flows or self.is_left(line)), None)
        return self.on(child, "c0") if child else (None, "0 c0 exit", None)

    def take(self, step):
        if step[0] is None:
            _, row, self.status = step
            self.taken = set() if self.status is not None else self.taken
            self.say(row)
            return
        super().take(step)
        if self.is_taking(step[1]):
            self.taken.add(step[0].number)


class Slept(Play):
    """A play of a board that is put to sleep, with these lines armed. A mark's step is its row, and the phase after it."""

    def __init__(self, board, armed):
        self.armed, self.phase = armed, "disabling"
        board.drivers.append(SYSTEM)
        board.scripts[SYSTEM] = self.script(board)
        super().__init__(board)

    def script(self, board):
        return [(line.number, (verb, line.number)) for verb in ("disable", "enable") for line in board.lines]

    def call_of(self, driver):
        current = self.current(driver)
        return current[1][0] if current else None

    def wakes(self, line, entry, down):
        """Whether the entry wakes, with these lines disabled by the system's driver."""
        return is_take(entry, "off") and line.number in self.armed and line.number in down

    def is_suspend(self, entry):
        """Whether the entry disables a line for the sleep."""
        return entry[:2] == (SYSTEM, "disable")

    def woken_by(self):
        """The line of the first move that wakes."""
        down = set()
        for line, entry in self.moves:
            if self.wakes(line, entry, down):
                return line.number
            if self.is_suspend(entry):
                down.add(line.number)
        return None

    def inner(self):
        return self.first(self.board.actors("tc"))

    def asks(self):
        """The step of the lowest driver whose call is an ask."""
        asking = [it for it in self.board.actors("d") if it != SYSTEM and self.call_of(it) == "ask"]
        return self.step_of(asking[0]) if asking else None

    def next(self):
        while self.picks:
            if step := self.step_of(self.picks.pop(0)):
                return step
        if self.phase == "disabling":
            return self.disabling()
        if self.phase == "asleep":
            return self.sleeping()
        if self.phase == "enabling":
            if step := self.enabling():
                return step
            self.phase = "going"
        return self.first(self.board.actors("tcd"))

    def disabling(self):
        if self.call_of(SYSTEM) == "disable":
            return self.step_of(SYSTEM) or self.inner()
        return None, "# asleep", "asleep"

    def sleeping(self):
        if waker := self.woken_by():
            return None, f"# wake {waker}", "enabling"
        return self.inner() or self.asks() or (None, "# wake none", "enabling")

    def enabling(self):
        return self.step_of(SYSTEM)

    def take(self, step):
        if step[0] is None:
            _, row, self.phase = step
            self.say(row)
        else:
            super().take(step)


class Hotplug(Play):
    """The rows of the placings and the events, and a play of the board with the moves that follow of them."""

    def __init__(self, board, vectors, events):
        self.board, self.vectors, self.said, self.calls, self.at = board, vectors, [], [], {}
        self.online = set(range(board.cpus))
        self.target = {line.number: int(line.target([])[1:]) for line in board.lines}
        for line in board.lines:
            self.settle(line, self.find(line, set(self.at.values()), self.online))
        for event in events:
            self.event(*event.split(":"))
        board.drivers.append(SYSTEM)
        board.scripts[SYSTEM] = self.calls
        super().__init__(board)
        self.rows = self.said + self.rows

    def asked(self, line, online):
        """The processors that are asked, in order."""
        return sorted(online, key=lambda cpu: (not line.mask >> cpu & 1, cpu))

    def numbers(self):
        """The vectors that are tried, in order."""
        return range(self.vectors)

    def find(self, line, taken, online):
        places = ((cpu, number) for cpu in self.asked(line, online) for number in self.numbers())
        return next((place for place in places if place not in taken), None)

    def queue(self, line, place):
        return place[0] % max(1, len(line.devices()))

    def is_move(self, line, place):
        return place[0] != self.target[line.number]

    def settle(self, line, place):
        """The line is placed, and told of."""
        if place is None:
            self.said.append(f"# vector {line.number} none")
            return
        if self.is_move(line, place):
            self.calls.append((line.number, ("affinity", line.number, str(1 << place[0]))))
        self.at[line.number], self.target[line.number] = place, place[0]
        self.said.append(f"# vector {line.number} {place[0]} {place[1]} {self.queue(line, place)}")

    def leaving(self, cpu):
        """The lines that are placed anew as the processor goes offline."""
        return [line for line in self.board.lines if self.at.get(line.number, (None,))[0] == cpu]

    def refusal(self, cpu):
        """Why the processor may not go offline, by processors alone."""
        if cpu >= self.board.cpus:
            return "not-there"
        return "not-online" if cpu not in self.online else "last" if len(self.online) == 1 else None

    def all_found(self, cpu):
        """What the lines on the processor find on the others, one after another."""
        taken, found = set(self.at.values()), []
        for line in self.leaving(cpu):
            found.append((line, self.find(line, taken, self.online - {cpu})))
            taken.add(found[-1][1])
        return found

    def left_out(self, found):
        """The line that is named, where some found no vector."""
        return next((line for line, place in found if place is None), None)

    def off(self, cpu):
        """The answer, and the lines that move with their places."""
        if why := self.refusal(cpu):
            return f"refused {why}", []
        found = self.all_found(cpu)
        if left := self.left_out(found):
            return f"refused no-vector {left.number}", []
        self.online.discard(cpu)
        return "ok", found

    def come(self, cpu):
        if cpu >= self.board.cpus:
            return "refused not-there", []
        if cpu in self.online:
            return "refused is-online", []
        self.online.add(cpu)
        return "ok", []

    def event(self, word, cpu):
        answer, moves = (self.off if word == "off" else self.come)(int(cpu))
        self.said.append(f"# {word} {cpu} {answer}")
        for line, place in moves:
            self.settle(line, place)


def play_of(words, text, kinds=None):
    """The play of the board by these words of the program; `kinds` names other classes in the place of those above."""
    kinds = {"play": Play, "chained": Chained, "hotplug": Hotplug, "sleep": Slept, **(kinds or {})}
    board = Board(text)
    if words[0] == "hotplug":
        return kinds["hotplug"](board, int(words[1]), words[2:])
    return kinds["sleep"](board, set(words[1:])) if words[0] == "sleep" else kinds[words[0]](board)
