"""Random small boards of version 3 of one line, and plays of them in random order, for bench/rows3 and bench/laws3."""

import random

from second import Board, Line

ROOTS = ("latch", "latch", "plain", "pin", "pin", "lpi", "level", "level", "level", "eoi", "eoi")
KINDS = ("direct", "check", "check", "check", "null", "stuck", "odd", "told", "told", "told")
MOMENTS = (50, 100, 101, 200, 201, 302, 1000)


class Maker:
    """One random board in the making. `waits`: whether runs may make the calls that wait; `shape`: what all boards of a trial
    have in common, `any`, `pairs` (a disable in a handler, an enable in its thread) or `bounded` (what a bound's premise allows)."""

    def __init__(self, seed, index, waits=False, shape="any"):
        self.r = random.Random(f"{seed} {index}")
        self.waits, self.shape = waits, shape
        self.root = self.r.choice(ROOTS)
        self.cpus = self.r.choice((1, 2, 2, 3))
        self.devices, self.answers, self.runs = [], {}, {}
        self.moves = self.cpus > 1 and self.root not in ("level", "eoi") and self.chance(0.6)

    def chance(self, part):
        return self.r.random() < part

    def make_devices(self):
        for dev in range(1, 1 + self.r.choice((1, 1, 2, 2, 3))):
            kind = self.r.choice(("check", "check", "told", "direct") if self.shape == "pairs" else KINDS)
            options = [word for word in ("held", "forgets") if self.chance(0.2)]
            self.devices.append((dev, kind, options))
            if kind == "told":
                self.make_answers(dev)

    def make_answers(self, dev):
        words = ("wake", "wake", "nothing") if self.shape == "pairs" else ("handled", "handled", "claims", "nothing", "wake")
        first = [self.r.choice(words) for _ in range(self.r.randint(0, 4))]
        self.answers[dev, "handler"] = first
        if "wake" in first:
            self.answers[dev, "thread"] = [self.r.choice(("handled", "handled", "claims", "nothing")) for _ in range(self.r.randint(0, 3))]

    def has_thread(self, dev):
        return self.kind(dev) in ("check", "null") or "wake" in self.answers.get((dev, "handler"), ())

    def kind(self, dev):
        return self.devices[dev - 1][1]

    def numbers(self):
        return [dev for dev, _, _ in self.devices]

    def run_calls(self, dev, part):
        """What may stand in the script of a run, as often as it is to come."""
        any_dev = self.r.choice(self.numbers())
        calls = ["disable_nosync 1", "enable 1", f"quiet {dev}", f"quiet {dev}", f"quiet {any_dev}"]
        calls += [f"serve {dev}", f"serve {any_dev}"]
        if part == "handler":
            calls += [f"wake {it}" for it in self.numbers()]
        if part == "thread" or self.kind(dev) == "direct":
            calls += [f"arm {dev}"] * 3
        if self.waits:
            calls += ["disable 1", "sync 1"] * 2
            calls += [] if part == "handler" else [f"free {it}" for it in self.numbers()] * 2
        return calls

    def make_runs(self):
        for dev, kind, _ in self.devices:
            for part in ("handler", "thread"):
                if kind in ("null", "stuck", "odd") and part == "handler" or part == "thread" and not self.has_thread(dev):
                    continue
                if self.chance(0.75):
                    self.runs[dev, part] = [self.r.choice(self.run_calls(dev, part)) for _ in range(self.r.randint(1, 3))]
        woken = {call.split()[1] for (_, part), calls in self.runs.items() for call in calls if part == "handler" and call.startswith("wake")}
        for (dev, part), calls in self.runs.items():
            if part == "thread" and self.kind(dev) == "told" and str(dev) in woken:
                self.runs[dev, part] = [call for call in calls if not call.startswith("arm")]
        self.shape_runs()

    def shape_runs(self):
        """What the shape takes from the scripts of runs, or gives to them."""
        if self.shape == "any":
            return
        unwanted = ("disable", "enable") if self.shape == "pairs" else ("enable",)
        self.runs = {at: [call for call in calls if not call.startswith(unwanted)] for at, calls in self.runs.items()}
        kinds = ("check", "told") if self.shape == "pairs" else ("check",)
        pairs = [dev for dev in self.numbers() if self.has_thread(dev) and self.kind(dev) in kinds]
        if self.shape == "bounded" and self.chance(0.4):
            self.runs = {at: [c for c in calls if not c.startswith(("disable", "wake"))] for at, calls in self.runs.items()}
        elif self.shape == "bounded":
            return
        for dev in pairs:
            if self.chance(0.8):
                for part, call in (("handler", "disable_nosync 1"), ("thread", "enable 1")):
                    calls = self.runs.setdefault((dev, part), [])
                    calls.insert(self.r.randint(0, len(calls)), call)

    def flags(self, dev):
        words = self.style if self.chance(0.9) else [it for it in ("shared", "oneshot", "noauto") if self.chance(0.3)]
        if self.kind(dev) == "null" and "oneshot" not in words and self.chance(0.9):
            words = [*words, "oneshot"]
        words = [it for it in words if it != "noauto" or self.shape != "pairs"]
        return " ".join(["", *words])

    def any_call(self):
        dev = self.r.choice(self.numbers())
        if self.moves and self.chance(0.3):
            return f"affinity 1 {1 << self.r.randrange(self.cpus)}"
        if self.chance(0.55):
            return f"ask {dev}"
        calls = ["disable_nosync 1", "enable 1", "enable 1", "enable 1", "disable 1", "sync 1", "sync_hard 1", "disable_hard 1"]
        calls += [f"quiet {dev}", f"arm {dev}", f"arm {dev}", f"serve {dev}", f"wake {dev}", f"wake {dev}"]
        calls += [f"affinity 1 {self.r.randint(0, 1 << self.cpus)}", f"moment 1 {self.r.choice(MOMENTS)}"]
        return self.r.choice(calls)

    def drivers(self):
        """The scripts of one to three drivers; the first makes the requests and frees."""
        lives = []
        for dev in self.numbers():
            calls = [f"request {dev}{self.flags(dev)}"] * self.chance(0.92)
            if calls and self.chance(0.45):
                calls.append(f"free {dev}")
                if self.chance(0.4):
                    calls.append(f"request {dev}{self.flags(dev)}")
            places = sorted(0.0 if self.chance(0.7) and not at else self.r.uniform(0, 8) for at, _ in enumerate(calls))
            lives += list(zip(places, range(len(lives), len(lives) + len(calls)), calls))
        others = [(self.r.uniform(0.5, 9), len(lives) + at, self.any_call()) for at in range(self.r.randint(0, 4))]
        scripts = [[call for _, _, call in sorted(lives + others)]]
        scripts += [[self.any_call() for _ in range(self.r.randint(1, 6))] for _ in range(self.r.randint(0, 2))]
        return [self.balanced(script) if self.shape == "pairs" else script for script in scripts]

    def balanced(self, script):
        """With an enable behind it for each disable that has none."""
        lacking = least = 0
        for call in script[::-1]:
            lacking += call.startswith("disable") - call.startswith("enable")
            least = max(least, lacking)
        return script + ["enable 1"] * least

    def text(self):
        self.make_devices()
        self.style = [it for it in ("shared", "oneshot") if self.chance(0.85 if it == "shared" and len(self.devices) > 1 else 0.5)]
        self.make_runs()
        window = self.r.randint(1, 6)
        options = " unlazy" * (self.root != "plain" and self.chance(0.25)) + " later" * self.chance(0.15)
        mask = f" mask {self.r.randint(1, (1 << self.cpus) - 1)}" * self.chance(0.2)
        rows = ["board 3", f"cpus {self.cpus}", f"spurious {window} {self.r.randint(0, window - 1)}", f"domain root linear 4 {self.root}"]
        rows += [f"line 1 root 0{options}{mask}"]
        rows += [" ".join([f"device {dev} 1 {kind}", *words]) for dev, kind, words in self.devices]
        for dev in self.numbers():
            for part, word in (("handler", ""), ("thread", " thread")):
                rows += [f"answers {dev}{word} {' '.join(words)}"] if (words := self.answers.get((dev, part))) else []
            for part in ("handler", "thread"):
                rows += [f"{part} {dev}", *self.runs[dev, part]] if self.runs.get((dev, part)) else []
        for number, script in enumerate(self.drivers(), 1):
            rows += [f"driver {number}", *script]
        return "\n".join(rows) + "\n"


def kept(look):
    """The same look at a history, made once for each length of it."""
    name = look.__name__

    def at(self, past, *words):
        key = (name, len(past), words)
        if key not in self.found:
            self.found[key] = look(self, past, *words)
        return self.found[key]

    return at


class Kept(Line):
    """A line that remembers what it has looked up. All that is looked at are beginnings of one history."""


for name in (
    "linked depth flags_of is_oneshot unserved is_quiet is_high flow ahead at_work is_pending is_soft is_masked cell signals aim target "
    "is_woken is_running is_unfinished mutex_holder note run_word"
).split():
    setattr(Kept, name, kept(getattr(Line, name)))


def line_of(text):
    """The one line of a board, at its beginning."""
    line = Board(text).lines[0]
    line.__class__, line.found = Kept, {}
    return line


def steps(line, seed, most):
    """A play of the line in random order, of at most so many entries: at each moment all that is due, by actor; then an entry is
    made. Some orders prefer drivers, some threads."""
    r = random.Random(seed)
    weights = {"t": r.choice((1, 2, 6)), "c": r.choice((2, 4, 8)), "d": r.choice((1, 1, 4))}
    while True:
        due = {actor: entry for actor in line.board.actors("tcd") if (entry := line.due(actor))}
        yield due
        if not due or len(line.past) >= most:
            return
        line.past.append(r.choices(list(due.values()), [weights[actor[0]] for actor in due])[0])


def any_play(text, seed, most):
    """The board's line after a play in random order."""
    line = line_of(text)
    for _ in steps(line, seed, most):
        pass
    return line
