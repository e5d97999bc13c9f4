# SPDX-License-Identifier: GPL-2.0
"""Random boards for the comparison: every kind of line, device, call, flag and domain, by a seed.

Three shapes take turns. `wide` has 3 to 8 lines over paths of several levels and up to four drivers; `busy` has one
line whose target changes while flows are in progress; `small` has 1 to 3 lines and a free script. Two more are had by
name alone: `hotplug` is `wide` with processors that go offline and come online, `sleep` is one that sleeps, with some
lines that may wake it. Others are of version 3. Five of them go by bench/random3.py: `runs` have calls in handlers and
threads, `pairs` handlers that disable and threads that enable, `waits` runs that may wait for themselves, `long` is
`runs` with longer scripts of drivers, each on one line; `several` have two or three such lines, of any kind. `rare` is
of what seldom comes in those: runs that disable twice and enable, that arm a quiet device, serve and wake, and threads
that free devices; `seldom` is `rare` without these. Their picks are the actors of a play in random order. With `any`
those of version 3 take turns, and with `calm` those of which no run waits.
"""
import random

import reference

ROOTS = ("latch", "plain", "level", "eoi", "lpi", "vector")
STYLES = ("", "shared", "shared oneshot", "shared oneshot", "oneshot", "mix", "noauto")
MOMENTS = (50, 100, 101, 200, 201, 300, 302, 1000)
SHAPES = ("wide", "busy", "small")
NAMED = ("hotplug", "sleep")
OF_RUNS = ("runs", "pairs", "waits", "long", "several", "rare", "seldom")
TURNS = {
    "any": ("runs", "pairs", "waits", "long", "several", "rare", "rare"),
    "calm": ("runs", "pairs", "long", "seldom", "seldom"),
}
OF_LINES = ("disable", "disable_nosync", "enable", "sync", "affinity", "moment", "sync_hard", "disable_hard")
ROWS = 1200  # where a play stops; a level line that nobody serves has more
PICKED = 200  # of a board of version 3 so many steps at most are picked


class Maker:
    """One random board in the making."""

    def __init__(self, seed, index, shape):
        self.r = random.Random(seed * 1000003 + index)
        self.shape = shape or SHAPES[index % 3]
        some = {"busy": (2, 2, 3), "hotplug": (2, 3, 3, 4, 7)}
        self.cpus = self.r.choice(some.get(self.shape, (1, 1, 2, 2, 3, 4, 8)))
        self.domains, self.lines, self.devices, self.styles, self.wakers = [], [], [], {}, []
        self.moments = self.r.random() < 0.3

    def chance(self, part):
        """True in so many of the cases."""
        return self.r.random() < part

    def add_domain(self, kind, parent):
        """A domain over its parent, a place in the list or None."""
        name = f"{kind[0]}{len(self.domains)}"
        root = kind if parent is None else self.domains[parent][2]
        depth = 1 if parent is None else self.domains[parent][3] + 1
        can_mask = kind not in ("vector", "remap")
        masker = kind if can_mask else None if parent is None else self.domains[parent][4]
        form = "tree" if self.chance(0.25) else f"linear {self.r.choice((1, 2)) if self.chance(0.08) else 16}"
        if self.shape == "sleep":
            form = "linear 32"  # no number is too large, so that it is known which lines take part
        above = "" if parent is None else f" parent {self.domains[parent][0]}"
        self.domains.append((name, f"domain {name} {form} {kind}{above}", root, depth, masker))

    def add_child(self, parent):
        """A child of a domain; messages don't stand over roots that present levels."""
        levels = self.domains[parent][2] in ("level", "eoi")
        self.add_domain("remap" if levels or self.chance(0.4) else "msi", parent)

    def make_busy_domains(self):
        """A root, mostly of edges, and often messages over it. The last domain can mask."""
        kind = self.r.choice(("latch", "plain", "lpi", "vector", "latch", "plain", "lpi", "vector", "level", "eoi"))
        self.domains.append(("root", f"domain root linear 16 {kind}", kind, 1, None if kind == "vector" else kind))
        if kind == "vector" or kind not in ("level", "eoi") and self.chance(0.4):
            self.domains.append(("top", "domain top tree msi parent root", kind, 2, "msi"))

    def make_domains(self):
        """Roots, and children over whatever is there."""
        if self.shape == "busy":
            self.make_busy_domains()
            return
        wide = self.shape in ("wide", *NAMED)
        for _ in range(self.r.randint(1, 4) if wide else self.r.randint(1, 2)):
            self.add_domain(self.r.choice(ROOTS), None)
        for _ in range(self.r.randint(0, 10) if wide else self.r.randint(0, 2)):
            parent = self.r.randrange(len(self.domains))
            if self.chance(0.5):
                parent = len(self.domains) - 1  # long paths
            if self.domains[parent][3] < 8:
                self.add_child(parent)

    def make_lines(self):
        """Lines, some of them with numbers that are taken or too large."""
        most = {"busy": (1, 1), "small": (1, 3)}.get(self.shape, (3, 8))
        for number in range(1, 1 + self.r.randint(*most)):
            busy = self.shape == "busy"
            name, _, _, _, masker = self.domains[-1] if busy else self.r.choice(self.domains)
            options = ""
            if masker not in ("plain", None) and self.chance(0.25):
                options += " unlazy"
            if self.chance(0.2) and self.shape != "hotplug":
                options += " later"
            if self.chance(0.3):
                options += f" mask {self.r.randint(1, (1 << self.cpus) - 1)}"
            hw = self.r.choice((0, 0, 0, 0, 1, 2, 3, 64, 4294967295)) if self.chance(0.2) and not busy else number
            if self.shape == "sleep":
                hw = 15 + number  # above whatever a parent gives
                self.wakers += [number] * (masker is not None and "unlazy" not in options and self.chance(0.5))
            self.lines.append(f"line {number} {name} {hw}{options}")
            self.styles[number] = self.r.choice(STYLES)

    def make_devices(self):
        """One to three devices of each line."""
        for line in range(1, len(self.lines) + 1):
            for _ in range(self.r.choice((1, 1, 2, 2, 3))):
                kind = self.r.choice(("direct", "check", "null", "direct", "check", "null", "stuck"))
                self.devices.append((len(self.devices) + 1, line, kind))

    def flags(self, device):
        """The flags of a request: those of its line's style, mostly such that it isn't refused."""
        _, line, kind = device
        style = self.styles[line]
        if style == "mix":
            style = " ".join(it for it in ("shared", "oneshot", "noauto") if self.chance(0.45))
        if kind == "null" and "oneshot" not in style and self.chance(0.8):
            style = f"{style} oneshot".strip()
        return style

    def life(self, device):
        """The requests and frees of a device, in order."""
        calls = [f"request {device[0]} {self.flags(device)}".strip()]
        if self.chance(0.6):
            calls.append(f"free {device[0]}")
            if self.chance(0.5):
                calls.append(f"request {device[0]} {self.flags(device)}".strip())
                if self.chance(0.5):
                    calls.append(f"free {device[0]}")
        if self.chance(0.1):
            calls.append(f"free {device[0]}")
        if self.chance(0.05):
            calls.insert(0, f"free {device[0]}")
        return calls

    def any_call(self):
        """A call that any driver may make."""
        device, line, _ = self.r.choice(self.devices)
        mask = self.r.randint(0, 1 << self.cpus)
        calls = [f"ask {device}"] * 8 + [f"disable_nosync {line}"] * 2 + [f"enable {line}"] * 3
        calls += [f"disable {line}", f"sync {line}"] + [f"affinity {line} {mask}"] * (self.shape != "hotplug")
        if self.moments:
            calls += [f"moment {line} {self.r.choice(MOMENTS)}"] * 2
        return self.r.choice(calls)

    def script(self, mine, most):
        """A driver's script: the lives of its devices, and other calls between."""
        placed = []
        for device in mine:
            calls = self.life(device)
            places = sorted(0.0 if self.chance(0.25) else self.r.uniform(0, 10) for _ in calls)
            placed += list(zip(places, range(len(placed), len(placed) + len(calls)), calls))
        for _ in range(self.r.randint(3, most)):
            placed.append((self.r.uniform(0.3, 12), len(placed), self.any_call()))
        return in_order(call for _, _, call in sorted(placed))

    def make_drivers(self):
        """The scripts of one to four drivers."""
        count = self.r.randint(1, 4) if self.shape == "wide" else self.r.randint(1, 3)
        owners = {device[0]: self.r.randint(1, count) for device in self.devices}
        for number in range(1, count + 1):
            mine = [device for device in self.devices if owners[device[0]] == number]
            yield f"driver {number}"
            yield from self.script(mine, 24 if self.shape == "wide" else 14)

    def busy_calls(self):
        """A call on the one line of a busy board, or an ask and a change of the target."""
        at = self.r.random()
        ask = f"ask {self.r.choice(self.devices)[0]}"
        aim = f"affinity 1 {1 << self.r.randrange(self.cpus)}"
        if at < 0.45:
            return [ask, aim]
        if at < 0.65:
            return [aim, ask]
        if at < 0.8:
            return [ask]
        return [self.r.choice(("disable_nosync 1", "enable 1", "enable 1", "sync 1", "disable 1", aim))]

    def make_busy_drivers(self):
        """Driver 1 links all devices at first; others call beside it."""
        oneshot = self.chance(0.5) or any(kind == "null" for _, _, kind in self.devices)
        flags = " shared" * (len(self.devices) > 1 or self.chance(0.5)) + " oneshot" * oneshot
        yield "driver 1"
        yield from (f"request {device}{flags}" for device, _, _ in self.devices)
        calls = [call for _ in range(self.r.randint(4, 14)) for call in self.busy_calls()]
        for device, _, _ in self.devices:
            if self.chance(0.3):
                calls.insert(self.r.randint(len(calls) // 2, len(calls)), f"free {device}")
        yield from calls
        for number in range(2, 2 + self.r.randint(0, 2)):
            yield f"driver {number}"
            for _ in range(self.r.randint(1, 5)):
                yield from self.busy_calls()

    def busy_picks(self, drivers, threads):
        """Short turns: a driver's two calls, then a processor's one or two steps."""
        yield f"d1*{len(self.devices) + 1}"
        for _ in range(self.r.randint(10, 60)):
            at = self.r.random()
            if at < 0.4:
                yield f"d{self.r.choice((1, 1, self.r.randint(1, drivers)))}*2"
            elif at < 0.9 or not threads:
                yield f"c{self.r.randrange(self.cpus)}" + "*2" * self.chance(0.3)
            else:
                yield f"t{self.r.choice(threads)}" + "*2" * self.chance(0.5)

    def free_picks(self, drivers, threads):
        """Anybody's step."""
        for _ in range(self.r.randint(0, 90)):
            at = self.r.random()
            if at < 0.4:
                yield f"d{self.r.randint(1, drivers)}"
            elif at < 0.85 or not threads:
                yield f"c{self.r.randrange(self.cpus)}"
            else:
                yield f"t{self.r.choice(threads)}"

    def picks(self, drivers):
        """Whose steps come first."""
        threads = [device for device, _, kind in self.devices if kind in ("check", "null")]
        words = list((self.busy_picks if self.shape == "busy" else self.free_picks)(drivers, threads))
        return ["picks " + " ".join(words)] if words else []

    def command_word(self):
        """The harness's word for the command of genirq that plays the board."""
        if self.shape == "sleep":
            return ["#kernel sleep " + " ".join(map(str, self.wakers))]
        if self.shape == "hotplug":
            events = [f"{self.r.choice(('off', 'off', 'on'))}:{self.r.randrange(self.cpus + self.chance(0.1))}"
                      for _ in range(self.r.randint(1, 8))]
            return [f"#kernel hotplug {self.r.choice((1, 2, 2, 3, 4, 8))} {' '.join(events)}"]
        return []

    def text(self):
        """The whole board."""
        self.make_domains()
        self.make_lines()
        self.make_devices()
        scripts = list(self.make_busy_drivers() if self.shape == "busy" else self.make_drivers())
        window = self.r.randint(1, 9)
        rows = [f"board {2 if self.moments else 1}", "#kernel profile", f"#kernel rows {ROWS}", f"cpus {self.cpus}"]
        rows += [f"spurious {window} {self.r.randint(0, window - 1)}"]
        rows += [row for _, row, _, _, _ in self.domains] + self.lines
        rows += [f"device {number} {line} {kind}" for number, line, kind in self.devices]
        rows += self.command_word() + scripts + self.picks(sum(row.startswith("driver ") for row in scripts))
        return "\n".join(rows) + "\n"


def in_order(calls):
    """The calls without a request of a device that is requested already."""
    linked = set()
    for call in calls:
        words = call.split()
        if words[0] == "request":
            if words[1] in linked:
                continue
            linked.add(words[1])
        elif words[0] == "free":
            linked.discard(words[1])
        yield call


class Longer(reference.random3.Maker):
    """A board of version 3 whose drivers make more calls."""

    def drivers(self):
        """The scripts, each with further calls."""
        return [script + [self.any_call() for _ in range(self.r.randint(4, 14))] for script in super().drivers()]


def one_line(seed, name, shape, cpus=None):
    """The text rows of a board of version 3 of one line."""
    make = Longer if shape == "long" else reference.random3.Maker
    maker = make(seed, name, shape == "waits", "pairs" if shape == "pairs" else "any")
    if cpus:
        maker.cpus, maker.moves = cpus, cpus > 1 and maker.chance(0.5)
    return maker.text().splitlines()


class Joined:
    """Boards of one line put together: their scripts of drivers are mixed, by number."""

    def __init__(self, r, parts):
        self.r, self.devices, self.drivers = r, 0, {}
        self.sections = {"domain": [], "line": [], "device": [], "runs": []}
        for number, rows in enumerate(parts, 1):
            self.add(number, rows)
        self.first = [row for row in parts[0] if row.split()[0] in ("board", "cpus", "spurious")]

    def add(self, line, rows):
        """One board, whose line becomes this one."""
        base, script, driver = self.devices, None, {}
        for row in rows:
            word, *rest = row.split()
            if word in ("board", "cpus", "spurious"):
                continue
            if word == "driver":
                script = driver.setdefault(int(rest[0]), [])
            elif word == "domain":
                self.sections[word].append(f"domain root{line} {' '.join(rest[1:])}")
            elif word == "line":
                self.sections[word].append(f"line {line} root{line} {' '.join(rest[2:])}")
            elif word == "device":
                self.devices += 1
                self.sections[word].append(f"device {base + int(rest[0])} {line} {' '.join(rest[2:])}")
            else:
                number = line if word in OF_LINES else base + int(rest[0])
                into = self.sections["runs"] if script is None else script
                into.append(" ".join([word, str(number), *rest[1:]]))
        for number, calls in driver.items():
            self.mix(number, calls)

    def mix(self, number, calls):
        """Puts the calls among those of the driver, each in its order."""
        there = self.drivers.get(number, [])
        turns = [0] * len(there) + [1] * len(calls)
        self.r.shuffle(turns)
        sources = [iter(there), iter(calls)]
        self.drivers[number] = [next(sources[turn]) for turn in turns]

    def rows(self):
        """The text rows."""
        scripts = [row for number, calls in sorted(self.drivers.items()) for row in (f"driver {number}", *calls)]
        return self.first + [row for rows in self.sections.values() for row in rows] + scripts


def several_lines(seed, index):
    """The text rows of a board of version 3 of two or three lines."""
    r = random.Random(f"{seed} {index} several")
    cpus = r.choice((1, 2, 2, 3))
    shapes = [r.choice(("runs", "runs", "pairs", "waits")) for _ in range(r.choice((2, 2, 3)))]
    parts = [one_line(seed, f"{index} several {at}", shape, cpus) for at, shape in enumerate(shapes)]
    return Joined(r, parts).rows()


class Rare:
    """One line of a board of version 3, whose runs and drivers make what seldom comes by chance.

    Each device has a recipe, which says its kind and the calls of its handler and its thread. With `frees` the first
    one's thread frees the others, and then itself, so that the line hangs. With `busy` the target changes while runs
    enable the line, so that an interrupt waits to be sent again.
    """

    def __init__(self, r, cpus, busy, may_wait):
        self.r, self.cpus, self.busy = r, cpus, busy
        roots = ["latch"] * 3 + ["pin", "pin", "plain", "plain", "lpi"] + ["level"] * (not busy)
        self.root = r.choice(roots)
        self.numbers = list(range(1, 1 + r.choice((2, 2, 3))))
        self.frees = not busy and self.chance(0.5) and may_wait
        self.flags = " shared" + " oneshot" * self.chance(0.3)

    def chance(self, part):
        """True in so many of the cases."""
        return self.r.random() < part

    def other(self, dev):
        """Another device."""
        return self.r.choice([it for it in self.numbers if it != dev])

    def some(self, call, most=2):
        """The call, once or more."""
        return [call] * self.r.randint(1, most)

    def nested(self, dev):
        """A handler disables, and enables again; now and then it enables once more."""
        down = self.some("disable_nosync 1")
        between = [f"serve {self.other(dev)}" for _ in range(self.r.randint(0, 3) if self.busy else 0)]
        kind = self.r.choice(("direct", "check"))
        return kind, down + between + ["enable 1"] * (len(down) + self.chance(0.2)), []

    def across(self, dev):
        """A handler disables, and its thread enables."""
        down = self.some("disable_nosync 1")
        return "check", down, ["enable 1"] * (len(down) + self.chance(0.2))

    def in_thread(self, dev):
        """A thread disables, and enables again."""
        down = self.some("disable_nosync 1")
        return self.r.choice(("check", "null")), [], down + ["enable 1"] * len(down)

    def rearmed(self, dev):
        """A handler arms its own device."""
        return "direct", [f"quiet {dev}"] * self.chance(0.6) + self.some(f"arm {dev}"), []

    def rearmed_later(self, dev):
        """A thread arms its own device."""
        return "check", [f"quiet {dev}"] * self.chance(0.6), self.some(f"arm {dev}")

    def served(self, dev):
        """Runs serve, also what was served already."""
        handler = [f"serve {self.other(dev)}", *self.some(f"serve {dev}")] * self.chance(0.6)
        return self.r.choice(("direct", "check", "check")), handler, self.some(f"serve {dev}")

    def waking(self, dev):
        """A handler wakes another device's thread, which may be woken already."""
        return "direct", self.some(f"wake {self.other(dev)}", 3), []

    def forgetting(self, dev):
        """A handler recognises nothing, and what was asked is gone."""
        return "odd", [], []

    def freeing(self, dev):
        """A thread frees the other devices, some of them twice, and then its own."""
        calls = [f"free {it}" for it in self.numbers if it != dev for _ in range(self.r.randint(1, 2))]
        return "check", [], calls + [f"free {dev}"]

    def recipe(self, dev):
        """The recipe of a device."""
        if self.frees and dev == 1:
            return self.freeing(dev)
        made = [self.nested, self.nested, self.nested, self.across, self.across, self.in_thread]
        if not self.busy:
            made = [self.nested, self.across, self.in_thread, self.waking, self.forgetting]
            made += 2 * [self.rearmed, self.rearmed_later, self.served]
        return self.r.choice(made)(dev)

    def phrase(self):
        """Some calls of a driver in a row."""
        dev, at = self.r.choice(self.numbers), self.r.random()
        if self.busy and at < 0.8:
            return [f"affinity 1 {1 << self.r.randrange(self.cpus)}", f"ask {dev}"]
        if at < 0.35:
            return [f"ask {dev}"]
        if at < 0.6 and self.cpus > 1 and self.root != "level":
            return [f"ask {dev}", f"affinity 1 {1 << self.r.randrange(self.cpus)}", f"ask {self.r.choice(self.numbers)}"]
        if at < 0.75:
            down = self.some("disable_nosync 1")
            return [*down, f"ask {dev}", *["enable 1"] * len(down)]
        if at < 0.9:
            return [f"quiet {dev}", f"ask {dev}", f"arm {dev}"]
        return [self.r.choice((f"arm {dev}", f"serve {dev}", f"wake {dev}", f"wake {dev}", "enable 1"))]

    def rows(self):
        """The text rows."""
        recipes = {dev: self.recipe(dev) for dev in self.numbers}
        options = " unlazy" * (self.root != "plain" and not self.busy and self.chance(0.15))
        rows = ["board 3", f"cpus {self.cpus}", "spurious 60 50", f"domain root linear 4 {self.root}"]
        rows += [f"line 1 root 0{options}"]
        rows += [f"device {dev} 1 {kind}" for dev, (kind, _, _) in recipes.items()]
        for dev, (kind, handler, thread) in recipes.items():
            rows += [f"handler {dev}", *handler] if handler else []
            rows += [f"thread {dev}", *thread] if thread and kind != "direct" else []
        for driver in range(1, 2 + self.chance(0.5)):
            calls = [f"request {dev}{self.flags}" for dev in self.numbers] if driver == 1 else []
            phrases = self.r.randint(15, 30) if self.busy else self.r.randint(4, 12)
            rows += [f"driver {driver}", *calls, *(call for _ in range(phrases) for call in self.phrase())]
        return rows


def rare_lines(seed, index, shape):
    """The text rows of a board of version 3 of one to three lines of what seldom comes."""
    r = random.Random(f"{seed} {index} {shape}")
    if r.random() < 0.5:
        return Rare(r, 2, True, False).rows()
    cpus = r.choice((1, 2, 2, 2, 3))
    return Joined(r, [Rare(r, cpus, False, shape == "rare").rows() for _ in range(r.choice((2, 2, 3)))]).rows()


def board_of_runs(seed, index, shape):
    """One board of version 3."""
    if shape in ("rare", "seldom"):
        first, *rest = rare_lines(seed, index, shape)
    else:
        first, *rest = several_lines(seed, index) if shape == "several" else one_line(seed, f"{index} {shape}", shape)
    r = random.Random(f"{seed} {index} {shape} picks")
    picks = " ".join(reference.picks_of("\n".join((first, *rest)), r, PICKED))
    rows = [first, "#kernel profile", f"#kernel rows {reference.MOST}", *rest]
    return "\n".join(rows + [f"picks {picks}"] * (picks != "")) + "\n"


def random_board(seed, index, shape=None):
    """The text of one board of a seed, of a shape, or of the one whose turn it is."""
    if shape in TURNS:
        shape = TURNS[shape][index % len(TURNS[shape])]
    if shape in OF_RUNS:
        return board_of_runs(seed, index, shape)
    return Maker(seed, index, shape).text()
