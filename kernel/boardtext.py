# SPDX-License-Identifier: GPL-2.0
"""Reads a board for the harness, and says what it is that the harness can't play.

A board is what docs/BOARD.md says. Beside it the harness knows words that stand in comments, `#kernel WORD ..`, so
that genirq passes them over; kernel/README.md lists them. Everything is looked at here, before anything boots.
"""
import re

MOST_CPUS = 16  # seabios writes no table of more for a kernel without ACPI
DOMAIN_KINDS = ("latch", "plain", "level", "eoi", "lpi", "vector", "pin", "msi", "remap")
CHILDREN = ("msi", "remap")
DEVICE_KINDS = ("direct", "check", "null", "stuck", "odd", "told")
DEVICE_OPTIONS = ("held", "forgets")
DEVICE_CALLS = ("request", "free", "ask", "quiet", "arm", "serve", "wake")
LINE_CALLS = ("disable", "disable_nosync", "enable", "sync", "affinity", "moment", "sync_hard", "disable_hard")
# The version that a word came with; the others are in each.
SINCE = {"moment": 2} | dict.fromkeys(
    ("pin", "odd", "told", "answers", "handler", "thread", "quiet", "arm", "serve", "wake", "sync_hard", "disable_hard"), 3
)
SECTIONS = {"board": 0, "cpus": 1, "spurious": 1, "log": 1, "domain": 2, "line": 3, "device": 4, "answers": 5,
            "handler": 5, "thread": 5, "driver": 6, "picks": 7}
# What may stand in the script of a run; `arm` and `wake` within what read_run_call says.
RUN_CALLS = ("disable_nosync", "enable", "disable", "sync", "quiet", "serve", "arm", "wake", "free")
MOST_OF_RUN, MOST_OF_RUNS = 16, 256
MOST_ANSWERS, MOST_OF_ANSWERS = 4096, 65536
RULES = (
    "unlinked-enable", "depth-one", "unlazy-stays", "refuse-later", "empty-mask", "move-each-take", "fast-eoi-resend",
    "fast-eoi-open", "leave-full-mask", "keep-mask",
)
# The harness's words: what follows each of them. A `line` is the number of one.
WORDS = {
    "profile": "rules", "rows": "number", "hz": "number", "domains": "", "nextfirst": "", "notefirst": "",
    "resendfirst": "", "maskfirst": "", "realsoft": "", "noaffinity": "", "noirqdebug": "", "oneshotsafe": "",
    "irqdisable": "", "onactivate": "line", "noautoen": "line", "polled": "line", "untyped": "line",
    "enforced": "line", "wakefirst": "", "loadfirst": "", "sentstays": "", "unaimed": "line", "unbalanced": "line",
    "hotplug": "vectors events", "sleep": "lines",
}
WORD_CALLS = {"poll": "", "busychip": "line number", "default": "mask"}


class BadBoard(Exception):
    """A fault of a board, or something that the harness can't play, with its text line."""

    def __init__(self, at, text):
        super().__init__(f"line {at}: {text}")


class Board:
    """A board as the harness gets it: statements without comments, and what was found in them."""

    def __init__(self, text):
        self.statements, self.words = [], {}
        self.cpus, self.version, self.log, self.spurious = 1, None, 10000, False
        self.kinds, self.parents, self.lines, self.devices, self.drivers = {}, {}, {}, {}, set()
        self.owners, self.linked, self.picks, self.calls, self.section = {}, set(), 0, 0, 0
        self.unlazy, self.later, self.moves = [], False, 0
        self.script = None  # whose calls come: ("driver", N), or a part and its device
        self.runs, self.answers, self.turn, self.woken, self.arming = {}, {}, (0, 0), set(), set()
        self.settings = set()
        self.gates = False  # whether a run disables, enables or waits
        self.pure = []  # the text lines without the harness's words
        for at, row in enumerate(text.split("\n"), 1):
            self.read_row(at, row)
        if self.version is None:
            raise BadBoard(1, "no header")
        if self.log * len(self.lines) > 4000000:
            raise BadBoard(0, "log too large")
        self.fits_command()

    def read_row(self, at, row):
        """One text line: its statement, and the harness's word in its comment."""
        if re.search(r"[^\t\r\x20-\x7e]", row):
            raise BadBoard(at, "bad byte")
        text, _, comment = row.partition("#")
        words = text.split()
        if words:
            self.read_statement(at, words)
            self.statements.append(" ".join(words))
        if comment.split()[:1] == ["kernel"]:
            self.read_word(at, comment.split()[1:])
            self.statements.append(" ".join(comment.split()[1:]))
        self.pure.append(text)

    def read_statement(self, at, words):
        """A statement of docs/BOARD.md."""
        word, rest = words[0], words[1:]
        if self.version is None and word != "board":
            raise BadBoard(at, "no header")
        call = word in DEVICE_CALLS + LINE_CALLS
        if not call and word not in SECTIONS or self.is_later(word):
            raise BadBoard(at, f"unknown word: {word}")
        section = SECTIONS.get(word, self.section)
        if section < self.section or call and (self.script is None or section == SECTIONS["picks"]):
            raise BadBoard(at, f"out of order: {word}")
        self.section = section
        if section == SECTIONS["cpus"]:
            if word in self.settings:
                raise BadBoard(at, f"twice: {word}")
            self.settings.add(word)
        if call:
            self.read_call(at, word, rest)
        else:
            getattr(self, f"read_{word}_statement")(at, rest)

    def is_later(self, word):
        """Whether a word came with a later version than the board's."""
        return self.version is not None and SINCE.get(word, 1) > self.version

    # Words and numbers

    @staticmethod
    def count(at, words, least, most):
        """Fails unless there are so many words."""
        if not least <= len(words) <= most:
            raise BadBoard(at, "wrong count")

    @staticmethod
    def number(at, word, least, most):
        """The number of a word, in its range."""
        if not re.fullmatch("0|[1-9][0-9]{0,9}", word) or not least <= int(word) <= most:
            raise BadBoard(at, f"bad number: {word}")
        return int(word)

    def known(self, at, word, of, what):
        """The number of a line, device or driver that was declared before."""
        number = self.number(at, word, 1, 65535)
        if number not in of:
            raise BadBoard(at, f"not there: {what} {word}")
        return number

    def rising(self, at, word, of, most):
        """The number of a new line, device or driver."""
        number = self.number(at, word, 1, 65535)
        if of and number <= max(of):
            raise BadBoard(at, f"out of order: {word}")
        if len(of) == most:
            raise BadBoard(at, f"too many: {most} is the most")
        return number

    # Statements

    def read_board_statement(self, at, rest):
        """board V"""
        self.count(at, rest, 1, 1)
        if self.version is not None:
            raise BadBoard(at, "twice: board")
        self.version = self.number(at, rest[0], 1, 3)

    def read_cpus_statement(self, at, rest):
        """cpus N"""
        self.count(at, rest, 1, 1)
        self.cpus = self.number(at, rest[0], 1, 32)
        if self.cpus > MOST_CPUS:
            raise BadBoard(at, f"can't be played: {self.cpus} processors, the harness has {MOST_CPUS}")

    def read_spurious_statement(self, at, rest):
        """spurious W L"""
        self.count(at, rest, 2, 2)
        window = self.number(at, rest[0], 1, 1000000)
        self.number(at, rest[1], 0, window - 1)

    def read_log_statement(self, at, rest):
        """log N"""
        self.count(at, rest, 1, 1)
        self.log = self.number(at, rest[0], 1, 1000000)

    def read_domain_statement(self, at, rest):
        """domain NAME linear SIZE KIND | tree KIND, and parent NAME"""
        self.count(at, rest, 3, 6)
        name, form, rest = rest[0], rest[1], rest[2:]
        if not re.fullmatch("[a-z][a-z0-9_]{0,15}", name):
            raise BadBoard(at, f"bad name: {name}")
        if name in self.kinds:
            raise BadBoard(at, f"twice: {name}")
        if form not in ("linear", "tree"):
            raise BadBoard(at, f"unknown word: {form}")
        if form == "linear":
            self.number(at, rest.pop(0), 1, 1024)
        if not rest or rest[0] not in DOMAIN_KINDS or self.is_later(rest[0]):
            raise BadBoard(at, f"unknown word: {' '.join(rest[:1])} is no kind of domain")
        kind, rest = rest[0], rest[1:]
        self.count(at, rest, 0, 2)
        if rest and (len(rest) != 2 or rest[0] != "parent"):
            raise BadBoard(at, f"unknown word: {rest[0]}")
        parent = rest[1] if rest else None
        if parent is not None and parent not in self.kinds:
            raise BadBoard(at, f"not there: domain {parent}")
        if (kind in CHILDREN) != (parent is not None) or len(self.kinds) == 32:
            raise BadBoard(at, "too many: 32 domains are the most" if len(self.kinds) == 32 else "bad parent")
        self.kinds[name], self.parents[name] = kind, parent
        path = self.path(name)
        if len(path) > 8 or kind == "msi" and self.kinds[path[-1]] in ("level", "eoi"):
            raise BadBoard(at, "bad parent")

    def path(self, name):
        """The domains from one to its root."""
        found = [name]
        while self.parents[found[-1]] is not None:
            found.append(self.parents[found[-1]])
        return found

    def read_line_statement(self, at, rest):
        """line N DOMAIN NUMBER, and unlazy, later, mask M"""
        self.count(at, rest, 3, 8)
        number, name = self.rising(at, rest[0], self.lines, 64), rest[1]
        if name not in self.kinds:
            raise BadBoard(at, f"not there: domain {name}")
        self.number(at, rest[2], 0, 4294967295)
        self.lines[number], options, seen = name, rest[3:], set()
        while options:
            word = options.pop(0)
            if word in seen:
                raise BadBoard(at, f"twice: {word}")
            seen.add(word)
            if word == "mask":
                self.count(at, options, 1, 4)
                if not self.number(at, options.pop(0), 0, 4294967295) & ((1 << self.cpus) - 1):
                    raise BadBoard(at, "bad mask")
            elif word not in ("unlazy", "later"):
                raise BadBoard(at, f"unknown word: {word}")
        masks = [self.kinds[it] for it in self.path(name) if self.kinds[it] not in ("vector", "remap")]
        self.unlazy += [number] * ("unlazy" in seen)
        self.later = self.later or "later" in seen
        if "unlazy" in seen and masks[:1] in ([], ["plain"]):
            raise BadBoard(at, "bad unlazy")

    def read_device_statement(self, at, rest):
        """device N LINE KIND, and held, forgets"""
        self.count(at, rest, 3, 5 if self.version == 3 else 3)
        number = self.rising(at, rest[0], self.devices, 256)
        line = self.known(at, rest[1], self.lines, "line")
        if rest[2] not in DEVICE_KINDS or self.is_later(rest[2]):
            raise BadBoard(at, f"unknown word: {rest[2]} is no kind of device")
        if len(set(rest[3:])) < len(rest[3:]) or not set(rest[3:]) <= set(DEVICE_OPTIONS):
            raise BadBoard(at, f"unknown word or twice: {' '.join(rest[3:])}")
        self.devices[number] = (line, rest[2])

    # What runs of handlers and threads answer and call

    def has_thread(self, device):
        """Whether a device has a thread."""
        kind = self.devices.get(device, (0, ""))[1]
        return kind in ("check", "null") or kind == "told" and "wake" in self.answers.get((device, "handler"), {})

    def next_part(self, at, device, rank):
        """Fails unless the statements of devices' runs stand in their order."""
        if (device, rank) <= self.turn:
            raise BadBoard(at, "twice" if (device, rank) == self.turn else f"out of order: device {device}")
        self.turn = device, rank

    def read_answers_statement(self, at, rest):
        """answers DEV ANSWER.., answers DEV thread ANSWER.."""
        self.count(at, rest, 2, 2 + MOST_ANSWERS)
        device, words = self.known(at, rest[0], self.devices, "device"), rest[1:]
        part = "thread" if words[0] == "thread" else "handler"
        words = words[part == "thread" :]
        self.count(at, words, 1, MOST_ANSWERS)
        self.next_part(at, device, 1 + (part == "thread"))
        told = self.devices[device][1] == "told"
        if part == "thread" and told and not self.has_thread(device):
            raise BadBoard(at, f"not there: thread {device}")
        if not told:
            raise BadBoard(at, "bad run")
        counts = self.answers.setdefault((device, part), {})
        for word in words:
            found = re.fullmatch(r"(handled|wake|nothing|claims)(?:\*([1-9][0-9]{0,4}))?", word)
            if not found or found[1] == "wake" and part == "thread" or int(found[2] or 1) > 65535:
                raise BadBoard(at, f"unknown word: {word}")
            counts[found[1]] = counts.get(found[1], 0) + int(found[2] or 1)
        of_device = [sum(it.values()) for (of, _), it in self.answers.items() if of == device]
        if sum(of_device) > MOST_ANSWERS or sum(sum(it.values()) for it in self.answers.values()) > MOST_OF_ANSWERS:
            raise BadBoard(at, "too many: answers")
        self.script = None

    def read_handler_statement(self, at, rest):
        """handler DEV"""
        device = self.begin_run(at, rest, "handler", 3)
        if self.devices[device][1] in ("null", "stuck", "odd"):
            raise BadBoard(at, "bad run")

    def read_thread_statement(self, at, rest):
        """thread DEV"""
        device = self.begin_run(at, rest, "thread", 4)
        if not self.has_thread(device):
            raise BadBoard(at, f"not there: thread {device}")

    def begin_run(self, at, rest, part, rank):
        """The calls of a part's runs come."""
        self.count(at, rest, 1, 1)
        device = self.known(at, rest[0], self.devices, "device")
        self.next_part(at, device, rank)
        self.script = part, device
        self.runs[self.script] = 0
        return device

    def read_run_call(self, at, word, of):
        """A call of a run, of a line or a device."""
        part, own = self.script
        line = self.devices[of][0] if word in DEVICE_CALLS else of
        kind = self.devices[own][1]
        bad = word not in RUN_CALLS or line != self.devices[own][0]
        bad |= word == "wake" and part == "thread" or word == "free" and part == "handler"
        bad |= word == "arm" and (of != own or part == "handler" and kind != "direct")
        if word == "wake" and self.devices[of][1] == "told":
            self.woken.add(of)
            bad |= of in self.arming
        if word == "arm" and kind == "told" and part == "thread":
            self.arming.add(own)
            bad |= own in self.woken
        if bad:
            raise BadBoard(at, "bad run")
        self.gates = self.gates or word in ("disable_nosync", "enable", "disable", "sync", "free")
        self.runs[self.script] += 1
        if self.runs[self.script] > MOST_OF_RUN or sum(self.runs.values()) > MOST_OF_RUNS:
            raise BadBoard(at, "too many: calls of a run")

    def read_driver_statement(self, at, rest):
        """driver N"""
        self.count(at, rest, 1, 1)
        self.drivers.add(self.rising(at, rest[0], self.drivers, 64))
        self.script = "driver", max(self.drivers)

    def read_picks_statement(self, at, rest):
        """picks PICK .."""
        self.count(at, rest, 1, 65536)
        for pick in rest:
            found = re.fullmatch(r"([cdt])(0|[1-9][0-9]{0,4})(?:\*([1-9][0-9]{0,4}))?", pick)
            if not found or int(found[2]) > 65535 or int(found[3] or 1) > 65535:
                raise BadBoard(at, f"bad name: {pick}")
            number = int(found[2])
            there = {"c": number < self.cpus, "d": number in self.drivers,
                     "t": self.has_thread(number)}
            if not there[found[1]]:
                raise BadBoard(at, f"not there: {pick}")
            self.picks += int(found[3] or 1)
        if self.picks > 65536:
            raise BadBoard(at, "too many: 65536 picks are the most")

    def read_call(self, at, word, rest):
        """A call of a script."""
        in_run = self.script[0] != "driver"
        self.calls += not in_run
        if self.calls > 16384:
            raise BadBoard(at, "too many: 16384 calls are the most")
        if word in DEVICE_CALLS:
            self.count(at, rest, 1, 4 if word == "request" else 1)
            device = self.known(at, rest[0], self.devices, "device")
            if in_run:
                self.read_run_call(at, word, device)
            else:
                self.read_owner(at, word, device)
            flags = rest[1:]
            if len(set(flags)) < len(flags) or not set(flags) <= {"shared", "oneshot", "noauto"}:
                raise BadBoard(at, f"unknown word or twice: {' '.join(flags)}")
            return
        self.moves += word == "affinity"
        self.count(at, rest, *((2, 2) if word in ("affinity", "moment") else (1, 1)))
        line = self.known(at, rest[0], self.lines, "line")
        if rest[1:]:
            self.number(at, rest[1], 0, 4294967295)
        if in_run:
            self.read_run_call(at, word, line)

    def read_owner(self, at, word, device):
        """The requests and frees of a device are one driver's, and a free stands between two requests."""
        if word not in ("request", "free"):
            return
        owner = max(self.drivers)
        if self.owners.setdefault(device, owner) != owner or word == "request" and device in self.linked:
            raise BadBoard(at, "bad owner")
        (self.linked.add if word == "request" else self.linked.discard)(device)

    # The harness's words

    def read_word(self, at, words):
        """#kernel WORD .."""
        word, rest = (words + [""])[0], words[1:]
        if word not in WORDS and word not in WORD_CALLS:
            raise BadBoard(at, f"unknown word of the harness: {word}")
        if word in WORD_CALLS and not self.drivers:
            raise BadBoard(at, f"out of order: {word}")
        needs = (WORDS.get(word) or WORD_CALLS.get(word) or "").split()
        if needs == ["rules"]:
            if not set(rest) <= set(RULES):
                raise BadBoard(at, f"unknown rule: {' '.join(set(rest) - set(RULES))}")
        elif word == "hotplug":
            self.read_hotplug(at, rest)
        elif word == "sleep":
            self.read_sleep(at, rest)
        else:
            self.count(at, rest, len(needs), len(needs))
            for need, it in zip(needs, rest):
                self.read_need(at, word, need, it)
        self.words[word] = rest

    def read_need(self, at, word, need, it):
        """What has to follow a word of the harness."""
        if need == "number":
            self.number(at, it, 0 if word == "busychip" else 1, 1000000)
        elif need == "mask":
            if not self.number(at, it, 0, 4294967295) & ((1 << self.cpus) - 1):
                raise BadBoard(at, "bad mask")
        else:
            self.known(at, it, self.lines, need)

    def read_hotplug(self, at, rest):
        """hotplug V EVENT.."""
        self.count(at, rest, 1, 65)
        self.number(at, rest[0], 1, 64)
        for event in rest[1:]:
            found = re.fullmatch("(?:off|on):(0|[1-9][0-9]*)", event)
            if not found:
                raise BadBoard(at, f"bad event: {event}")
            self.number(at, found[1], 0, 31)

    def read_sleep(self, at, rest):
        """sleep LINE.."""
        for line in rest:
            if self.known(at, line, self.lines, "line") in self.unlazy:
                raise BadBoard(at, f"not for sleep: line {line} is unlazy")

    def fits_command(self):
        """Fails if genirq's hotplug or sleep doesn't take the board, for other reasons than a line that is refused."""
        if set(self.words) >= {"hotplug", "sleep"}:
            raise BadBoard(0, "hotplug and sleep")
        if self.gates and "sleep" in self.words:
            raise BadBoard(0, "not for sleep: a run disables, enables or waits")
        for word in {"hotplug", "sleep"} & set(self.words):
            most = 12224 if word == "hotplug" else 16256
            if len(self.drivers) == 64 or 65535 in self.drivers or self.calls > most:
                raise BadBoard(0, f"not for {word}")
        if "hotplug" in self.words and (self.moves or self.later):
            raise BadBoard(0, "not for hotplug")
        if "hotplug" in self.words and self.cpus == MOST_CPUS:
            raise BadBoard(0, f"can't be played: the harness has {MOST_CPUS} processors, one of them for itself")

    def machine_cpus(self):
        """How many processors the board is played with."""
        return max(4 * ("realsoft" in self.words), self.cpus + ("hotplug" in self.words))

    def command(self):
        """The words of genirq that play the board."""
        return next(([word, *self.words[word]] for word in ("hotplug", "sleep") if word in self.words), ["play"])

    def checked_text(self, rows):
        """The board that genirq check has to judge rows by: with the system's driver, if its command has one."""
        lines = [row.split()[2] for row in rows if row.startswith("# irq ") and "refused" not in row]
        if "sleep" in self.words:
            calls = [f"{word} {line}" for word in ("disable", "enable") for line in lines]
        elif "hotplug" in self.words:
            moves = [row.split() for row in rows if " d65535 affinity " in row]
            calls = [f"affinity {row[0]} {row[3]}" for row in moves]
        else:
            return self.pure_text()
        picks = [row for row in self.pure if row.split()[:1] == ["picks"]]
        rest = [row for row in self.pure if row not in picks]
        return "\n".join(rest + ["driver 65535"] + calls + picks)

    def row_limit(self):
        """After how many rows the play stops; None if it doesn't."""
        return int(self.words["rows"][0]) if "rows" in self.words else None

    def pure_text(self):
        """The board without the harness's words, for genirq."""
        return "\n".join(self.pure)

    def kernel_text(self, trace=False, profile=False):
        """The board with the harness's words, as it goes into the kernel."""
        first, rest = self.statements[:1], self.statements[1:]
        return "\n".join(first + ["trace"] * trace + ["profile"] * profile + rest) + "\n"
