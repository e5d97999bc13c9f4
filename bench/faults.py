#!/usr/bin/env python3
"""faults.py [--cases | < BOARD]: the fault of a board's text of version 1, 2 or 3, by the rules once more

It prints `board: line AT: TEXT`, or nothing where the text has no fault. With --cases the boards of cases/ are read instead, those
with a fault and those without, and what isn't as a case says is told; the last line is a sum.
"""

import re
import sys
from pathlib import Path

sys.path.insert(0, str(Path(__file__).resolve().parent.parent / "tools"))
from repository import TOP, end_with, say_help, stop  # noqa: E402

# On one text line the first of these is told.
ORDER = ("bad byte", "no header", "unknown word", "wrong count", "bad number", "bad name", "out of order", "twice", "not there", "bad parent",
         "bad unlazy", "bad mask", "bad owner", "bad run", "too many")  # fmt: skip
LONGEST, LOG, WORD32 = 1_048_576, 4_000_000, (1 << 32) - 1
NUMBER = re.compile(r"0|[1-9][0-9]{0,9}")
NAME = re.compile(r"[a-z][a-z0-9_]{0,15}")
PICK = re.compile(r"([tcd])(0|[1-9][0-9]{0,9})(?:\*([1-9][0-9]{0,9}))?")
ANSWER = re.compile(r"([a-z]+)(?:\*([1-9][0-9]{0,9}))?")
ROOTS = {"latch": True, "plain": False, "level": None, "eoi": None, "lpi": True, "vector": False, "pin": True}
KINDS = ("direct", "check", "null", "stuck", "odd", "told")
FLAGS = ("shared", "oneshot", "noauto")
OF_LINES = ("disable", "disable_nosync", "enable", "sync", "affinity", "moment", "sync_hard", "disable_hard")
OF_DEVICES = ("request", "free", "ask", "quiet", "arm", "serve", "wake")
SECTIONS = {"board": 0, "cpus": 1, "spurious": 1, "log": 1, "domain": 2, "line": 3, "device": 4, "answers": 5, "handler": 5, "thread": 5}
SECTIONS |= {"driver": 6, "picks": 7}
NEW = {"pin", "odd", "told", "answers", "handler", "thread", "quiet", "arm", "serve", "wake", "sync_hard", "disable_hard"}
# What may stand in no script of a run; the last three wait, and runs that wait aren't built yet.
NEVER_IN_RUNS = ("request", "affinity", "ask", "moment", "sync_hard", "disable_hard")


class Words:
    """The words of one statement, taken by their places; what is wrong with them is noted."""

    def __init__(self, words, faults):
        self.left, self.faults = list(words), faults

    def take(self):
        if self.left:
            return self.left.pop(0)
        self.faults.add("wrong count")
        return None

    def number(self, low, high):
        word = self.take()
        if word is None:
            return None
        if NUMBER.fullmatch(word) and low <= int(word) <= high:
            return int(word)
        self.faults.add("bad number")
        return None

    def name(self):
        word = self.take()
        if word is not None and not NAME.fullmatch(word):
            self.faults.add("bad name")
        return word

    def one_of(self, words):
        word = self.take()
        if word is not None and word not in words:
            self.faults.add("unknown word")
            return None
        return word

    def options(self, words):
        """What is left, each one of these and once; `mask` has a number behind it, `parent` a name."""
        found = {}
        while self.left:
            word = self.one_of(words)
            if word in found:
                self.faults.add("twice")
            if word:
                found[word] = self.number(0, WORD32) if word == "mask" else self.name() if word == "parent" else None
        return found

    def end(self):
        if self.left:
            self.faults.add("wrong count")


class Text:
    """What the statements so far say."""

    def __init__(self):
        self.version, self.cpus, self.log, self.seen, self.section = 0, 1, 10_000, set(), 0
        self.domains, self.lines, self.devices, self.drivers, self.last = {}, {}, {}, [], {}
        self.calls, self.picks, self.run, self.run_place = 0, 0, None, (0, -1)
        self.answers, self.runs, self.owners, self.linked, self.driver_calls = {}, {}, {}, set(), False

    # -- one statement

    def faults_of(self, words):
        """What is wrong with the statement; if nothing is, it is taken in."""
        faults, word = set(), words[0]
        if not self.version:
            if word != "board":
                return {"no header"}
        elif word not in (*SECTIONS, *OF_LINES, *OF_DEVICES) or self.is_new(word):
            return {"unknown word"}
        rest = Words(words[1:], faults)
        self.order(word, faults)
        if word in SECTIONS:
            getattr(self, f"read_{word}")(rest, faults)
        else:
            self.read_call(word, rest, faults)
        return faults

    def is_new(self, word):
        return self.version < 3 and word in NEW or self.version < 2 and word == "moment"

    def order(self, word, faults):
        if word in SECTIONS:
            section = SECTIONS[word]
            if section < self.section:
                faults.add("out of order")
            if section < 2 and word in self.seen:
                faults.add("twice")
            self.section = max(section, self.section)
            self.seen.add(word)
        elif self.run is None or self.section == SECTIONS["picks"]:
            faults.add("out of order")

    def rises(self, what, number, faults):
        if number is not None and number <= self.last.get(what, 0):
            faults.add("out of order")
        self.last[what] = number or 0

    def read_board(self, rest, faults):
        version = rest.number(1, 3)
        rest.end()
        self.version = self.version or version or 0

    def read_cpus(self, rest, faults):
        self.cpus = rest.number(1, 32) or 1
        rest.end()

    def read_spurious(self, rest, faults):
        window = rest.number(1, 1_000_000)
        rest.number(0, (window or 1_000_000) - 1)
        rest.end()

    def read_log(self, rest, faults):
        self.log = rest.number(1, 1_000_000) or 1
        rest.end()

    def read_domain(self, rest, faults):
        name = rest.name()
        if rest.one_of(("linear", "tree")) == "linear":
            rest.number(1, 1024)
        kinds = {*ROOTS, "msi", "remap"} - (NEW if self.version < 3 else set())
        kind = rest.one_of(kinds)
        parent = rest.options(("parent",)).get("parent")
        if name in self.domains:
            faults.add("twice")
        if parent is not None and parent not in self.domains:
            faults.add("not there")
        if not faults:
            self.add_domain(name, kind, self.domains.get(parent), faults)
        if len(self.domains) > 32:
            faults.add("too many")

    def add_domain(self, name, kind, over, faults):
        """A domain: its root's kind, its depth, and whether it keeps at the level that masks; None if none masks."""
        root, depth, masks = over or (kind, 0, None)
        if (kind in ROOTS) != (over is None) or kind == "msi" and root in ("level", "eoi") or depth == 8:
            faults.add("bad parent")
        own = {"msi": True, "vector": None, "remap": None}.get(kind, ROOTS.get(kind) or False)
        self.domains[name] = root, depth + 1, masks if kind == "remap" else own

    def read_line(self, rest, faults):
        number, name = rest.number(1, 65535), rest.name()
        rest.number(0, WORD32)
        options = rest.options(("unlazy", "later", "mask"))
        self.rises("line", number, faults)
        if name is not None and name not in self.domains:
            faults.add("not there")
        elif name is not None and "unlazy" in options and self.domains[name][0] not in ("level", "eoi") and not self.domains[name][2]:
            faults.add("bad unlazy")
        if options.get("mask") is not None and not options["mask"] & (1 << self.cpus) - 1:
            faults.add("bad mask")
        self.lines[number] = name
        if len(self.lines) > 64:
            faults.add("too many")

    def read_device(self, rest, faults):
        number, line = rest.number(1, 65535), rest.number(1, 65535)
        kind = rest.one_of(KINDS if self.version > 2 else KINDS[:4])
        if self.version > 2:
            rest.options(("held", "forgets"))
        rest.end()
        self.rises("device", number, faults)
        if line is not None and line not in self.lines:
            faults.add("not there")
        self.devices[number] = line, kind
        if len(self.devices) > 256:
            faults.add("too many")

    # -- runs

    def has_thread(self, dev):
        kind = self.devices[dev][1]
        return kind in ("check", "null") or kind == "told" and "wake" in self.answers.get((dev, "handler"), {})

    def in_turn(self, dev, rank, faults):
        """The statements about runs: by device, and of one device in their order, each once."""
        if dev is None:
            return
        if (dev, rank) < self.run_place:
            faults.add("out of order")
        if (dev, rank) in self.seen:
            faults.add("twice")
        self.seen.add((dev, rank))
        self.run_place = max(self.run_place, (dev, rank))

    def read_answers(self, rest, faults):
        dev = rest.number(1, 65535)
        part = rest.take() if rest.left[:1] == ["thread"] else "handler"
        words = ("handled", "nothing", "claims") + ("wake",) * (part == "handler")
        answers = [self.answer(rest.take(), words, faults) for _ in range(max(1, len(rest.left)))]
        self.in_turn(dev, part == "thread", faults)
        self.run = None
        if dev is not None and dev not in self.devices:
            faults.add("not there")
        elif dev is not None and self.devices[dev][1] != "told":
            faults.add("bad run")
        elif dev is not None and part == "thread" and not self.has_thread(dev):
            faults.add("not there")
        if not faults:
            self.answers[dev, part] = {word: sum(often for other, often in answers if other == word) for word, _ in answers}
            total = {at: sum(its.values()) for at, its in self.answers.items()}
            if sum(often for (other, _), often in total.items() if other == dev) > 4096 or sum(total.values()) > 65536:
                faults.add("too many")

    def answer(self, word, words, faults):
        found = ANSWER.fullmatch(word or "handled")
        if not found or found[1] not in words or not 1 <= int(found[2] or 1) <= 65535:
            faults.add("unknown word")
            return None, 0
        return found[1], int(found[2] or 1)

    def read_handler(self, rest, faults):
        dev = self.begin_run("handler", rest, faults)
        if dev in self.devices and self.devices[dev][1] in ("null", "stuck", "odd"):
            faults.add("bad run")

    def read_thread(self, rest, faults):
        dev = self.begin_run("thread", rest, faults)
        if dev in self.devices and not self.has_thread(dev):
            faults.add("not there")

    def begin_run(self, part, rest, faults):
        dev = rest.number(1, 65535)
        rest.end()
        self.in_turn(dev, 2 + (part == "thread"), faults)
        if dev is not None and dev not in self.devices:
            faults.add("not there")
        self.run = part, dev
        self.runs.setdefault(self.run, [])
        return dev

    def in_run(self, word, device, line, faults):
        """A call in the script of a run."""
        part, dev = self.run
        own_line, kind = self.devices[dev]
        target = self.devices[device][0] if device is not None else line
        bad = word in NEVER_IN_RUNS or target != own_line
        bad = bad or word == "free" and part == "handler" or word == "wake" and part == "thread"
        bad = bad or word == "arm" and (device != dev or part == "handler" and kind != "direct")
        script = self.runs[self.run]
        script.append((word, device))
        if bad or self.arms_what_is_woken(word, device):
            faults.add("bad run")
        if len(script) > 16 or sum(map(len, self.runs.values())) > 256:
            faults.add("too many")

    def arms_what_is_woken(self, word, device):
        """The call makes both a wake of a told device in a handler and an arm of it in its thread stand in the text."""
        if word not in ("wake", "arm") or self.devices[device][1] != "told":
            return False
        wakes = any(("wake", device) in calls for (part, _), calls in self.runs.items() if part == "handler")
        return wakes and ("arm", device) in self.runs.get(("thread", device), ())

    # -- drivers and picks

    def read_driver(self, rest, faults):
        number = rest.number(1, 65535)
        rest.end()
        self.rises("driver", number, faults)
        self.drivers.append(number)
        self.run = "driver", number
        if len(self.drivers) > 64:
            faults.add("too many")

    def read_call(self, word, rest, faults):
        device = line = None
        if word in OF_DEVICES:
            device = rest.number(1, 65535)
            if word == "request":
                rest.options(FLAGS)
        else:
            line = rest.number(1, 65535)
            if word in ("affinity", "moment"):
                rest.number(0, WORD32)
        rest.end()
        if device is not None and device not in self.devices or line is not None and line not in self.lines:
            faults.add("not there")
        if not faults:
            self.place_call(word, device, line, faults)

    def place_call(self, word, device, line, faults):
        if self.run[0] != "driver":
            self.in_run(word, device, line, faults)
            return
        self.calls += 1
        if self.calls > 16_384:
            faults.add("too many")
        if word in ("request", "free"):
            if self.owners.setdefault(device, self.run[1]) != self.run[1] or word == "request" and device in self.linked:
                faults.add("bad owner")
            (self.linked.add if word == "request" else self.linked.discard)(device)

    def read_picks(self, rest, faults):
        words = [rest.take() for _ in range(max(1, len(rest.left)))]
        for found in (PICK.fullmatch(word) for word in words if word is not None):
            kind, number, times = (found[1], int(found[2]), int(found[3] or 1)) if found else ("", -1, 0)
            if not found or times > 65535 or not (number <= 31 if kind == "c" else 1 <= number <= 65535):
                faults.add("bad name")
                continue
            there = {"c": number < self.cpus, "d": number in self.drivers, "t": number in self.devices and self.has_thread(number)}
            if not there[kind]:
                faults.add("not there")
            self.picks += times
        if self.picks > 65536:
            faults.add("too many")


def fault_of(data):
    """Where a text's fault is and which, or None."""
    if len(data) > LONGEST:
        return 0, "too long"
    text, rows = Text(), data.split(b"\n")
    statements = [row.partition(b"#")[0].decode("latin-1").split() for row in rows]
    for at, (row, words) in enumerate(zip(rows, statements), 1):
        faults = {"bad byte"} if any(byte not in (9, 13) and not 32 <= byte < 127 for byte in row) else set()
        if words and not faults:
            faults = text.faults_of(words)
        if faults or not any(statements):
            return at, min(faults or {"no header"}, key=ORDER.index)
    return (0, "log too large") if text.log * len(text.lines) > LOG else None


# ---- the boards of cases/


def unescaped(text):
    """The bytes of an input in a table of cases."""
    words = {"|": "\n", "\\t": "\t", "\\r": "\r", "\\\\": "\\"}
    text = re.sub(r"\\(x[0-9A-Fa-f]{2}|.)|\|", lambda it: words.get(it[0]) or chr(int(it[1][1:], 16)), text)
    return text.encode("latin-1")


def boards_of_tables():
    """The boards in tables of cases, each with its name and what is said of it."""
    for rows in sorted(TOP.glob("cases/*/rows")):
        words = rows.parent / "words"
        program = words.read_text().split() if words.exists() else ["check"]
        head = rows.parent / "head"
        before = head.read_bytes() if head.exists() else b""
        for row in rows.read_text(encoding="utf-8").splitlines():
            if row.startswith("$ "):
                program = row[2:].split()
            elif row and not row.startswith("#"):
                said, _, text = row.partition(" =")
                text = text.removeprefix(" ")
                yield f"{rows.parent.name}: {row}", program, said, before + unescaped(text)


def boards_of_cases():
    """The boards that are a case's whole input."""
    for folder in sorted(it.parent for it in TOP.glob("cases/*/input")):
        status = (folder / "status").read_text().strip() if (folder / "status").exists() else "0"
        error = (folder / "error").read_text().strip() if (folder / "error").exists() else ""
        words = (folder / "words").read_text().split() if (folder / "words").exists() else [""]
        yield folder.name, words, f"{status} {error}", (folder / "input").read_bytes()


def board_part(data):
    """What stands before the row `---`, and whether there is one."""
    rows = data.split(b"\n")
    return (b"\n".join([*rows[: rows.index(b"---")], b""]), True) if b"---" in rows else (data, False)


def is_as_said(program, said, data):
    """None where nothing is said of the board's text; else whether the fault that is found is the one that is said."""
    if program[0] not in ("play", "check", "run", "chained", "hotplug", "sleep"):
        return None
    text, cut = board_part(data) if program[0] == "check" else (data, True)
    found = re.search(r"board: line (\d+): (.*)", said)
    if said[0] == "2" or found and (found[2] in ("no log", "too long") or found[2].startswith("not for")) or not cut:
        return None
    wanted = (int(found[1]), found[2]) if found else None
    return fault_of(text) == wanted if found or said[0] in "01" else None


def look_at_cases():
    passed = failed = 0
    for name, program, said, data in [*boards_of_tables(), *boards_of_cases()]:
        as_said = is_as_said(program, said, data)
        passed, failed = passed + (as_said is True), failed + (as_said is False)
        if as_said is False:
            print(f"{name}: here {fault_of(board_part(data)[0])}")
    end_with(passed, failed)


def main(words):
    if words == ["--help"]:
        say_help(__doc__)
    if words == ["--cases"]:
        look_at_cases()
        return
    if words:
        stop("bench/faults.py [--cases | < BOARD]")
    if fault := fault_of(sys.stdin.buffer.read()):
        print("board: line {}: {}".format(*fault))


if __name__ == "__main__":
    main(sys.argv[1:])
