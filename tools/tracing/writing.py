"""Writes a piece as a board and a log, and tells of each row what it was made of."""

from laying import LIMIT, WINDOW
from steps import Device

# The number of a line that the kernel calls 0, which a board can't.
ZERO = 65535
SPARE = 60000
FLAGS = (("s", "shared"), ("o", "oneshot"), ("n", "noauto"))
DOMAINS = {
    "msi": ["domain vector tree vector", "domain pci_msi tree msi parent vector"],
    "latch": ["domain io_apic tree latch"],
    "eoi": ["domain io_apic tree eoi"],
    "level": ["domain pic tree level"],
}


def domain_of(line):
    """The controllers of a line, by its chip's name and its flow."""
    chip = line.facts.get("chip_name") or ""
    if line.kind == "eoi":
        return "eoi", "io_apic"
    if line.kind == "level":
        return "level", "pic"
    return ("msi", "pci_msi") if "MSI" in chip else ("latch", "io_apic")


def plain(text):
    """A name as a comment may have it."""
    return "".join(it if " " <= it <= "~" else "?" for it in text)


class Written:
    """The texts of one piece."""

    def __init__(self, piece, cpus):
        self.piece, self.cpus = piece, cpus
        self.number = piece.line.number or ZERO
        self.names, self.drivers, self.scripts = {}, {}, {}
        self.devices = []
        for row in piece.rows:
            for it in [*row.words, row.who[1] if isinstance(row.who, tuple) and len(row.who) > 1 else None]:
                if isinstance(it, Device) and it not in self.devices:
                    self.devices.append(it)
        self.devices.sort(key=lambda it: it.number)
        for row in piece.rows:
            self.note(row)

    def driver(self, who):
        return self.drivers.setdefault(who if who[0] != "device" else ("device", who[1].number), len(self.drivers) + 1)

    def note(self, row):
        """A call is in its driver's script at the place of its first row."""
        if not isinstance(row.who, tuple) or row.who[0] == "thread":
            return
        script = self.scripts.setdefault(self.driver(row.who), [])
        if row.call is not None and not any(it is row.call for it, _ in script[-3:]):
            script.append((row.call, row))

    def call_text(self, call, row):
        word = call[0]
        if word in ("request", "free", "ask"):
            flags = ""
            if word == "request":
                flags = "".join(f" {name}" for letter, name in FLAGS if letter in row.words[2])
            return f"{word} {self.word(call[1])}{flags}"
        if word == "affinity":
            return f"affinity {self.number} {row.words[1]}"
        if word == "moment":
            return f"moment {self.number} {row.words[1]}"
        return f"{word} {self.number}"

    def word(self, it):
        if isinstance(it, Device):
            return str(it.number)
        return str(SPARE) if it == "spare" else str(it)

    def kinds(self):
        answers = {}
        for it in self.piece.rows:
            if it.words[0] == "return" and isinstance(it.who, str):
                answers.setdefault(it.words[1].number, set()).add(it.words[2])
            elif isinstance(it.who, tuple) and it.who[0] == "thread":
                answers.setdefault(it.who[1].number, set()).add("wake")
        wakers = {number for number, found in answers.items() if "wake" in found}
        return {it.number: "null" if it.is_null else "check" if it.number in wakers else "direct" for it in self.devices}

    def board(self):
        piece, (kind, domain) = self.piece, domain_of(self.piece.line)
        count, unhandled, _ = piece.counts
        window = WINDOW - count + 1 if unhandled else WINDOW
        limit = min(max(LIMIT - unhandled + 1 if unhandled else LIMIT, 0), window - 1)
        yield "board 2"
        if piece.said:
            yield f"# {piece.said}"
        yield f"cpus {self.cpus}"
        yield f"spurious {window} {limit}"
        yield "log 1000000"
        yield from DOMAINS[kind]
        hwirq = int(piece.line.facts.get("hwirq") or self.number) & 0xFFFFFFFF
        yield f"line {self.number} {domain} {hwirq}{' later' if piece.later else ''} mask {piece.target}"
        kinds = self.kinds()
        for device in self.devices:
            yield f"device {device.number} {self.number} {kinds[device.number]}   # {plain(device.name)}"
        if piece.spare:
            yield f"device {SPARE} {self.number} stuck   # never linked: what came that no handler found"
        names = {number: who for who, number in self.drivers.items()}
        for number, script in sorted(self.scripts.items()):
            yield f"driver {number}   # {' '.join(map(str, names[number]))}"
            for call, row in script:
                yield self.call_text(call, row)

    def who(self, row):
        if isinstance(row.who, str):
            return row.who
        if row.who[0] == "thread":
            return f"t{row.who[1].number}"
        return f"d{self.driver(row.who)}"

    def log(self):
        for row in self.piece.rows:
            yield f"{self.number} {self.who(row)} {' '.join(self.word(it) for it in row.words)}"

    def text(self):
        """What `genirq check` reads."""
        return "\n".join([*self.board(), "---", *self.log()]) + "\n"

    def sources(self):
        """Of each row its events, or why it has none."""
        for number, row in enumerate(self.piece.rows, 1):
            yield f"{number} {' '.join(map(str, row.events)) if row.events else '- ' + row.reason}"
