"""Records: sets the probes in tracefs, waits, takes them down again, and writes what was seen into one file.

The file is text, packed by gzip: rows of `#`, each with a word and JSON behind it (the kernel, the lines' facts, the
probes that were refused); then what trace_pipe gave, untouched; then rows of `#` again (what was lost).
"""

import contextlib
import gzip
import json
import os
import re
import signal
import subprocess
import threading
import time
from pathlib import Path

from btf import BadBtf, Btf
from probes import POINTS, PROBES, STRUCTS, fetched

TRACEFS = Path("/sys/kernel/tracing")
GROUP = "genirq"
BTF = Path("/sys/kernel/btf/vmlinux")
# Return probes that may be open at a time: those of functions that sleep stay open.
OPEN = 256
FACTS = ("chip_name", "hwirq", "type", "name", "actions")
PROC = ("smp_affinity_list", "effective_affinity_list", "spurious")


class Fault(Exception):
    """Why nothing can be recorded."""


def write(path, text):
    with open(path, "w") as file:
        file.write(text)


def add(path, text):
    """Adds a row to a file of tracefs. (Python's own mode for that moves to the end, which such a file refuses.)"""
    file = os.open(path, os.O_WRONLY | os.O_APPEND)
    try:
        os.write(file, text.encode())
    finally:
        os.close(file)


def read(path):
    """A file's text, None where it can't be read."""
    try:
        return path.read_text(errors="replace").strip()
    except OSError:
        return None


def facts_of(line):
    """What the files that tools/machine reads say of one line, and its counts of spurious interrupts."""
    found = {it: read(Path(f"/sys/kernel/irq/{line}/{it}")) for it in FACTS}
    found.update({it: read(Path(f"/proc/irq/{line}/{it}")) for it in PROC})
    return found


def all_lines():
    """The lines that have an action."""
    lines = sorted(int(it.name) for it in Path("/sys/kernel/irq").iterdir())
    return [it for it in lines if read(Path(f"/sys/kernel/irq/{it}/actions"))]


def symbols():
    """The kernel's functions, those of modules left out."""
    found = set()
    with open("/proc/kallsyms") as text:
        for row in text:
            words = row.split()
            if len(words) == 3 and words[1] in "tT":
                found.add(words[2])
    return found


def definitions(btf, known):
    """The probes as tracefs wants them, and those that can't be, with what is lost."""
    wanted, refused = [], []
    for event, kind, functions, fields, lost in PROBES:
        name = event.lstrip("@")
        found = [it for it in functions.split("|") if it in known]
        if not found:
            refused.append({"event": name, "function": functions, "why": "no such function", "lost": lost})
            continue
        texts = []
        for field in fields:
            try:
                texts.append(fetched(field, btf))
            except BadBtf as fault:
                field = field.split("=")[0]
                refused.append({"event": name, "function": found[0], "why": str(fault), "lost": f"the field {field}"})
        head = f"r{OPEN}" if kind == "r" else "p"
        wanted.append((name, f"{head}:{GROUP}/{name} {found[0]} {' '.join(texts)}", lost, [it.split("=")[0] for it in texts]))
    return wanted, refused


class Probes:
    """The probes while they are set, in a tracing instance of their own: other users of the trace aren't disturbed."""

    def __init__(self, clock, size, lines):
        self.room = TRACEFS / "instances" / GROUP
        self.clock, self.size, self.lines = clock, size, lines
        self.set, self.refused, self.is_mine = [], [], False

    def begin(self):
        if not (TRACEFS / "kprobe_events").exists():
            raise Fault(f"{TRACEFS}/kprobe_events isn't there: a kernel with kprobe events, as root, with tracefs mounted")
        if self.room.exists():
            raise Fault(f"{self.room} is there: another recording runs, or one was killed hard; record --clear takes it down")
        wanted, self.refused = definitions(Btf(BTF.read_bytes(), STRUCTS), symbols())
        self.room.mkdir()
        self.is_mine = True
        write(self.room / "tracing_on", "0")
        for name, text, lost, fields in wanted:
            try:
                add(TRACEFS / "kprobe_events", text + "\n")
                self.set.append((name, fields))
            except OSError as fault:
                self.refused.append({"event": name, "function": text.split()[1], "why": fault.strerror, "lost": lost})
        write(self.room / "trace_clock", self.clock)
        write(self.room / "buffer_size_kb", str(self.size))
        for name, fields in self.set:
            self.enable(GROUP, name, "irq" in fields)
        for system, name, lost in POINTS:
            if not (self.room / "events" / system / name).exists():
                self.refused.append({"event": name, "function": name, "why": "no such trace point", "lost": lost})
                continue
            self.enable(system, name, True)
        write(self.room / "tracing_on", "1")

    def enable(self, system, name, has_line):
        folder = self.room / "events" / system / name
        if self.lines and has_line:
            write(folder / "filter", " || ".join(f"irq == {it}" for it in self.lines))
        write(folder / "enable", "1")

    def stop(self):
        """No further events; what is in the buffers can still be read."""
        with contextlib.suppress(OSError):
            write(self.room / "tracing_on", "0")

    def mark(self, text):
        with contextlib.suppress(OSError):
            write(self.room / "trace_marker", text)

    def losses(self):
        """What was lost: overruns by processor, and return probes that missed."""
        lost = {"overrun": {}, "missed": {}, "hits": {}}
        for folder in sorted((self.room / "per_cpu").iterdir()):
            for row in (read(folder / "stats") or "").splitlines():
                word, _, count = row.partition(": ")
                if word in ("overrun", "commit overrun", "dropped events") and count != "0":
                    lost["overrun"][folder.name] = lost["overrun"].get(folder.name, 0) + int(count)
        for row in (read(TRACEFS / "kprobe_profile") or "").splitlines():
            words = row.split()
            if len(words) == 3:
                lost["hits"][words[0]] = int(words[1])
                if words[2] != "0":
                    lost["missed"][words[0]] = int(words[2])
        return lost

    def end(self):
        """Takes all down, whatever of it stands."""
        self.stop()
        with contextlib.suppress(OSError):
            write(self.room / "events" / "enable", "0")
        with contextlib.suppress(OSError):
            self.room.rmdir()
        clear_events()


def clear_events():
    """Takes the probes of this tool's group away, others stay."""
    for row in (read(TRACEFS / "kprobe_events") or "").splitlines():
        found = re.match(r"[pr]\d*:(\S+)/(\S+)", row)
        if found and found[1] == GROUP:
            with contextlib.suppress(OSError):
                add(TRACEFS / "kprobe_events", f"-:{GROUP}/{found[2]}\n")


def clear():
    """Takes down what a recording left that was killed hard."""
    Probes("mono", 1, []).end()


class Pump(threading.Thread):
    """Copies trace_pipe into the file, until the end of the trace after the stop."""

    def __init__(self, room, out):
        super().__init__(daemon=True)
        self.room, self.out, self.ended = room, out, threading.Event()

    def run(self):
        pipe = os.open(self.room / "trace_pipe", os.O_RDONLY | os.O_NONBLOCK)
        while True:
            try:
                part = os.read(pipe, 1 << 18)
            except BlockingIOError:
                part = b""
            if part:
                self.out.write(part)
            elif self.ended.is_set():
                break
            else:
                time.sleep(0.02)
        os.close(pipe)


def head_rows(lines, clock, probes):
    """What stands before the events."""
    yield "trace", {"version": 1, "clock": clock, "lines": lines, "kernel": read(Path("/proc/version")), "cpus": os.cpu_count()}
    for line in all_lines():
        yield "line", {"line": line, **facts_of(line)}
    for it in probes.refused:
        yield "refused", it


def say(out, rows):
    for word, value in rows:
        out.write(f"# {word} {json.dumps(value)}\n".encode())


def has_tsc():
    """Whether the processors' counters agree, as the kernel says."""
    return read(Path("/sys/devices/system/clocksource/clocksource0/current_clocksource")) == "tsc"


def wait(command, seconds):
    """Runs the command, or waits; its status."""
    if command:
        return subprocess.run(command, check=False).returncode
    time.sleep(seconds)
    return 0


def stopped(number, frame):
    raise KeyboardInterrupt


def record(name, lines, clock, size, command, seconds):
    """Records into the file of this name; the command's status, and a sentence for each thing that is to be known."""
    clock = clock or ("x86-tsc" if has_tsc() else "mono")
    for number in (signal.SIGTERM, signal.SIGHUP):
        signal.signal(number, stopped)
    probes, status = Probes(clock, size, lines), 1
    with gzip.open(name, "wb", compresslevel=1) as out:
        try:
            probes.begin()
            say(out, head_rows(lines, clock, probes))
            pump = Pump(probes.room, out)
            pump.start()
            probes.mark(f"begin {time.monotonic_ns()}")
            with contextlib.suppress(KeyboardInterrupt):
                status = wait(command, seconds)
            probes.mark(f"end {time.monotonic_ns()}")
            probes.stop()
            pump.ended.set()
            pump.join()
            lost = probes.losses()
            say(out, [("lost", lost), *(("after", {"line": it, **facts_of(it)}) for it in all_lines())])
        finally:
            if probes.is_mine:
                probes.end()
    return status, [*(f"refused: {it['function']} ({it['why']}): {it['lost']}" for it in probes.refused),
                    *(f"lost on {cpu}: {count} events" for cpu, count in lost["overrun"].items()),
                    *(f"missed: {count} of {name}" for name, count in lost["missed"].items())]


def wrap(text, name):
    """Makes such a file of what somebody read from trace_pipe."""
    events = text.read()
    with gzip.open(name, "wb", compresslevel=6) as out:
        if not events.startswith(b"# trace "):
            say(out, [("trace", {"version": 1, "clock": "unknown", "lines": [], "kernel": None, "cpus": None})])
        out.write(events if events.endswith(b"\n") else events + b"\n")
    return 0
