#!/usr/bin/env python3
"""boards.py [FOLDER]: writes boards at the limits of the format into a folder (/tmp/genirq-boards): long histories, many lines, and texts of picks, of calls, of
comments, of one word. Boards for `run` stand among them where their lines end in the same states whatever the order."""
import os
import sys
from pathlib import Path

sys.path.insert(0, str(Path(__file__).resolve().parent.parent / "tools"))
from repository import say_help, stop  # noqa: E402

LONGEST = 1048576
LATCH = "board 1\nlog 1000000\ndomain intc linear 4 latch\nline 1 intc 2\ndevice 1 1 direct\ndriver 1\nrequest 1\n"


def storms(lines, rounds, log=1000000, at_once=False):
    """Level lines, each with a device that nobody recognises, killed after so many rounds of four entries each. If at once, all
    have asked before a processor moves."""
    rows = ["board 1", f"spurious {rounds} {rounds - 1}", f"log {log}", "domain wire linear 64 level"]
    rows += [f"line {i} wire {i}" for i in range(1, lines + 1)]
    rows += [f"device {i} {i} stuck" for i in range(1, lines + 1)]
    for i in range(1, lines + 1):
        rows += [f"driver {i}", f"request {i}", f"ask {i}"]
    return rows + ["picks " + " ".join(f"d{i}*2" for i in range(1, lines + 1))] * at_once


def four_lines(rules, calls):
    """Four level lines, each with a device that nobody recognises and a driver, whose calls are of its own device."""
    rows = ["board 1", *rules, "domain intc linear 8 level", *(f"line {i} intc {i}" for i in range(1, 5))]
    rows += [f"device {i} {i} stuck" for i in range(1, 5)]
    for i in range(1, 5):
        rows += [f"driver {i}", *(f"{call} {i}{flags}" for call, flags in calls[i == 4])]
    return rows


def storm():
    """Each of four lines is in a storm until the rule on spurious interrupts ends it."""
    calls = [("request", " shared"), ("ask", "")]
    return four_lines(["spurious 1500 1400", "log 100000"], [calls, calls])


def four_stuck():
    """The same under the rule's own numbers; three of the drivers enable their line behind the ask."""
    calls = [("request", " shared"), ("ask", "")]
    return four_lines(["log 1000000"], [[*calls, ("enable", "")], calls])


def crowd(rounds):
    """64 lines, 256 devices, 32 processors and 64 drivers: on each line three devices share it with one that nobody
    recognises, until it is killed after so many rounds of ten entries each."""
    rows = ["board 1", "cpus 32", f"spurious {rounds} {rounds - 1}", "log 62500", "domain wire linear 64 level"]
    rows += [f"line {i} wire {i - 1} mask {1 << (i - 1) % 32}" for i in range(1, 65)]
    rows += [f"device {d} {(d - 1) // 4 + 1} {'stuck' if d % 4 == 1 else 'direct'}" for d in range(1, 257)]
    for i in range(1, 65):
        rows += [f"driver {i}", *(f"request {d} shared" for d in range(4 * i - 3, 4 * i + 1)), f"ask {4 * i - 3}"]
    return rows


def crowd_threads(rounds):
    """64 lines, half of them fast-EOI, with 32 processors and 64 drivers: on each line three one-shot devices have threads that
    never find anything, and a fourth that nobody requests asks, until it is killed after so many rounds."""
    rows = ["board 1", "cpus 32", f"spurious {rounds} {rounds - 100}", "log 62500", "domain w linear 64 level", "domain g linear 64 eoi"]
    rows += [f"line {i} {'gw'[i % 2]} {i - 1} mask {1 << (i - 1) % 32}" for i in range(1, 65)]
    rows += [f"device {d} {(d - 1) // 4 + 1} {'direct' if d % 4 == 0 else 'null'}" for d in range(1, 257)]
    for i in range(1, 65):
        rows += [f"driver {i}", *(f"request {d} shared oneshot" for d in range(4 * i - 3, 4 * i)), f"ask {4 * i}"]
    return rows


def apart(rounds):
    """32 level lines with a processor of its own each, and a storm on each: nothing of one line waits for another."""
    rows = ["board 1", "cpus 32", f"spurious {rounds} {rounds - 1}", "log 125000", "domain wire linear 64 level"]
    rows += [f"line {i} wire {i} mask {1 << (i - 1)}" for i in range(1, 33)]
    rows += [f"device {i} {i} stuck" for i in range(1, 33)]
    for i in range(1, 33):
        rows += [f"driver {i}", f"request {i}", f"ask {i}"]
    return rows


def calls():
    """64 lines of messages whose devices have threads, and all the calls that a board may have."""
    rows = ["board 1", "cpus 32", "log 62500", "domain vector linear 64 vector", "domain msi tree msi parent vector"]
    rows += [f"line {i} msi {i} mask {1 << (i - 1) % 32}" for i in range(1, 65)]
    rows += [f"device {d} {(d - 1) // 4 + 1} check" for d in range(1, 257)]
    for i in range(1, 65):
        devices = range(4 * i - 3, 4 * i + 1)
        rows += [f"driver {i}", *(f"request {d} shared oneshot" for d in devices)]
        rows += [f"ask {4 * i - 3 + k % 4}" for k in range(252)]
    return rows


def threads(lines, asks):
    """Shared one-shot level lines of two devices with threads each, which are asked in turn."""
    rows = ["board 1", "cpus 4", "log 1000000", "domain wire linear 64 level"]
    rows += [f"line {i} wire {i}" for i in range(1, lines + 1)]
    rows += [f"device {d} {(d + 1) // 2} check" for d in range(1, 2 * lines + 1)]
    for i in range(1, lines + 1):
        rows += [f"driver {i}", f"request {2 * i - 1} shared oneshot", f"request {2 * i} shared oneshot"]
        rows += [f"ask {2 * i - 1 + k % 2}" for k in range(asks)]
    return rows


def deep():
    """64 lines over paths of eight levels: messages over six remappings and the vectors."""
    rows, parent = ["board 1", "domain vector linear 64 vector"], "vector"
    for level in range(1, 7):
        rows.append(f"domain remap{level} linear 64 remap parent {parent}")
        parent = f"remap{level}"
    rows.append(f"domain msi tree msi parent {parent}")
    return rows + [f"line {i} msi {i}" for i in range(1, 65)]


def main(folder):
    os.makedirs(folder, exist_ok=True)
    texts = {
        "storms.board": "\n".join(storms(4, 249990)) + "\n",
        "three_storms.board": "\n".join(storms(3, 232000)) + "\n",
        "crowd.board": "\n".join(crowd(6200)) + "\n",
        "crowd_threads.board": "\n".join(crowd_threads(3100)) + "\n",
        "apart.board": "\n".join(apart(31000)) + "\n",
        "threads.board": "\n".join(calls()) + "\n",
        "wide_storms.board": "\n".join(storms(32, 31249, 125000, True)) + "\n",
        "storm.board": "\n".join(storm()) + "\n",
        "four_stuck.board": "\n".join(four_stuck()) + "\n",
        "latch.board": LATCH + "ask 1\n" * 4000 + "free 1\n",
        "few_storms.board": "\n".join(storms(4, 1500)) + "\n",
        "few_wide_storms.board": "\n".join(storms(32, 190, 125000, True)) + "\n",
        "few_threads.board": "\n".join(threads(4, 600)) + "\n",
        "few_asks.board": LATCH + "ask 1\n" * 4000,
        "deep.board": "\n".join(deep()) + "\n",
        "picks.board": LATCH + "ask 1\n" + "picks" + " d1" * 65536 + "\n",
        "calls.board": LATCH + "ask 1\n" * 16382 + "free 1\n",
        "comments.board": LATCH + "ask 1\n" + "# " * ((LONGEST - len(LATCH) - 8) // 2) + "\n",
        "empty_lines.board": LATCH + "ask 1\n" + "\n" * (LONGEST - len(LATCH) - 6),
        "word.board": LATCH + "ask 1\n" + "x" * (LONGEST - len(LATCH) - 7) + "\n",
        "misspelt_picks.board": LATCH + "ask 1\n" + "picks" + " x1" * 349000 + "\n",
    }
    for name, text in texts.items():
        with open(os.path.join(folder, name), "w", encoding="ascii") as out:
            out.write(text)


if __name__ == "__main__":
    WORDS = sys.argv[1:]
    if WORDS == ["--help"]:
        say_help(__doc__)
    elif len(WORDS) > 1 or any(it.startswith("-") for it in WORDS):
        stop("bench/boards.py [FOLDER]")
    else:
        main(WORDS[0] if WORDS else "/tmp/genirq-boards")
