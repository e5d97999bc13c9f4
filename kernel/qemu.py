# SPDX-License-Identifier: GPL-2.0
"""Boots the harness's kernel in qemu with boards, and cuts what it printed into boards."""
import contextlib
import os
import re
import shutil
import subprocess
import tempfile
from collections import namedtuple

from boardtext import BadBoard, Board
from common import BZIMAGES, BadInput, Failed, say

DONE = 33  # qemu's status where the kernel wrote 0x10 to the port of isa-debug-exit

BOOTS = 3  # so often a boot is tried in which the kernel doesn't come up, or not all of its processors
MOST_BOARDS = 500  # in one boot
ENDS = {0: "a reset: the kernel stopped", DONE: "the kernel, without all of its processors"}

# What the kernel printed for one board. `rows` are the layout's, the log's and remarks, in order; `text` is all of it.
Played = namedtuple("Played", ("name", "rows", "faults", "text"))


def find_qemu():
    """The path of qemu, or a fault by name; likewise where the kernel isn't built."""
    if not os.path.exists(BZIMAGES["harness"]):
        raise Failed(f"no kernel built: {BZIMAGES['harness']} isn't there; call kernel/build")
    return shutil.which("qemu-system-x86_64") or missing("qemu-system-x86_64")


def missing(tool):
    """Fails for want of a tool."""
    raise Failed(f"no {tool} in PATH; kernel/build installs it")


def name_of(file):
    """A board's name: its file's, or that of its folder where the file is a case's input."""
    base = os.path.basename(file)
    return os.path.basename(os.path.dirname(os.path.abspath(file))) if base == "input" else base.removesuffix(".board")


def read_boards(files, pass_over=False):
    """The boards of files, as pairs of a name and a Board, each up to a row `---`, behind which a log may stand.

    All faults are told before one of them fails it, unless boards with a fault are passed over.
    """
    boards, faults = [], []
    for file in files:
        try:
            with open(file, encoding="latin-1", newline="\n") as text:
                board = re.split(r"^---$", text.read(), maxsplit=1, flags=re.M)[0]
                boards.append((name_of(file), Board(board)))
        except BadBoard as fault:
            faults.append(f"{file}: {fault}")
        except OSError as fault:
            raise BadInput(f"{file}: {fault.strerror}") from None
    for fault in [] if pass_over else faults:
        say(fault)
    if faults and not pass_over:
        raise BadInput(f"{len(faults)} of {len(files)} boards can't be played")
    if pass_over:
        say(f"{len(faults)} of {len(files)} boards have a fault and are passed over")
    return boards


def cut(text):
    """The boards of what the kernel printed; the last one may be unfinished, and is told beside them."""
    boards, name, rows = [], None, []
    for row in text.split("\n"):
        if row == "=== end":
            boards.append(played(name, rows))
            name, rows = None, []
        elif row.startswith("=== "):
            name, rows = row[4:], []
        elif name is not None:
            rows.append(row)
    return boards, name, rows


def played(name, rows):
    """One board of what the kernel printed."""
    log = [row[2:] if row.startswith("R ") else row for row in rows if row.startswith(("R ", "# "))]
    faults = [row[2:] for row in rows if row.startswith("F ")]
    faults += [row[2:] for row in rows if row.startswith("K ") and ("BUG:" in row or "Oops" in row)]
    return Played(name, log, faults, "\n".join(rows) + "\n")


def run_qemu(words, seconds, out):
    """Runs qemu; its status, None where the time was over, what it said, and what the kernel printed."""
    with contextlib.suppress(FileNotFoundError):
        os.remove(out)
    status, said = None, ""
    try:
        ended = subprocess.run(words, stdin=subprocess.DEVNULL, stdout=subprocess.PIPE, stderr=subprocess.STDOUT,
                               timeout=seconds, check=False)
        status, said = ended.returncode, ended.stdout.decode("latin-1").strip()
    except subprocess.TimeoutExpired:
        pass
    except OSError as fault:
        raise Failed(f"qemu can't be started: {fault}") from None
    try:
        with open(out, encoding="latin-1") as file:
            return status, said, file.read()
    except FileNotFoundError:
        return status, said, ""


def why_ended(status, seconds, said, text, count):
    """The fault of a boot that didn't come to its end."""
    done, name, rows = cut(text)
    why = f"its time limit, {seconds} s" if status is None else ENDS.get(status, f"status {status}")
    where = f"in board {name}" if name else f"after {len(done)} of {count} boards"
    kernel = [row[2:] for row in text.split("\n") if row.startswith(("K ", "H "))][-1:] if status in (0, DONE) else []
    faults = played(name, rows).faults + kernel + [said] * (status is not None and said != "")
    return Failed(f"qemu ended by {why}, {where}" + "".join(f"; {it}" for it in faults))


def is_up(text, cpus):
    """Whether the kernel came to its first board, with all processors. A very busy machine may be too slow for that."""
    found = re.search(r"^H Linux \S+, ([0-9]+) processors$", text, flags=re.M)
    return bool(found) and int(found[1]) == cpus


def boot_once(boards, cpus, seconds, trace, profile):
    """What the kernel printed of some boards, on a machine with so many processors."""
    qemu = find_qemu()
    with tempfile.TemporaryDirectory(prefix="genirq-kernel-") as folder:
        with open(f"{folder}/boards", "w", encoding="ascii") as file:
            for name, board in boards:
                file.write(f"%%% {name}\n{board.kernel_text(trace, profile)}\n")
        words = [
            qemu, "-machine", "pc", "-cpu", "qemu64", "-m", "1024", "-smp", f"{cpus},sockets={cpus}",
            "-accel", "tcg,thread=single", "-kernel", BZIMAGES["harness"], "-initrd", f"{folder}/boards",
            "-append", "panic=-1 tsc=unstable no_timer_check", "-display", "none", "-vga", "none", "-nodefaults",
            "-no-reboot", "-debugcon", f"file:{folder}/out", "-device", "isa-debug-exit,iobase=0xf4",
        ]
        for attempt in range(1, BOOTS + 1):
            status, said, text = run_qemu(words, seconds, f"{folder}/out")
            if status == DONE and is_up(text, cpus):
                return cut(text)[0]
            if attempt == BOOTS or status not in (0, DONE) or is_up(text, cpus):
                raise why_ended(status, seconds, said, text, len(boards))
            say("the kernel didn't come up with all processors, as it may where the machine is very busy; once more")
    raise AssertionError("the last attempt returns or fails")


def boot(boards, seconds, trace=False, profile=False):
    """Plays the boards, pairs of a name and a Board; each boot has at most so many seconds.

    Those with few processors boot together on a machine with few, which is the faster the fewer it has.
    """
    find_qemu()
    classes, done = {}, {}
    for place, (_, board) in enumerate(boards):
        classes.setdefault(1 << (board.machine_cpus() - 1).bit_length(), []).append(place)
    for cpus, places in sorted(classes.items()):
        for first in range(0, len(places), MOST_BOARDS):
            part = places[first : first + MOST_BOARDS]
            done.update(zip(part, boot_once([boards[it] for it in part], cpus, seconds, trace, profile)))
    return [done[place] for place in range(len(boards))]
