# SPDX-License-Identifier: GPL-2.0
"""The rows of the kernel and of genirq beside each other."""
import functools
import os
import subprocess
from collections import namedtuple

import reference
from common import TOP, Failed

KEPT = 5  # rows that are shown around the first differing one
WIDTH = 46
# How the rows of genirq begin that are none of a line.
PRINTED = ("# irq ", "# vector ", "# off ", "# on ", "# asleep", "# wake ")

Result = namedtuple("Result", ("name", "kernel", "genirq", "place", "verdict", "fault"))


def run(program, command, text, error=subprocess.PIPE):
    """What a command of genirq, a list of words, prints, with its status and its row of standard error."""
    words = [program, *command]
    try:
        ran = subprocess.run(words, input=text, stdout=subprocess.PIPE, stderr=error, text=True, check=False)
    except OSError as fault:
        raise Failed(f"genirq can't be started: {fault}") from None
    return ran.stdout, ran.returncode, (ran.stderr or "").strip()


@functools.cache
def find_genirq():
    """The program: what GENIRQ names, or that of the repository, which has to be built."""
    named = os.environ.get("GENIRQ")
    os.environ.setdefault("GENIRQ_BUILT", "1")
    program = named or f"{TOP}/genirq"
    out, status, _ = run(program, ["play"], "board 1\ndomain a tree latch\nline 1 a 0\n", None)
    if status or out != "# irq 1 virq 1 a:0\n":
        raise Failed(f"{program} play doesn't play a small board (status {status}): not genirq, or it can't be built")
    return named or f"{TOP}/built/irq_prog/irq_prog"


def genirq(command, text):
    """A command of genirq."""
    return run(find_genirq(), command, text)


def is_compared(row):
    """Whether a row is one that genirq prints; remarks beside the log aren't compared."""
    return not row.startswith("# ") or row.startswith(PRINTED)


def cut_rows(rows, limit):
    """The rows up to so many of the log's."""
    ends = [i + 1 for i, row in enumerate(rows) if not row.startswith("#")]
    return rows if limit is None or len(ends) < limit else rows[: ends[limit - 1]]


def log_of(rows):
    """The rows that are entries."""
    return [row for row in rows if not row.startswith("#")]


def ended(rows, limit):
    """A play's rows: those of who waits only where it came to its end."""
    return rows if len(log_of(rows)) < limit else log_of(rows)


def compare_by_rules(board, played):
    """One board's result beside the play of bench/second.py, which lays nothing out."""
    limit = min(board.row_limit() or reference.MOST, reference.MOST)
    kernel = [row for row in played.rows if not row.startswith("# ") or row.startswith(reference.WAITS)]
    rows, end = reference.play(board.pure_text())
    kernel, rows = ended(cut_rows(kernel, limit), limit), ended(cut_rows(rows, limit), limit)
    place = next((i for i, pair in enumerate(zip(kernel, rows)) if pair[0] != pair[1]), min(len(kernel), len(rows)))
    fault = "; ".join(played.faults)
    if kernel != rows or fault:
        return Result(played.name, kernel, rows, place, reference.verdict(board.pure_text(), log_of(kernel)), fault)
    if end not in ("full", "long") and len(log_of(rows)) < limit and (seen := reference.hung_by(kernel)) != end:
        return Result(played.name, kernel, rows, place, end, f"by who waits for whom it is {seen}")
    return Result(played.name, kernel, rows, None, end, fault)


def compare(board, played):
    """One board's result."""
    kernel = cut_rows([row for row in played.rows if is_compared(row)], board.row_limit())
    out, status, error = genirq(board.command(), board.pure_text())
    fault = "; ".join(played.faults)
    if status not in (0, 6, 9):
        fault = fault or f"genirq {board.command()[0]} ended with {status}: {error}"
    is_whole = board.row_limit() is None or len(log_of(kernel)) < board.row_limit()
    if status == 9 and is_whole and (seen := reference.hung_by(played.rows)) != error:
        fault = fault or f"genirq says {error}, and by who waits for whom it is {seen}"
    rows = cut_rows(out.splitlines(), board.row_limit())
    place = next((i for i, pair in enumerate(zip(kernel, rows)) if pair[0] != pair[1]), min(len(kernel), len(rows)))
    full = status == 6 and f"# {error}" in played.rows  # then genirq prints no rows
    same = (kernel == rows or full) and not fault
    log = "".join(row + "\n" for row in kernel)
    verdict, status, error = genirq(["check"], f"{board.checked_text(kernel).rstrip()}\n---\n{log}")
    return Result(played.name, kernel, rows, None if same else place, verdict.strip() or error, fault)


def shown(result):
    """The rows around the first differing one, side by side."""
    rows = [f"    {'kernel':{WIDTH}} the rules"]
    for i in range(max(0, result.place - KEPT), result.place + KEPT + 1):
        pair = [(rows[i] if i < len(rows) else "") for rows in (result.kernel, result.genirq)]
        if any(pair):
            rows.append(f"  {'>' if i == result.place else ' '} {pair[0]:{WIDTH}} {pair[1]}".rstrip())
    return rows


def tell(result):
    """The rows of one board."""
    if result.place is None:
        print(f"agree   {result.name}, {len(result.kernel)} rows, {result.verdict}")
        return
    fault = f"; {result.fault}" if result.fault else ""
    print(f"differ  {result.name}, row {result.place + 1}; {result.verdict}{fault}")
    print("\n".join(shown(result)), flush=True)
