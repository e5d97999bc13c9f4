# SPDX-License-Identifier: GPL-2.0
"""The rules once more in Python, bench/second.py, in the place of genirq: plays of boards whose domains have no parents.

A board of version 3 may have a run that waits for itself. Who isn't done at the end of a play, and what he waits for,
is a row behind the others, as the harness prints it: `# waits LINE ACTOR WHAT WHOM..`.
"""
import sys

from common import TOP

sys.path.insert(0, f"{TOP}/bench")
import random3  # noqa: E402  pylint: disable=wrong-import-position
import second  # noqa: E402  pylint: disable=wrong-import-position

MOST = second.MOST_ROWS  # it plays no more rows
WAITS = "# waits "


def reads(board):
    """Whether it plays the board."""
    if board.command() != ["play"]:
        return False
    try:
        second.Board(board.pure_text())
    except second.Unread:
        return False
    return True


def in_order(actors):
    """Actors of one kind, the lowest first."""
    return sorted(actors, key=lambda it: (it[0], int(it[1:])))


def line_of(play, actor):
    """The line on which the actor isn't done, or None."""
    if actor[0] == "d":
        current = play.current(actor)
        return current and current[0]
    if actor[0] == "c":
        return next((line for line in play.board.lines if line.flow(line.past) == actor), None)
    lines = (line for line in play.board.lines if actor[1:] in line.devices())
    return next((it for it in lines if it.is_woken(it.past, actor[1:]) or it.is_running(it.past, actor[1:])), None)


def wait_of(play, actor):
    """The row that says what the actor waits for, or None."""
    line = line_of(play, actor)
    if line is None or line.due(actor):
        return None
    left = line.due_call(actor, line.past) if actor[0] == "d" else line.call_of_run(actor, line.past)
    what = line.step_of_call(*left) if left else "finish"
    whom = in_order(line.waits_for(actor, line.past))
    return " ".join([f"{WAITS}{line.number} {actor} {what}", *whom])


class AnyPlay(second.Play):
    """A play in random order, of at most so many rows."""

    def __init__(self, text, r, most):
        self.r, self.most = r, most
        super().__init__(board_of(text))

    def next(self):
        """Any step that is due."""
        steps = [step for actor in self.board.actors("tcd") if (step := self.step_of(actor))]
        return self.r.choice(steps) if steps and len(self.rows) < self.most else None


def picks_of(text, r, most):
    """The actors of a play in random order."""
    return [entry[0] for _, entry in AnyPlay(text, r, most).moves]


def board_of(text):
    """The board, with lines that remember what was looked up."""
    board = second.Board(text)
    for line in board.lines:
        line.__class__, line.found = random3.Kept, {}
    return board


def play(text):
    """The rows of a board's play, and how it ends: `done`, `hung: line L ACTOR`, `full` or `long`."""
    board = board_of(text)
    played = second.Play(board)
    if played.is_full or played.is_long:
        return played.rows, "full" if played.is_full else "long"
    waits = [row for actor in board.actors("tcd") if (row := wait_of(played, actor))]
    hung = played.hung()
    return played.rows + waits, f"hung: line {hung[0]} {hung[1]}" if hung else "done"


def hung_by(rows):
    """`hung: line L ACTOR` by the rows of who waits for whom, or `done` where nobody waits for himself."""
    waits = [row.split()[2:] for row in rows if row.startswith(WAITS)]
    for number in sorted({row[0] for row in waits}, key=int):
        whom = {row[1]: row[3:] for row in waits if row[0] == number}
        for actor in whom:
            found, left = set(), [actor]
            while left:
                new = set(whom.get(left.pop(), ())) - found
                found |= new
                left += new
            if actor in found:
                return f"hung: line {number} {actor}"
    return "done"


def verdict(text, rows):
    """Whether each row of a log was due, as `genirq check` says it."""
    board = second.Board(text)
    lines = {line.number: line for line in board.lines}
    for row in rows:
        number, *entry = row.split()
        line = lines[number]
        if line.due(entry[0]) != tuple(entry):
            return f"unlawful {number} {len(line.past) + 1}"
        line.past.append(tuple(entry))
    return "lawful"
