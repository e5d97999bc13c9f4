#!/usr/bin/env python3
"""surveys.py [[--play] ROW] < BOARD: what can come on each line of a board, over all its legal histories, by the rules of bench/second.py.

It prints what `genirq-explore` prints: without a row totals, ways in which a line is left at rest, and rows that can come; of a
row, which is words or one of them, a shortest log that ends so, or `never`; with `--play` a play of the board that comes to it, and
the picks that make it. It searches over histories, and keeps one of those with equal futures; a line on which more than 3,000
states come isn't searched. Nothing is said of the layout.
"""

import sys
from pathlib import Path

sys.path.insert(0, str(Path(__file__).resolve().parent.parent / "tools"))
from repository import say_help, stop  # noqa: E402
from second import Board, Play, Unread, after_last, by, goes_again, is_begin, is_kill, is_linked, is_return, is_start, since  # noqa: E402

# A search of more states isn't made.
MOST_STATES = 3_000
# How many picks stand in a row.
PICKS = 24


def actors_of(line):
    """Who may have an entry due, in the order in which a state is asked: threads, the flow's processor, the taker, drivers."""
    flow, taker = line.flow(line.past), line.target(line.past)
    cpus = [flow, taker] if flow and flow != taker else [taker]
    mine = {driver for driver, calls in line.board.scripts.items() if any(number == line.number for number, _ in calls)}
    return [*(f"t{dev}" for dev in sorted(line.devices(), key=int)), *cpus, *(it for it in line.board.actors("d") if it in mine)]


def counts_of(line, past):
    """What is kept of the note; of the runs of threads that served, whether there was one since the last judgement."""
    counts = line.counts(past)
    differ = counts["handled"] != counts["last"]
    return tuple(counts[it] for it in ("irqs", "unhandled", "deferred", "now", "at")) + (differ,)


def device_state(line, past, dev, working):
    """What is kept of a device: of its asks, of its thread, and what a run that is at work has met."""
    part, thread = line.board.serving_part(dev), line.is_running(past, dev)
    # runs of a part whose script serves the device serve nothing as they return
    part = None if f"serve {dev}" in map(" ".join, line.board.run_calls(part, dev)) else part
    run = since(past, by("t" + dev, "begin")) if thread else []
    stage = 0 if not thread else 1 + sum(any(map(by("t" + dev, verb), run)) for verb in ("return", "finish"))
    handler_begin = since(past, is_begin) if working == dev else []
    met = line.unserved(past[: len(past) - len(handler_begin) - 1], dev) if working == dev else 0
    met_by_thread = line.unserved(past[: len(past) - len(run) - 1], dev) if stage == 1 else 0
    serving = handler_begin if part == "handler" else run if part == "thread" and stage == 1 else []
    fresh = sum(1 for e in since(serving, lambda e: e[1:3] == ("serve", dev)) if e[1:3] == ("ask", dev))
    asks = line.unserved(past, dev), fresh, met, met_by_thread, line.is_quiet(past, dev)
    turns = runs_begun(line, past, dev, "handler", working == dev), runs_begun(line, past, dev, "thread", stage == 1)
    return *asks, line.is_woken(past, dev), stage, line.is_unfinished(past, dev), *turns


def runs_begun(line, past, dev, part, is_there):
    """How many runs of the part have begun: of a told device at most as many as it has answers, and one more while a run is there
    that may be past the last of them."""
    begins = by("t" + dev, "begin") if part == "thread" else lambda e: is_begin(e) and e[2] == dev
    answers = line.board.answers.get((part, dev))
    return min(sum(map(begins, past)), len(answers) + is_there) if answers else 0


def places_in_runs(line, past, flow):
    """What the runs that are at work have left of their scripts."""
    actors = [*(f"t{dev}" for dev in line.devices()), *([flow] if flow else [])]
    return tuple(line.call_of_run(who, past) and (left_in_run(line, past, who)) for who in actors)


def left_in_run(line, past, who):
    begin = by(who, "begin") if who[0] == "t" else is_begin
    return len([e for e in since(past, begin) if e[0] == who])


def state_of(line, past):
    """All on which the line's future depends. Two histories with one state have the same futures."""
    flow, working, linked = line.flow(past), line.at_work(past), line.linked(past)
    round_ = line.round(past) if flow else []
    started = after_last(past, is_start, lambda e: e[1] == "unlink" and e[3] == "last")
    freeing = next((e for e in reversed(past) if e[1] in ("unlink", "freed") and e[-1] != "notthere"), None)
    return (
        line.depth(past), started, line.is_masked(past), line.is_pending(past), line.is_oneshot(past), line.is_soft(past), flow, working,
        after_last(past, is_kill, is_linked), line.cell(past), line.aim(past), counts_of(line, past),
        tuple((dev, line.flags_of(past, dev)) for dev in linked),
        frozenset(e[2] for e in round_ if is_begin(e)), frozenset(e[3] for e in round_ if is_return(e)) - {"nothing"},
        freeing[:3] if freeing and freeing[1] == "unlink" else None,
        tuple(device_state(line, past, dev, working) for dev in line.devices()),
        places_in_runs(line, past, flow), tuple(line.place(driver, past) for driver in line.board.scripts),
    )  # fmt: skip


def rest_of(line, past):
    """How the history leaves the line, as in a row of rest."""
    killed = after_last(past, is_kill, is_linked)
    standing = "stopped" if not line.linked(past) else "enabled" if not line.is_off(past) else "killed" if killed else "disabled"
    stored, pending = line.cell(past)[1], line.trigger == "edge" and line.is_pending(past)
    waits = {(False, False): "-", (True, False): "stored", (False, True): "pending", (True, True): "both"}[stored, pending]
    hung = [who for who in line.board.actors("tcd") if line.is_hung(who, past)]
    standing = f"hung {hung[0]} {standing}" if hung else standing
    return f"{line.number} rest {standing} {sum(line.unserved(past, dev) for dev in line.devices())} {waits}"


class Survey:
    """A search through the line's states: how many there are, how many steps they have, and of each way in which the line is left
    and of each row that can come a shortest history."""

    def __init__(self, line, most=MOST_STATES):
        self.line, self.pasts, self.moves, self.rests, self.rows = line, [[]], 0, {}, {}
        known = {state_of(line, [])}
        for past in self.pasts:
            for after in self.after(past):
                state = state_of(line, after)
                if state not in known:
                    known.add(state)
                    self.pasts.append(after)
            if len(self.pasts) > most:
                raise Unread("many states")

    def after(self, past):
        """The histories that are longer by an entry."""
        self.line.past = past
        found = [[*past, e] for actor in actors_of(self.line) if (e := self.line.due(actor, past))]
        self.moves += len(found)
        if not found:
            self.rests.setdefault(rest_of(self.line, past), []).append(past)
        for after in found:
            self.rows.setdefault(" ".join((self.line.number, *after[-1])), after)
        return found

    def told(self):
        """The rows of the survey."""
        number, at_rest = self.line.number, sum(map(len, self.rests.values()))
        yield f"line {number} states {len(self.pasts)} moves {self.moves} rest {at_rest}"
        yield from (f"{len(pasts[0])} {row} states {len(pasts)}" for row, pasts in self.rests.items())
        yield from (f"{len(past)} {row}" for row, past in self.rows.items())

    def log(self, row):
        """The rows of a shortest log that ends with the row, or is at rest so."""
        past = self.rests[row][0] if row in self.rests else self.rows.get(row)
        return ["never"] if past is None else [" ".join((self.line.number, *e)) for e in past]


class PlayTo(Play):
    """A play of a board to which a history of one line comes. The actor of the history's next entry moves; if it can't, the first of
    the others moves that can move on another line. `is_made` says whether the play came to it."""

    def __init__(self, board, number, wanted):
        self.wanted, self.line = wanted, next(line for line in board.lines if line.number == number)
        self.movers, board.picks = [], []
        super().__init__(board)
        self.is_made = self.line.past == wanted

    def next(self):
        if self.line.past != self.wanted[: len(self.line.past)] or len(self.line.past) == len(self.wanted):
            return None
        actor = self.wanted[len(self.line.past)][0]
        steps = [(actor, self.step_of(actor)), *((other, self.elsewhere(other)) for other in self.board.actors("tcd"))]
        mover, step = next(((who, it) for who, it in steps if it), (None, None))
        self.movers.append(mover)
        return step

    def elsewhere(self, actor):
        """The actor's step, if it is on another line."""
        step = self.step_of(actor)
        return step if step and step[0] is not self.line else None

    def told(self):
        """The rows of the play, and those of its picks."""
        rows = [self.movers[at : at + PICKS] for at in range(0, len(self.movers), PICKS)]
        return [*self.rows, *(" ".join(["# picks", *row]) for row in rows)]


def surveys_of(text, most=MOST_STATES):
    """The rows of all lines that take part; no line may have more states."""
    return [row for line in Board(text).lines for row in Survey(line, most).told()]


def log_of(text, row):
    """A shortest log of the row's line that ends with it."""
    return next(Survey(line).log(row) for line in Board(text).lines if line.number == row.split(" ")[0])


def play_to(text, row):
    """A play of the board that comes to a shortest log of the row's line that ends with it, and its picks."""
    log = log_of(text, row)
    if log == ["never"]:
        return log
    play = PlayTo(Board(text), row.split(" ")[0], [tuple(entry.split(" ")[1:]) for entry in log])
    return play.told() if play.is_made else ["play: none was found"]


def main(words):
    if words == ["--help"]:
        say_help(__doc__)
    answer = play_to if words[:1] == ["--play"] else log_of
    row = words[1:] if words[:1] == ["--play"] else words
    if words and not (row and row[0][:1].isdigit()):
        stop("bench/surveys.py [[--play] ROW] < BOARD")
    text = sys.stdin.read()
    try:
        print("\n".join(answer(text, " ".join(row)) if words else surveys_of(text)))
    except Unread as why:
        sys.exit(f"surveys.py: {why}")
    except StopIteration:
        sys.exit("surveys.py: no such line")


if __name__ == "__main__":
    main(sys.argv[1:])
