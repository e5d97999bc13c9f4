#!/usr/bin/env python3
"""asks.py [--program GENIRQ-EXPLORE] [BOARD..]: the questions that boards have as comments, answered twice.

A question is a comment line of its own, `# ask ROW: ANSWER`: can ROW come, or can its line be left so? ANSWER is `never`, or `N rows`,
how long a shortest log is that ends so. It is asked of the rules (bench/surveys.py), and of genirq-explore: the one that the gate
has built, if none is named. Without boards it goes through all of boards/ that have questions. Each answer that isn't the one
that stands there is told; the last line is a sum.
"""

import re
import subprocess
import sys
from pathlib import Path

sys.path.insert(0, str(Path(__file__).resolve().parent.parent / "tools"))
from built import out_of  # noqa: E402
from repository import TOP, end_with, say_help, stop  # noqa: E402
from second import Board  # noqa: E402
from surveys import Survey  # noqa: E402

ASK = re.compile(r"# ask (.*): (never|1 row|\d+ rows)")
# How a row begins that is of no line's log.
LAYOUT = "# "
# The status with which genirq-explore says that there is no such log.
NEVER = 1


def said_of(rows):
    """The answer that these rows give: a log, or that there is none."""
    if rows == ["never"]:
        return "never"
    return "1 row" if len(rows) == 1 else f"{len(rows)} rows"


def by_rules(board, surveys, row):
    number = row.split(" ")[0]
    if number not in surveys:
        surveys[number] = Survey(next(line for line in board.lines if line.number == number))
    return said_of(surveys[number].log(row))


def by_program(program, text, row):
    asked = subprocess.run([program, *row.split(" ")], input=text, capture_output=True, encoding="ascii")
    found = said_of([it for it in asked.stdout.splitlines() if not it.startswith(LAYOUT)])
    if asked.returncode != (NEVER if found == "never" else 0):
        return f"status {asked.returncode} {asked.stderr.strip()}"
    return found


def judge(name, program):
    """How many answers of the board's questions are as they stand there, and how many aren't."""
    text = Path(name).read_text(encoding="ascii")
    board, surveys, passed, failed = Board(text), {}, 0, 0
    for row, stands in (found.groups() for it in text.splitlines() if (found := ASK.fullmatch(it))):
        for who, found in (("the rules", by_rules(board, surveys, row)), (Path(program).name, by_program(program, text, row))):
            passed, failed = passed + (found == stands), failed + (found != stands)
            if found != stands:
                print(f"{name}: {row}: {found} by {who}, and not {stands}")
    return passed, failed


def main(words):
    if words == ["--help"]:
        say_help(__doc__)
    program = out_of("explore_prog") / "explore_prog"
    if words[:1] == ["--program"] and len(words) > 1:
        program, words = words[1], words[2:]
    if any(it.startswith("-") for it in words):
        stop("bench/asks.py [--program GENIRQ-EXPLORE] [BOARD..]")
    boards = words or sorted(it for it in TOP.glob("boards/**/*.board") if "# ask " in it.read_text(encoding="ascii"))
    found = [judge(it, program) for it in boards]
    end_with(sum(it[0] for it in found), sum(it[1] for it in found))


if __name__ == "__main__":
    main(sys.argv[1:])
