"""How long a history of a board of version 3 of one line can be, read off the board."""

from second import SEVERAL


def entries_of(calls):
    """How many entries the calls of a run are counted for: an enable for three, any other for those that it makes at most."""
    return sum(3 if verb == "enable" else SEVERAL.get(verb, 1) for verb, *_ in calls)


def count(calls, *words):
    """How many of the calls begin with these words."""
    return sum(call[: len(words)] == words for call in calls)


def round_weight(board):
    """A round, with the runs of threads that it brings."""
    found = 8 + sum(6 + entries_of(board.run_calls("handler", dev)) + entries_of(board.run_calls("thread", dev)) for dev in board.devices)
    wakes = [call[1] for (part, _), calls in board.runs.items() if part == "handler" for call in calls if call[0] == "wake"]
    return found + sum(4 + entries_of(board.run_calls("thread", dev)) for dev in wakes)


def device_edges(board, calls):
    """How many edges devices make, but for those of drivers' arms."""
    found = count(calls, "ask")
    for dev in board.devices:
        asks, arms = count(calls, "ask", dev), {part: count(board.run_calls(part, dev), "arm", dev) for part in ("handler", "thread")}
        if board.kind(dev) in ("check", "null"):
            found += 2 * asks * arms["thread"]
        elif board.kind(dev) == "direct":
            found += asks * arms["handler"]
        elif board.kind(dev) == "told":
            found += arms["thread"] * (board.answers.get(("handler", dev), []).count("wake") + count(calls, "wake", dev))
    return found


def edge_bound(board):
    """How long a history of an edge line can be."""
    calls = [call for _, call in board.calls]
    return round_weight(board) * (device_edges(board, calls) + len(calls) - count(calls, "ask") + 1)


def is_bounded(board):
    """The premise of the bound on all lines."""
    enabling = [at for at, calls in board.runs.items() if count(calls, "enable")]
    for part, dev in enabling:
        alone = part == "thread" and board.kind(dev) == "check" and count(board.run_calls("thread", dev), "enable") == 1
        if not alone or count(board.run_calls("handler", dev), "disable_nosync") != 1:
            return False
        if any(("wake", dev) in calls for (other, _), calls in board.runs.items() if other == "handler"):
            return False
    return True


def storm_bound(board):
    """How long one of any line can be, under that premise."""
    calls, line = [call for _, call in board.calls], board.lines[0]
    told = sum(word in ("handled", "claims") for words in board.answers.values() for word in words)
    found = round_weight(board) * (len(calls) + told + 1) * (2 * board.window + 5)
    return 2 * found if line.trigger == "edge" and line.flow_kind == "eoi" else found
