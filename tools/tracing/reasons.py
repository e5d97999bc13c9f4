"""Which difference between the rules and Linux 6.1 a row that isn't lawful may be: by the row, what was due, and what stands before.

The names are anchors of docs/DEFINITIONS.md. Each is a guess: it says where to read.
"""

TITLES = {
    "before-activation": "before the activation",
    "busy-chip": "a chip that is busy",
    "causes": "what interrupts come of",
    "hotplug-started": "a change that waits is dropped as its processor goes offline",
    "kill-race": "a kill beside another hold",
    "late-link": "a device that is linked after the last handler has returned",
    "no-aim": "a chip that can't be aimed",
    "no-note": "lines without a note",
    "noautoen": "a line that isn't enabled by its first request",
    "note-kill": "the window of the note: a kill",
    "note-thread": "the window of the note: threads",
    "oneshot-safe": "chips that are safe for one-shot",
    "poll": "killed lines are polled",
    "resend-refused": "a soft resend that is refused",
    "sent-signal": "a signal that was sent already",
    "served-elsewhere": "who serves",
    "take-waits": "a take that waits for the lock",
    "tasklet": "where and when a soft resend runs",
    "ticks": "ticks",
    "unlinked-enable": "an enable while nothing is linked",
    "waiting-move": "a change that waits",
    "wake-in-two": "a wake in two parts",
    "who-resends": "who can send again",
}


def reason_of(row, due, before, target):
    """The difference that a row may be; empty if none is known. `target` is what the piece's line was aimed at first."""
    due = (due or "").split()
    if row.words[0] == "take":
        return of_take(row, due, before, target)
    return {
        "end": of_end, "return": of_return, "begin": of_begin, "enable": of_opening, "request": of_request,
        "affinity": of_affinity, "synced": lambda *_: "wake-in-two",
    }.get(row.words[0], lambda *_: "")(row, due, before)


def of_take(row, due, before, target):
    """A take that isn't due: the line was moved or masked shortly before, or it is a resend."""
    if row.words[1] == "resend":
        return "tasklet"
    places = [place for place, it in enumerate(before) if it.words[0] == "affinity" and it.words[2] in ("now", "later")]
    change = before[places[-1]] if places else None
    if 1 << int(row.who[1:]) != (change.words[1] if change else target):
        waits = change and change.words[2] == "later" and not any(it.words[0] == "take" for it in before[places[-1] :])
        return "waiting-move" if waits else "sent-signal"
    masked = any(it.words[::2] in (["unlink", "last"], ["take", "off"], ["take", "busy"]) for it in before[-40:])
    return "take-waits" if masked and not due else ""


def of_end(row, due, before):
    if due[:1] == ["begin"]:
        return "late-link"
    if len(due) < 4 or due[3] == row.words[3]:
        return ""
    if "killed" in (due[3], row.words[3]):
        return "ticks"
    if row.words[3] == "quiet":
        return "no-note"
    return "note-thread" if any(it.words[0] == "return" and it.who[0] == "thread" for it in before[-6:]) else ""


def of_return(row, due, before):
    return "served-elsewhere" if "nothing" in row.words else "causes"


def of_begin(row, due, before):
    was_killed = any(it.words[0] == "end" and it.words[3] == "killed" for it in before[-200:])
    return "poll" if was_killed and not due else ""


def of_opening(row, due, before):
    """An enable, or a request that opens its line: what became of the depth, and the resend."""
    if "started" in row.words and "started" in due:
        return "resend-refused" if due[-1] == "soft" and row.words[-1] == "no" else "who-resends"
    if any(it.words[0] == "end" and it.words[3] == "killed" for it in before[-20:]):
        return "note-kill" if "unbalanced" in due else "kill-race"
    return "unlinked-enable" if "unbalanced" in due else ""


def of_request(row, due, before):
    if "refused" in due and "linked" in row.words:
        return "oneshot-safe"
    if "started" in due and row.words[-1] == "no":
        return "noautoen"
    return of_opening(row, due, before)


def of_affinity(row, due, before):
    if "refused" in row.words:
        return "no-aim"
    return {"now": "before-activation", "later": "busy-chip"}.get(row.words[2], "")
