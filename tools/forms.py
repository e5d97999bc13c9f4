"""Which words of the programs' command lines are a form, and read standard input.

A trial (tools/launch) has to know it before the program runs, since it reads the input for the program. The words are those of
the usage rows, a row of a line that genirq-explore takes is one of docs/LOG.md. It says which words the program itself takes, as
crates/irq_words and crates/explore_words do; tools/try_launcher holds it against the cases.
"""

import re

LAST_NUMBER, MOST_STATES, MOST_WORDS, LONGEST_ROW = 2**32 - 1, 100_000_000, 64, 320
NUMBER = "(?:0|[1-9][0-9]*)"
RESEND = "(?:no|chip|soft)"
OPENED = f"(?:unbalanced|lowered|started {RESEND})"
# The calls, of which handlers and threads make some on boards of version 3.
CALLS = [
    "disable|hardclear|synced",
    f"(?:freed|quiet) {NUMBER}",
    f"enable {OPENED}",
    f"unlink {NUMBER} (?:notthere|last|more)",
    f"(?:wake|arm) {NUMBER} (?:yes|no)",
    f"serve {NUMBER} {NUMBER}",
]
ENTRIES = {
    "c": [
        *CALLS,
        "take (?:line|resend) (?:handle|busy|off)",
        f"begin {NUMBER}",
        f"return {NUMBER} (?:nothing|handled|wake) {NUMBER}",
        "end (?:again|leave) (?:unmask|asis) (?:quiet|counted|killed)",
    ],
    "t": [*CALLS, "begin", f"return (?:0(?: handled)?|{NUMBER}|[1-9][0-9]* nothing)", "finish (?:kept|cleared) (?:unmask|asis)", "done"],
    "d": [
        *CALLS,
        f"ask {NUMBER}(?: no)?",
        f"moment {NUMBER}",
        f"request {NUMBER} (?:-|(?=[son])s?o?n?) (?:linked (?:no|{OPENED})|refused (?:22|16))",
        f"affinity {NUMBER} (?:now|later|refused 22)",
    ],
}
REST = f"rest (?:hung [ctd]{NUMBER} )?(?:stopped|enabled|disabled|killed) {NUMBER} (?:-|stored|pending|both)"
ROW = re.compile(f"{NUMBER} (?:{REST}|{'|'.join(f'{who}{NUMBER} (?:{it})' for who, rest in ENTRIES.items() for it in rest)})")


def is_number(word, low=0, high=LAST_NUMBER):
    return bool(re.fullmatch(NUMBER, word)) and len(word) <= 10 and low <= int(word) <= high


def is_event(word):
    found = re.fullmatch("(?:off|on):(.*)", word, re.S)
    return bool(found) and is_number(found[1], 0, 31)


def are_lines(words):
    """Whether the words are lines, each with a greater number than the one before it."""
    if not all(is_number(it, 1, 65535) for it in words):
        return False
    return all(int(one) < int(other) for one, other in zip(words, words[1:]))


def is_row(words):
    """Whether the words, put together, are a row of an entry, or of how a line is left."""
    row = " ".join(words)
    return len(row) <= LONGEST_ROW and bool(ROW.fullmatch(row)) and all(is_number(it) for it in re.findall("[0-9]+", row))


def reads_as_genirq(words):
    name, rest = (words[0], words[1:]) if words else ("", [])
    if name in ("play", "run"):
        return rest in ([], ["--summary"])
    if name == "check":
        return rest in ([], ["--why"])
    if name == "chained":
        return not rest
    if name == "hotplug":
        return bool(rest) and is_number(rest[0], 1, 64) and len(rest) <= MOST_WORDS + 1 and all(map(is_event, rest[1:]))
    return name == "sleep" and len(rest) <= MOST_WORDS and are_lines(rest)


def reads_as_explore(words):
    if words[:1] == ["--states"]:
        return len(words) > 1 and is_number(words[1], 1, MOST_STATES) and reads_what(words[2:])
    return reads_what(words)


def reads_what(words):
    """Whether these words of genirq-explore, without the number of states, are a form."""
    if words[:1] == ["--line"]:
        return len(words) == 2 and is_number(words[1])
    return not words or is_row(words[1:] if words[0] == "--play" else words)


READS = {"irq_prog": reads_as_genirq, "explore_prog": reads_as_explore}


def reads_input(program, words):
    """Whether the program reads its input for these words: they are a form, and its work needs a board."""
    return READS[program](words)
