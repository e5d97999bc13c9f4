"""What a play's output is judged by, for bench/mutate and bench/runs: the input of `check` that goes with it, and what has to hold of
the rows that are of no line. It is written from docs/LOG.md and docs/DEFINITIONS.md, and knows nothing of the program."""

SYSTEM = b"65535"


def rows_of(printed):
    """The words of each row, those that begin with # among them."""
    return [row.split(b" ") for row in printed.split(b"\n")[:-1]]


def mapped(printed):
    """The lines that take part, in the board's order, as the layout has them."""
    return [row[2] for row in rows_of(printed) if row[:2] == [b"#", b"irq"] and row[3] != b"refused"]


def statements(board):
    """The words of each statement of a board's text, with the number of its text line."""
    rows = [text.partition(b"#")[0].split() for text in board.split(b"\n")]
    return [(at, row) for at, row in enumerate(rows) if row]


def with_system(board, calls):
    """The board with the system's driver behind the others, whose calls these are."""
    rows = board.rstrip(b"\n").split(b"\n")
    at = next((at for at, row in statements(board) if row[0] == b"picks"), len(rows))
    return b"\n".join([*rows[:at], b"driver " + SYSTEM, *calls, *rows[at:]]) + b"\n"


def to_check(words, board, printed):
    """What `check` reads of the output of a play: the board that was played, and the rows of its lines."""
    board = board if board.endswith(b"\n") else board + b"\n"
    rows = rows_of(printed)
    if words[0] == "chained":
        printed = b"".join(b" ".join(row) + b"\n" for row in rows if row[0] != b"0")
    elif words[0] == "hotplug":
        board = with_system(board, fleet_of(words, board, printed).calls)
    elif words[0] == "sleep":
        board = with_system(board, [call + line for call in (b"disable ", b"enable ") for line in mapped(printed)])
    return board + b"---\n" + printed


class Chains:
    """The chains of a log so far: the status of the one that is open, who was taken in it, and whose flow is in progress."""

    def __init__(self, lines):
        self.places = {line: place for place, line in enumerate(lines)}
        self.status, self.taken, self.flow = None, set(), None

    def fault_of_mark(self, row):
        if row[1:3] == [b"c0", b"enter"] and len(row) == 4:
            was_open, self.status, self.taken = self.status is not None, int(row[3]), set()
            return "an enter in a chain" if was_open else "an enter without a child" if self.status == 0 else None
        was_open, self.status = self.status is not None, None
        if row[1:] != [b"c0", b"exit"] or not was_open:
            return f"a row {row}"
        return "an exit within a flow" if self.flow else None

    def fault_of_processor(self, row):
        """What is wrong with an entry of a processor, if something is."""
        if row[1] != b"c0" or self.status is None:
            return f"a processor outside of a chain: {row}"
        if row[2] == b"take":
            if self.flow or row[0] in self.taken or not self.status >> self.places[row[0]] & 1:
                return f"a take that isn't due: {row}"
            self.taken.add(row[0])
            self.flow = row[0] if row[4] == b"handle" else None
        elif row[0] != self.flow:
            return f"another child's flow: {row}"
        elif row[2:4] == [b"end", b"leave"]:
            self.flow = None
        return None


def fault_of_chains(printed, hangs):
    """What is wrong with the enters and exits of a log; none where nothing is. Where somebody hangs it may be processor 0 within a
    chain, which isn't left then."""
    chains = Chains(mapped(printed))
    for row in rows_of(printed):
        fault = None
        if row[0] == b"0":
            fault = chains.fault_of_mark(row)
        elif row[0] != b"#" and row[1][:1] == b"c":
            fault = chains.fault_of_processor(row)
        if fault:
            return fault
    return None if chains.status is None or hangs else "a chain that isn't left"


def fault_of_sleep(armed, printed):
    """What is wrong with the marks of a sleep, and with what stands between them; none where nothing is."""
    rows = rows_of(printed)
    marks = [at for at, row in enumerate(rows) if row[:2] in ([b"#", b"asleep"], [b"#", b"wake"])]
    if len(marks) != 2 or rows[marks[0]] != [b"#", b"asleep"] or len(rows[marks[1]]) != 3:
        return f"marks {[rows[at] for at in marks]}"
    down, waker = set(), b"none"
    for at, row in enumerate(rows[: marks[1]]):
        if row[1:] == [b"d" + SYSTEM, b"disable"]:
            down.add(row[0])
        if waker == b"none" and row[0] in down & armed and row[2:3] == [b"take"] and row[4] == b"off":
            waker = row[0]
        if at > marks[0] and (row[2] == b"begin" or row[1][:1] == b"d" and row[2] != b"ask"):
            return f"asleep, and {row}"
    return None if rows[marks[1]][2] == waker else f"woken by {rows[marks[1]][2]}, not by {waker}"


class Fleet:
    """Where the lines of a board lie, what is printed of it, and the calls of the system's driver that move them."""

    def __init__(self, vectors, board, lines):
        self.vectors, self.rows, self.calls, self.at, self.lines = vectors, [], [], {}, lines
        self.cpus, self.masks, self.queues = 1, {}, {}
        for _, row in statements(board):
            if row[0] == b"cpus":
                self.cpus = int(row[1])
            elif row[0] == b"line":
                self.masks[row[1]] = int(row[row.index(b"mask") + 1]) if b"mask" in row else -1
            elif row[0] == b"device":
                self.queues[row[2]] = self.queues.get(row[2], 0) + 1
        self.online = set(range(self.cpus))
        self.target = {line: next(it for it in range(self.cpus) if self.masks[line] >> it & 1) for line in lines}
        for line in lines:
            self.place(line, self.find(line, set(self.at.values()), self.online))

    def find(self, line, taken, online):
        """The first place for the line: of the processors of its mask, then of the others."""
        order = sorted(online, key=lambda cpu: (not self.masks[line] >> cpu & 1, cpu))
        return next(((cpu, v) for cpu in order for v in range(self.vectors) if (cpu, v) not in taken), None)

    def place(self, line, found):
        self.at.pop(line, None)
        if found:
            self.at[line] = found
            if found[0] != self.target[line]:
                self.target[line] = found[0]
                self.calls.append(b"affinity %b %d" % (line, 1 << found[0]))
        said = f"{found[0]} {found[1]} {found[0] % max(1, self.queues.get(line, 0))}" if found else "none"
        self.rows.append(f"# vector {line.decode()} {said}")

    def off(self, cpu):
        """The answer to a processor that is to go offline; the placings come behind it."""
        if cpu >= self.cpus or cpu not in self.online or len(self.online) == 1:
            return "refused " + ("not-there" if cpu >= self.cpus else "not-online" if cpu not in self.online else "last")
        taken, found = set(self.at.values()), []
        for line in [it for it in self.lines if it in self.at and self.at[it][0] == cpu]:
            place = self.find(line, taken, self.online - {cpu})
            if place is None:
                return f"refused no-vector {line.decode()}"
            taken.add(place)
            found.append((line, place))
        self.online.discard(cpu)
        self.moves = found
        return "ok"

    def event(self, event):
        word, cpu = event.split(":")
        self.moves = []
        if word == "off":
            answer = self.off(int(cpu))
        elif int(cpu) >= self.cpus or int(cpu) in self.online:
            answer = "refused " + ("not-there" if int(cpu) >= self.cpus else "is-online")
        else:
            self.online.add(int(cpu))
            answer = "ok"
        self.rows.append(f"# {word} {cpu} {answer}")
        for line, place in self.moves:
            self.place(line, place)


def fleet_of(words, board, printed):
    """The fleet after the events."""
    fleet = Fleet(int(words[1]), board, mapped(printed))
    for event in words[2:]:
        fleet.event(event)
    return fleet


def fault_of_fleet(words, board, printed):
    """What is wrong with the rows of placings and events; none where nothing is."""
    fleet = fleet_of(words, board, printed)
    said = [b" ".join(row).decode() for row in rows_of(printed) if row[0] == b"#" and row[1] != b"irq"]
    return None if said == fleet.rows else f"placings {said}, not {fleet.rows}"


def fault_of_rows(words, board, printed, hangs=False):
    """What is wrong with the rows of a play that are of no line, in which somebody hangs or nobody; none where nothing is."""
    if words[0] == "chained":
        return fault_of_chains(printed, hangs)
    if words[0] == "sleep":
        return fault_of_sleep({it.encode() for it in words[1:]}, printed)
    if words[0] == "hotplug":
        return fault_of_fleet(words, board, printed)
    return None
