"""A machine's board, cut behind each of its rows. No statement needs one that follows it, so the rows up to any of
them are a board, whose play is lawful."""
with open("../../boards/machine.board", encoding="ascii") as it:
    rows = [row for row in it.read().splitlines() if not row.startswith("#")]
for number, row in enumerate(rows, 1):
    print(f"0 = {'|'.join(rows[:number])}|")
