"""A machine's board, cut in each of its rows behind the first letter, which is no word."""
with open("../../boards/machine.board", encoding="ascii") as it:
    rows = [row for row in it.read().splitlines() if not row.startswith("#")]
for number, row in enumerate(rows, 1):
    fault = "unknown word" if number > 1 else "no header"
    print(f"3 board: line {number}: {fault} = {'|'.join(rows[:number - 1] + [row[0]])}")
