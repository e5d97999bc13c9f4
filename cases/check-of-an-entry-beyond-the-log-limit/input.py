"""Three level lines with a storm each, of a million entries: a request, an ask, 249,999 rounds of four entries up to the
kill, and two asks more. Then their log, and a comment that makes the input 67108864 bytes long and a last row beyond the log limit, which is judged
as all are."""
board = "board 1\nspurious 249999 249998\nlog 1000000\ndomain wire linear 64 level\n"
for rows in ("line {0} wire {0}\n", "device {0} {0} stuck\n", "driver {0}\nrequest {0}\n" + "ask {0}\n" * 3):
    board += "".join(rows.format(line) for line in (1, 2, 3))
log = ""
for line in (1, 2, 3):
    storm = f"{line} c0 take line handle\n{line} c0 begin {line}\n{line} c0 return {line} nothing 0\n{line} c0 end leave unmask counted\n"
    log += f"{line} d{line} request {line} - linked started no\n{line} d{line} ask {line}\n" + storm * 249998
    log += storm.replace("unmask counted", "asis killed") + f"{line} d{line} ask {line}\n" * 2
text, last = board + "---\n" + log + "#", "1 c0 begin 1\n"
print(text + "x" * (67108864 - len(text) - len(last) - 1) + "\n" + last, end="")
