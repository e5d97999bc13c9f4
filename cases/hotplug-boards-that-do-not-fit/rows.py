"""Boards that can't be played on processors that go offline, and some that just can. The kind comes after every fault of
a text."""
LINES = ["board 1", "log 20000", "domain intc tree latch", "line 1 intc 0", "device 1 1 direct"]
RULED = "3 board: line 0: not for hotplug"


def row(said, lines):
    print(f"{said} = " + "|".join(lines))


row(RULED, LINES[:3] + ["line 1 intc 0 later"])
print("# a call that moves a line, of a line that takes no part too")
row(RULED, LINES + ["driver 1", "affinity 1 1"])
row(RULED, LINES[:4] + ["line 2 intc 0", "driver 1", "affinity 2 1"])
print("# a line that takes no part and would move later")
row(RULED, LINES[:4] + ["line 2 intc 0 later"])
print("# the system's driver")
row(RULED, LINES + ["driver 65535"])
row("0", ["board 1", "driver 65534"])
print("# 64 drivers, and 63")
row(RULED, LINES + [f"driver {n}" for n in range(1, 65)])
row("0", ["board 1"] + [f"driver {n}" for n in range(1, 64)])
print("# 12,225 calls")
row(RULED, LINES + ["driver 1"] + ["ask 1"] * 12225)
print("# a fault of the text comes first")
row("3 board: line 5: not there", LINES[:3] + ["line 1 intc 0 later", "line 2 none 1"])
