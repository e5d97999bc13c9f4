"""All 64 lines go from one processor to the next that is online, each time the one that they are on goes offline: from 0
to 31 as the others go one by one, and then to each that has come back."""
for n in range(64):
    print(f"# irq {n + 1} virq {n + 1} intc:{n}")


def placed(cpu):
    for n in range(64):
        print(f"# vector {n + 1} {cpu} {n} 0")


placed(0)
moves = []
for cpu in range(31):
    print(f"# off {cpu} ok")
    placed(cpu + 1)
    moves.append(cpu + 1)
for cpu in range(16):
    print(f"# on {cpu} ok")
    print(f"# off {cpu - 1 if cpu else 31} ok")
    placed(cpu)
    moves.append(cpu)
print("# on 31 ok")
# no line of the board does anything else, so each driver 65535's call is due at once, in the order of its script
for cpu in moves:
    for n in range(64):
        print(f"{n + 1} d65535 affinity {1 << cpu} now")
