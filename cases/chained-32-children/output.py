# One chain, whose status has all bits: a round of each child, the lowest place first.
rows = [f"# irq {i} virq {i} wire:{i}" for i in range(1, 33)]
rows += [f"{i} d1 request {i} - linked started no" for i in range(1, 33)]
rows += [f"{i} d1 ask {i}" for i in range(1, 33)]
rows += ["0 c0 enter 4294967295"]
for i in range(1, 33):
    rows += [f"{i} c0 take line handle", f"{i} c0 begin {i}", f"{i} c0 return {i} handled 1", f"{i} c0 end leave asis quiet"]
print("\n".join([*rows, "0 c0 exit"]))
