# As many children as a status has bits, all of which have asked before processor 0 moves.
rows = ["board 1", "domain wire tree latch"]
rows += [f"line {i} wire {i}" for i in range(1, 33)]
rows += [f"device {i} {i} direct" for i in range(1, 33)]
rows += ["driver 1", *(f"request {i}" for i in range(1, 33)), *(f"ask {i}" for i in range(1, 33)), "picks d1*64"]
print("\n".join(rows))
