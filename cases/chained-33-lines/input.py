# One line more than a status has bits.
print("\n".join(["board 1", "domain wire tree latch", *(f"line {i} wire {i}" for i in range(1, 34))]))
