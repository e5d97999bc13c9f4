# Line 33 asks for the number of line 32, and takes no part: 32 are left, as many as a status has bits.
print("\n".join(["board 1", "domain wire tree latch", *(f"line {i} wire {min(i, 32)}" for i in range(1, 34))]))
