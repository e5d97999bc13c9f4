"""65 lines."""
print("board 1\ndomain intc tree latch")
for n in range(1, 66):
    print(f"line {n} intc {n}")
