print("board 1\ndomain intc linear 64 latch")
for n in range(64):
    print(f"line {n + 1} intc {n}")
