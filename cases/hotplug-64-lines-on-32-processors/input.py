"""64 lines, each of which any of 32 processors may take."""
print("board 1\ncpus 32\ndomain intc linear 64 latch")
for n in range(64):
    print(f"line {n + 1} intc {n}")
