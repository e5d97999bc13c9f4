"""A line has at most 64 one-shot actions."""
print("board 1\ndomain intc linear 4 latch\nline 1 intc 2")
for n in range(1, 66):
    print(f"device {n} 1 direct")
print("driver 1")
for n in range(1, 66):
    print(f"request {n} shared oneshot")
