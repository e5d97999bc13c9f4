"""257 devices on one line, all requested, of which one asks."""
print("board 1\ndomain intc tree latch\nline 1 intc 2")
for n in range(1, 258):
    print(f"device {n} 1 direct")
print("driver 1")
for n in range(1, 258):
    print(f"request {n} shared")
print("ask 7")
