"""64 drivers, each but the first with an ask."""
print("board 1\ndomain intc tree latch\nline 1 intc 2\ndevice 1 1 direct\ndriver 1\nrequest 1")
for n in range(2, 65):
    print(f"driver {n}\nask 1")
