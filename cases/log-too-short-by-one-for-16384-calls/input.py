"""A request and 16383 asks. An ask takes five entries: itself, a take, a begin, a return and an end."""
print("board 1\ndomain intc tree latch\nline 1 intc 2\ndevice 1 1 direct\ndriver 1\nrequest 1".replace("board 1", "board 1\nlog 81915"))
for _ in range(16383):
    print("ask 1")
