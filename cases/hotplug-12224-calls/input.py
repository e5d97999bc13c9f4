"""As many calls as a board may have: asks of a device that nobody requested."""
print("board 1\nlog 20000\ndomain intc tree latch\nline 1 intc 0\ndevice 1 1 direct\ndriver 1")
print("ask 1\n" * 12224, end="")
