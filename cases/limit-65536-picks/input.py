"""65536 picks, each a word."""
print("board 1\ndomain intc tree latch\nline 1 intc 2\ndevice 1 1 direct\ndriver 1\nrequest 1\nask 1\npicks" + " c0" * 65536)
