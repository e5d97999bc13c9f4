"""2,000 asks, each of five entries, and a request; the log has room for 10,000."""
print("board 1\ndomain intc linear 4 latch\nline 1 intc 2\ndevice 1 1 direct\ndriver 1\nrequest 1" + "\nask 1" * 2000)
