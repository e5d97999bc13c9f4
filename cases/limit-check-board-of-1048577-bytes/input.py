"""The first board, with a comment that makes it 1048577 bytes long."""
board = "board 1\ndomain intc linear 4 latch\nline 1 intc 2\ndevice 1 1 direct\ndriver 1\nrequest 1\nask 1\nfree 1\n"
print(board + "#" + "x" * (1048577 - len(board) - 2) + "\n---")
