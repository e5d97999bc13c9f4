print("board 1\ndomain intc linear 8 latch\nline 1 intc 0\n---\n" + "1" * 1000)
