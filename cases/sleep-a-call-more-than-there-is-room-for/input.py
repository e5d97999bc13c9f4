print("board 1\nlog 20000\ndomain intc linear 4 latch\nline 1 intc 2\ndriver 1")
for n in range(16257):
    print("disable_nosync 1")
