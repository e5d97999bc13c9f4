"""Driver 1 makes its 256 calls first, and one interrupt serves its 255 asks; each of the 16,128 other asks has one of
its own. An interrupt is four entries."""
print("board 1\nlog 100000\ndomain intc linear 4 latch\nline 1 intc 2\ndevice 1 1 direct")
for n in range(1, 65):
    print(f"driver {n}\n" + ("request 1" if n == 1 else "ask 1") + "\nask 1" * 255)
print("picks d1*65535 d1")
