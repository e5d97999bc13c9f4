"""Sixteen devices, each with sixteen calls in its handler; one asks."""
print("board 3\ndomain intc tree pin\nline 1 intc 2")
for n in range(1, 17):
    print(f"device {n} 1 direct")
for n in range(1, 17):
    print(f"handler {n}" + f"\nquiet {n}" * 16)
print("driver 1\nrequest 1\nask 1")
