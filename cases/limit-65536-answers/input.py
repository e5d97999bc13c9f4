"""Sixteen devices, each told 4,096 answers; one asks."""
print("board 3\ndomain intc tree pin\nline 1 intc 2")
for n in range(1, 17):
    print(f"device {n} 1 told")
for n in range(1, 17):
    print(f"answers {n} handled*4000 nothing*96")
print("driver 1\nrequest 1\nask 1")
