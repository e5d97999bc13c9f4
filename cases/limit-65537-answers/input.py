"""Sixteen devices, each told 4,096 answers, and a seventeenth told one."""
print("board 3\ndomain intc tree pin\nline 1 intc 2")
for n in range(1, 18):
    print(f"device {n} 1 told")
for n in range(1, 17):
    print(f"answers {n} handled*4096")
print("answers 17 nothing")
