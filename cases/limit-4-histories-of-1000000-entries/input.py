"""4 level lines, each with a device that nobody recognises and that asks 3 times. Each line is killed after 249,999
rounds of four entries; the second ask comes after that. With a request and three asks that makes a million."""
print("board 1\nspurious 249999 249998\nlog 1000000\ndomain wire linear 64 level")
for n in range(1, 5):
    print(f"line {n} wire {n}")
for n in range(1, 5):
    print(f"device {n} {n} stuck")
for n in range(1, 5):
    print(f"driver {n}\nrequest {n}" + f"\nask {n}" * 3)
