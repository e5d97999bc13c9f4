"""Each ask is an entry, and nothing else moves: the line isn't started."""
print("# irq 1 virq 1 intc:0\n# vector 1 0 0 0")
print("1 d1 ask 1\n" * 12224, end="")
