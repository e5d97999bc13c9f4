# Nothing happens: no driver.
print("\n".join([*(f"# irq {i} virq {i} wire:{i}" for i in range(1, 33)), "# irq 33 refused taken"]))
