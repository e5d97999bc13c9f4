lines = range(1, 65)
for n in lines:
    print(f"# irq {n} virq {n} intc:{n - 1}")
for n in lines:
    for what in ("disable", "hardclear", "synced"):
        print(f"{n} d65535 {what}")
print("# asleep\n# wake none")
for n in lines:
    print(f"{n} d65535 enable unbalanced")
