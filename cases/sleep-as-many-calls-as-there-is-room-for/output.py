print("# irq 1 virq 1 intc:2")
for what in ("disable", "hardclear", "synced"):
    print(f"1 d65535 {what}")
print("# asleep\n# wake none\n1 d65535 enable unbalanced")
for n in range(16256):
    print("1 d1 disable")
