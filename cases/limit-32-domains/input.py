"""32 domains."""
print("board 1")
for n in range(1, 33):
    print(f"domain d{n} tree latch")
