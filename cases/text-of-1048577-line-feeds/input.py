print("\n" * 1048577, end="")
