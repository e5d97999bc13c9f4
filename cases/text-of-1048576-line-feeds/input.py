print("\n" * 1048576, end="")
