print("board 1" + "\n" * 1000000 + "board 1", end="")
