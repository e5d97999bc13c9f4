print("board 1\n" + "a" * 1000000)
