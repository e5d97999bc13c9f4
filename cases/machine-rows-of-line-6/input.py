with open("../../boards/machine.board", encoding="ascii") as it:
    print(it.read(), end="")
