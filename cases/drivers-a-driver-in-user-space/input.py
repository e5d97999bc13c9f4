with open("../../boards/drivers/uio.board", encoding="ascii") as it:
    print(it.read(), end="")
