with open("../../boards/drivers/shared_intx.board", encoding="ascii") as it:
    print(it.read(), end="")
