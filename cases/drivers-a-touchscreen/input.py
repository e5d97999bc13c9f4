with open("../../boards/drivers/touchscreen.board", encoding="ascii") as it:
    print(it.read(), end="")
