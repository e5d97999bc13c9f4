with open("../../boards/drivers/touch_held.board", encoding="ascii") as it:
    print(it.read(), end="")
