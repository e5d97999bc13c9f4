with open("../../boards/drivers/wake_up_keys.board", encoding="ascii") as it:
    print(it.read(), end="")
