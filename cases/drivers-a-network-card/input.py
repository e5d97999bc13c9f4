with open("../../boards/drivers/napi_ethernet.board", encoding="ascii") as it:
    print(it.read(), end="")
