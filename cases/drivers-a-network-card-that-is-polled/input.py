with open("../../boards/drivers/napi_poll.board", encoding="ascii") as it:
    print(it.read(), end="")
