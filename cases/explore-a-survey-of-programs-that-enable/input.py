with open("../../boards/drivers/uio_program.board", encoding="ascii") as it:
    print(it.read(), end="")
