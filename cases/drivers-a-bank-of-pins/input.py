with open("../../boards/drivers/gpio_bank.board", encoding="ascii") as it:
    print(it.read(), end="")
