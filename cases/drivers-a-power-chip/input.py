with open("../../boards/drivers/pmic_parent.board", encoding="ascii") as it:
    print(it.read(), end="")
