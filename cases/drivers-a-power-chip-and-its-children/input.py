with open("../../boards/drivers/pmic_children.board", encoding="ascii") as it:
    print(it.read(), end="")
