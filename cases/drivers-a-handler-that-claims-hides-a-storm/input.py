with open("../../boards/drivers/intx_claims.board", encoding="ascii") as it:
    print(it.read(), end="")
