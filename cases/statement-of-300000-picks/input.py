print("board 1\ncpus 1\npicks" + " c0" * 300000)
