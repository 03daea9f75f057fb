open("res", "a").truncate(2**26 + 1)
