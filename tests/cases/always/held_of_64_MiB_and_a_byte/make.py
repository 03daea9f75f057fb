open("held.csv", "a").truncate(2**26 + 1)
