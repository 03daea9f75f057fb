open("dup.csv", "a").truncate(2**26 + 1)
