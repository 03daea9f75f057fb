open("dup.blif", "a").truncate(2**26 + 1)
