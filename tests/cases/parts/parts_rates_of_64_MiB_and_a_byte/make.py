open("rates.csv", "a").truncate(2**26 + 1)
