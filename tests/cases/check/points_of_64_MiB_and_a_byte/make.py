open("points.csv", "a").truncate(2**26 + 1)
