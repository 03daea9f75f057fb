# 262,144 nets
with open("n.bench", "w") as out:
    print("INPUT(a)", file=out)
    for i in range(262143):
        print(f"n{i} = BUFF(a)", file=out)
