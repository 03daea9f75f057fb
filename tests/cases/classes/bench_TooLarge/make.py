# 262,145 nets, and one driven twice
with open("n.bench", "w") as out:
    for i in range(262145):
        print(f"INPUT(n{i})", file=out)
    print("INPUT(n0)", file=out)
