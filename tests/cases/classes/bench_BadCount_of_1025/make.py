# a gate of 1,025 inputs
with open("n.bench", "w") as out:
    print("INPUT(a)\ny = NOR(" + ",".join(["a"] * 1025) + ")", file=out)
