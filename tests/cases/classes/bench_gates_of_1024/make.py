# gates of 1,024 inputs, each z or o
INPUTS = {"zeros": ["z"] * 1024, "last_one": ["z"] * 1023 + ["o"], "first_zero": ["z"] + ["o"] * 1023, "ones": ["o"] * 1024}
with open("n.bench", "w") as out:
    print("INPUT(z)\nINPUT(o)", file=out)
    for gate in ("AND", "NAND", "OR", "NOR"):
        for name, inputs in INPUTS.items():
            print(f"{gate.lower()}_{name} = {gate}({','.join(inputs)})\nOUTPUT({gate.lower()}_{name})", file=out)
