names = " ".join(f"y{i}" for i in range(1025))
open("n.blif", "w").write(".model m\n.inputs a\n.outputs " + names + "\n" + "".join(f".names a y{i}\n1 1\n" for i in range(1025)) + ".end\n")
