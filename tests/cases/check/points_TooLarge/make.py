open("n.blif", "w").write(".model m\n.inputs a\n" + "".join(f".names a y{i}\n1 1\n" for i in range(1025)) + ".end\n")
open("points.csv", "w").write("kind,net\n" + "".join(f"observe,y{i}\n" for i in range(1025)))
