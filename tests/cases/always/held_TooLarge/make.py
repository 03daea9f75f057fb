names = [f"i{k}" for k in range(1025)]
open("wide.blif", "w").write(".model wide\n.inputs " + " ".join(names) + "\n.names i0 y\n1 1\n.end\n")
open("held.csv", "w").write("input,from,before,value\n" + "".join(f"{name},0,-,0\n" for name in names))
