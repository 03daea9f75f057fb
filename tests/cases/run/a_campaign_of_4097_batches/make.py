# 131,073 inputs, of which the first and the last are compared.
names = [f"a{i}" for i in range(131073)]
open("n.blif", "w").write(f".model m\n.inputs {' '.join(names)}\n.outputs y\n.names a0 {names[-1]} y\n10 1\n01 1\n.end\n")
open("w.csv", "w").write(f"workload,kind,{','.join(names)}\n" + f"w,mission{',0' * len(names)}\n")
open("r.csv", "w").write("pattern,part,role,covered,permanent,transient\n*,all,mission,no,262148,0\n")
open("p.csv", "w").write("kind,net\nobserve,y\n")
