n = 65536
open("ring.blif", "w").write(".model ring\n" + "".join(f".latch r{i} r{(i + 1) % n}\n" for i in range(n)) + ".end\n")
