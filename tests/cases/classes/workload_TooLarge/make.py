open("dup.csv", "w").write("workload,kind,a,b\n" + "w,mission,0,0\n" * 65537)
