open("rates.csv", "w").write('pattern,part,role,covered,permanent,transient\n' + "*,all,mission,yes,4,0\n" * 4097)
