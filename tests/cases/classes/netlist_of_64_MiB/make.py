text = open("dup.blif").read()
open("dup.blif", "w").write(text + "#" * (2**26 - len(text)))
