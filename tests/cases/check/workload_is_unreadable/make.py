import os
os.chmod("dup.csv", 0)
