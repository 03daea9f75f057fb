import os
os.mkdir("dup.csv")
