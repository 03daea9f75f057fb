import os
os.mkdir("dup.blif")
