import os
os.chmod("dup.blif", 0)
