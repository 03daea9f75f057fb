import os
os.chmod("held.csv", 0)
