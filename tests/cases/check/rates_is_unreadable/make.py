import os
os.chmod("rates.csv", 0)
