import os
os.mkdir("rates.csv")
