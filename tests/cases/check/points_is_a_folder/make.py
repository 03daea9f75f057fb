import os
os.mkdir("points.csv")
