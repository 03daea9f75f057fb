import os
os.chmod("points.csv", 0)
