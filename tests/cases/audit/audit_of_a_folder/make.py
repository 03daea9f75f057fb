import os
os.mkdir("res")
