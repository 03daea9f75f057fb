import os
os.chmod("res", 0o444)
