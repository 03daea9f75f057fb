import os
os.chmod(".", 0o555)
