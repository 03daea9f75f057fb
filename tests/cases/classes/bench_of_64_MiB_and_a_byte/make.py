with open("n.bench", "wb") as out:
    out.write(b"#" * (2**26 + 1))
