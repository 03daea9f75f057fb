# 2^24 cells: 16,384 gates of 128 rows and 8 inputs
with open("n.bench", "w") as out:
    print("INPUT(a)", file=out)
    for i in range(16384):
        print(f"n{i} = XOR({','.join('a' * 8)})", file=out)
