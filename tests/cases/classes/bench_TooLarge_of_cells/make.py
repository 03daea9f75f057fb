# 2^24 cells and 1024 more: 16,385 gates of 128 rows and 8 inputs; the last net is driven twice
with open("n.bench", "w") as out:
    print("INPUT(a)\nINPUT(a)", file=out)
    for i in range(16385):
        print(f"n{i} = XOR({','.join('a' * 8)})", file=out)
