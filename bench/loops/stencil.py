def main():
    n = 256
    nt = int(input())
    u = [[0] * (n + 1) for _ in range(n + 1)]
    for j in range(1, n + 1):
        u[1][j] = 1000000
    for k in range(nt):
        for j in range(2, n):
            for i in range(2, n):
                u[i][j] = (u[i - 1][j] + u[i + 1][j] + u[i][j - 1] + u[i][j + 1]) // 4
    print(u[2][2], u[128][128], u[64][200])
main()
