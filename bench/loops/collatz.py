def main():
    n = int(input())
    s = 0
    for i in range(1, n + 1):
        k = i
        while k != 1:
            if k % 2 == 0:
                k = k // 2
            else:
                k = 3 * k + 1
            s = s + 1
    print(s)
main()
