def main():
    n = int(input())
    a = [0] * 10001
    for i in range(1, n + 1):
        a[i] = (n - i) * 7919 % 10007
    for i in range(n - 1, 0, -1):
        for j in range(1, i + 1):
            if a[j] > a[j + 1]:
                k = a[j]
                a[j] = a[j + 1]
                a[j + 1] = k
    print(a[1], a[n // 2], a[n])
main()
