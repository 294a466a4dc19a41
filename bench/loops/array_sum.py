def main():
    n = int(input())
    a = [0] * 10001
    for i in range(1, 10001):
        a[i] = i * 7919 % 1000
    s = 0
    for k in range(n):
        for i in range(1, 10001):
            s = s + a[i]
    print(s)
main()
