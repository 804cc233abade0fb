import sys
def f(n):
    i = 0
    while i < n:
        print(i, i + 1, i + 2, i + 3, i + 4, i + 5, i + 6, i + 7, i + 8, i + 9)
        i = i + 10
f(int(sys.argv[1]))
