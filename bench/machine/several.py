import sys
def around(n):
    return n + 1, n - 1
def f(n):
    sum = 0
    i = 0
    while i < n:
        more, less = around(i)
        sum = sum + more - less
        i = i + 1
    return sum
print(f(int(sys.argv[1])))
