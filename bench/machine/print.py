import sys
def f(n):
    i = 0
    while i < n:
        print(i, flush=True)
        i = i + 1
f(int(sys.argv[1]))
