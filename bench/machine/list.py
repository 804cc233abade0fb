import sys
def pair_of(head, tail):
    return lambda take: take(head, tail)
def made(n):
    list = None
    while n > 0:
        list = pair_of(n, list)
        n = n - 1
    return list
def f(n):
    list = made(n)
    sum = 0
    while list:
        sum = sum + list(lambda head, tail: head)
        list = list(lambda head, tail: tail)
    return sum
print(f(int(sys.argv[1])))
