"""What five modules of bench/table do, in plain Python: main.py KIND CALLS ARGUMENT prints what the last call answers."""
import sys


def loop(k):
    i = 0
    while i < k:
        i = i + 1
    return i


def fib(k):
    if k < 2:
        return k
    a = fib(k - 1)
    b = fib(k - 2)
    return a + b


def sort(k):
    a = [0] * 100
    seed = k
    i = 0
    while i < 100:
        seed = (seed * 137 + 187) % 10007
        a[i] = seed
        i = i + 1
    i = 1
    while i < 100:
        t = a[i]
        j = i
        while j > 0 and a[j - 1] > t:
            a[j] = a[j - 1]
            j = j - 1
        a[j] = t
        i = i + 1
    return a[0]


class Last:
    def __init__(self):
        self.h = 0


class In:
    def __init__(self):
        self.g = 0
        self.last = Last()


class R:
    def __init__(self):
        self.f = 0
        self.in_ = In()


r = [R() for _ in range(10)]


def records(k):
    i = 0
    while i < k:
        r[i % 10].in_.last.h = r[9 - i % 10].in_.g + 1
        r[i % 10].in_.g = i
        i = i + 1
    return r[0].in_.last.h


a = [0] * 1000


def array_sum(k):
    i = 0
    sum = 0
    while i < k:
        sum = sum + a[i % 1000]
        a[i % 1000] = i
        sum = sum % 1000
        i = i + 1
    return sum


kind, calls, argument = globals()[sys.argv[1]], int(sys.argv[2]), int(sys.argv[3])
for _ in range(calls):
    answer = kind(argument)
print(answer)
