#!/usr/bin/env python3
# model.py DEGREE: what chartable has to write, from permutation characters and orthogonality alone: no hooks, and
# nothing of the rules of 1954. Made the files degree-N.txt, and SUMS, in some two minutes:
#     for n in $(seq 0 6); do ./model.py $n > degree-$n.txt; done
#     for n in $(seq 0 16); do ./model.py $n | sha256sum | sed "s/-/degree-$n.txt/"; done > SUMS
import sys
from collections import Counter
from functools import lru_cache
from math import factorial


def partitions(n, most=None):
    if n == 0:
        yield ()
    for p in range(min(n, n if most is None else most), 0, -1):
        for rest in partitions(n - p, p):
            yield (p,) + rest


def size(c):
    d = 1
    for p, t in Counter(c).items():
        d *= p**t * factorial(t)
    return factorial(sum(c)) // d


@lru_cache(None)
def fixed(rows, c):  # tabloids of these rows that a permutation of class c leaves as they are
    if not c:
        return 1
    return sum(fixed(rows[:i] + (r - c[0],) + rows[i + 1:], c[1:]) for i, r in enumerate(rows) if r >= c[0])


def table(n):
    ps, characters = list(partitions(n)), []
    for rows in ps:
        v = [fixed(rows, c) for c in ps]
        for w in characters:
            k = sum(size(c) * a * b for c, a, b in zip(ps, v, w)) // factorial(n)
            v = [a - k * b for a, b in zip(v, w)]
        characters.append(v)
    return ps, characters


n = int(sys.argv[1])
ps, characters = table(n)
print(f"degree={n}\ncount={len(ps)}")
for j, c in enumerate(ps):
    values = ",".join(str(v[j]) for v in characters)
    print("class=" + ",".join(map(str, c)), f"size={size(c)}", "values=" + values, sep="\n")
print(f"end={len(ps)}")
