"""model.py: what document 01 says, reckoned without the definitions, for values.py.

Partitions by adding cells, words as strings of digits, characters from permutation characters made orthogonal by class
sizes (no hooks, and nothing of the rules of 1954), hooks as connected border strips of cells of the diagram, refusals,
slips, pages and watches from the text of document 01."""
from collections import Counter
from functools import lru_cache
from itertools import groupby
from math import factorial, lcm, perm

LIMIT, PAGE, LIST = 16, 4096, 4096  # the largest degree, the longest page and list of shapes


# ---- partitions and words
@lru_cache(None)
def partitions(n):
    """All partitions of n, largest first part first: those of n - 1 with a cell added in every way."""
    if n == 0:
        return [()]
    found = set()
    for p in partitions(n - 1):
        for i, r in enumerate(p + (0,)):
            if i == 0 or p[i - 1] > r:
                found.add(p[:i] + (r + 1,) + p[i + 1:])
    return sorted(found, reverse=True)


def number(digits):
    """The number whose digits these are, digit 1 being bit 30; zeros fill the rest."""
    return int(digits.ljust(31, '0'), 2)


def shape_word(rows):
    """A zero for each row; after the zeros of equal rows as many ones as these exceed the next shorter row."""
    groups = [(r, len(list(g))) for r, g in groupby(rows)] + [(0, 0)]
    return number(''.join('0' * t + '1' * (r - s) for (r, t), (s, _) in zip(groups, groups[1:])))


def class_word(parts):
    """A part p gives p - 1 zeros and then a one."""
    return number(''.join('0' * (p - 1) + '1' for p in parts))


def shape_of(word):
    """A row for each zero, as long as there are ones after it."""
    digits = format(word % 2**31, '031b')
    ones = [digits[i:].count('1') for i, d in enumerate(digits) if d == '0']
    return tuple(k for k in ones if k)


def good_word(word):
    """The word of the same shape without ones in front: its rows packed again."""
    return shape_word(shape_of(word))


def dropped(word):
    """How many ones stand in front: before the first zero, or all digits."""
    return (format(word % 2**31, '031b') + '0').index('0')


def class_of(word):
    """Each one ends a part, as long as it and the zeros before it."""
    return tuple(len(zeros) + 1 for zeros in format(word % 2**31, '031b').split('1')[:-1])


def cells(shape):
    """The cells of a diagram."""
    return {(i, j) for i, r in enumerate(shape) for j in range(r)}


def transposed(shape):
    """Rows and columns of the diagram interchanged."""
    columns = Counter(j for _, j in cells(shape))
    return tuple(columns[j] for j in sorted(columns))


def falls(parts):
    """Whether no part is 0 and none rises."""
    return 0 not in parts and list(parts) == sorted(parts, reverse=True)


# ---- characters and hooks
@lru_cache(None)
def class_size(c):
    """How many permutations have these cycles: by the cycle that the first element is in, and those of the rest."""
    rest = {p: c[:c.index(p)] + c[c.index(p) + 1:] for p in c}
    return sum(perm(sum(c) - 1, p - 1) * class_size(rest[p]) for p in rest) if c else 1


def period(c):
    """The least positive number that every part divides, by Python's lcm."""
    return lcm(*c)


@lru_cache(None)
def fixed(rows, c):
    """How many tabloids of these rows a permutation of class c leaves as they are."""
    if not c:
        return 1
    return sum(fixed(rows[:i] + (r - c[0],) + rows[i + 1:], c[1:]) for i, r in enumerate(rows) if r >= c[0])


@lru_cache(None)
def characters(n):
    """The character table of degree n, by shape and class: permutation characters, made orthogonal."""
    classes, found = partitions(n), {}
    for shape in classes:
        v = [fixed(shape, c) for c in classes]
        for w in found.values():
            k = sum(class_size(c) * a * b for c, a, b in zip(classes, v, w)) // factorial(n)
            v = [a - k * b for a, b in zip(v, w)]
        found[shape] = v
    return {(shape, c): x for shape, v in found.items() for c, x in zip(classes, v)}


def character(shape, c):
    """The character of a shape on a class."""
    return characters(sum(c))[shape, c]


def connected(strip):
    """Whether a set of cells is in one piece, cell beside cell."""
    seen, todo = set(), [min(strip)]
    while todo:
        i, j = cell = todo.pop()
        if cell in strip and cell not in seen:
            seen.add(cell)
            todo += [(i + 1, j), (i - 1, j), (i, j + 1), (i, j - 1)]
    return seen == strip


@lru_cache(None)
def hooks(shape, h):
    """The hooks of length h, top row first: whether its sign is minus, and the shape that it leaves. A hook is a
    connected strip of h cells of the border, with no square of four; it is minus if it goes down an odd number."""
    found = []
    for left in partitions(sum(shape) - h) if 1 <= h <= sum(shape) else []:
        strip = cells(shape) - cells(left)
        square = any({(i + 1, j), (i, j + 1), (i + 1, j + 1)} <= strip for i, j in strip)
        if cells(left) <= cells(shape) and connected(strip) and not square:
            rows = {i for i, _ in strip}
            found.append((min(rows), len(rows) % 2 == 0, left))
    return [hook[1:] for hook in sorted(found)]


# ---- refusals, sessions
def first_of(*checks):
    """The number of the first check that applies, 0 for none."""
    return next((number for applies, number in checks if applies), 0)


def shape_refusal(w):
    """1, 2 for a shape word, which may have ones in front."""
    return first_of((w >= 2**31, 1), (sum(shape_of(w)) > LIMIT, 2))


def good_shape_refusal(w):
    """1, 2 for a shape word that has to be a good one, as in a list."""
    return first_of((w >= 2**30, 1), (sum(shape_of(w)) > LIMIT, 2))


def class_refusal(w):
    """3, 4 for a class word."""
    return first_of((w >= 2**31 or not falls(class_of(w)), 3), (sum(class_of(w)) > LIMIT, 4))


def pair_refusal(s, c):
    """1, 3, 2, 4, 5 for a shape word and a class word."""
    bad = [k for k in (shape_refusal(s), class_refusal(c)) if k]
    differ = sum(shape_of(s)) != sum(class_of(c))
    return min(bad, key=[1, 3, 2, 4].index) if bad else 5 if differ else 0


def list_refusal(parts, large):
    """3, then 2 or 4 for a part list."""
    return first_of((not falls(parts), 3), (sum(parts) > LIMIT, large))


@lru_cache(None)
def most_steps(d):
    """S(d)."""
    return 1 + d * most_steps(d - 1) if d else 0


def line(word):
    """A line's sign, shape word and class word."""
    return (-1 if word >> 63 else 1), (word >> 32) % 2**31, word % 2**32


def line_word(sign, s, c):
    """The word of a line."""
    return ((2**31 if sign < 0 else 0) + s << 32) + c


def sound(slip, page):
    """Document 01's sound slip and page; a slip is (shape, class, settled, lines, steps, mode), of mode 0."""
    s, c, settled, lines, steps, mode = slip
    if mode or s >= 2**30 or pair_refusal(s, c) or lines > len(page) or any(page[lines:]):
        return False
    n, degrees = sum(shape_of(s)), []
    for _, t, k in map(line, page[:lines]):
        d = sum(shape_of(t))
        if t >= 2**30 or class_refusal(k) == 3 or d != sum(class_of(k)) or not 1 <= d <= n:
            return False
        degrees.append(d)
    return (abs(settled) + sum(map(factorial, degrees)) <= factorial(n)
            and 0 <= steps and steps + sum(map(most_steps, degrees)) <= most_steps(n))


def opened(s, c, page):
    """What an opening answers: refusal number, slip, page, with the good word of the shape."""
    good = good_word(s)
    lines = [line_word(1, good, c)] if shape_of(s) else []
    k = pair_refusal(s, c) or first_of((len(page) > PAGE, 6), (len(lines) > len(page), 10))
    if k:
        return k, (0,) * 6, page
    return 0, (good, c, 0 if lines else 1, len(lines), 0, 0), lines + [0] * (len(page) - len(lines))


def struck(slip, page, i, cycle):
    """What comes of a line and a cycle that are named: refusal number, new lines, what is settled."""
    k = first_of((len(page) > PAGE, 6), (not sound(slip, page), 7), (i >= slip[3], 8))
    if k:
        return k, [], 0
    sign, t, u = line(page[i])
    parts = list(class_of(u))
    if cycle not in parts:
        return 9, [], 0
    parts.remove(cycle)
    found = [(-sign if minus else sign, left) for minus, left in hooks(shape_of(t), cycle)]
    new = [line_word(e, shape_word(left), class_word(parts)) for e, left in found if left]
    return 0, new, sum(e for e, left in found if not left)


def previewed(slip, page, i, cycle, strip):
    """What a preview answers: refusal number, count, strip."""
    k, new, _ = struck(slip, page, i, cycle)
    k = k or first_of((len(new) > len(strip), 18))
    return (k, 0, strip) if k else (0, len(new), new + strip[len(new):])


def committed(slip, page, i, cycle, strip):
    """What a commit answers: refusal number, slip, page."""
    k, new, sign = struck(slip, page, i, cycle)
    s, c, settled, lines, steps, mode = slip
    after = page[:i] + page[i + 1:lines] + new
    k = k or first_of((strip[:len(new)] != new, 19), (len(after) > len(page), 10))
    if k:
        return k, slip, page
    return 0, (s, c, settled + sign, len(after), steps + 1, mode), after + [0] * (len(page) - len(after))


def watched(slip, page, kind, i):
    """What a watch answers: a refusal number, or a whole number or a ratio (a float)."""
    k = first_of((len(page) > PAGE, 6), (not sound(slip, page), 7), (not 1 <= kind <= 5, 15),
                 (kind <= 2 and i >= slip[3], 8))
    if k:
        return k, None
    values = [e * character(shape_of(t), class_of(u)) for e, t, u in map(line, page[:slip[3]])]
    if kind == 2:
        shape = shape_of(line(page[i])[1])
        return 0, float(values[i]) / float(character(shape, (1,) * sum(shape)))
    return 0, values[i] if kind == 1 else slip[2] if kind == 3 else sum(values) if kind == 4 else slip[4]
