"""gathering.py: gathered sessions as document 02, P7, and its issue say them, without the definitions, for values.py.

The waiting lines are a dict from a line's word to its coefficient, in the order of the page. A slip is as that of
model.py, of mode 1; a page comes with a column of coefficients."""
from math import factorial

from model import (
    PAGE, character, class_of, class_refusal, class_word, first_of, good_word, hooks, line_word, most_steps,
    pair_refusal, shape_of, shape_word)
from texts import bytes_of, put_away, taken_up


def gather(lines, hook_lines):
    """Lines, and hook lines that come to them, each (coefficient, shape word, class word): a hook line counts for the
    earliest line equal to it, which is one of the hook lines if no other is; lines of 0 are out."""
    words = [words for _, *words in lines + hook_lines]
    sums = [z for z, *_ in lines] + [0] * len(hook_lines)
    for z, *these in hook_lines:
        sums[words.index(these)] += z
    return [(z, *these) for z, these in zip(sums, words) if z]


def sound(slip, page, column):
    """A sound slip, page and column of the gathered mode."""
    s, c, settled, lines, steps, mode = slip
    if mode != 1 or s >= 2**30 or pair_refusal(s, c) or lines > len(page) or any(page[lines:] + column[lines:]):
        return False
    if len(set(page[:lines])) < lines or 0 in column[:lines]:
        return False
    n, size, span = sum(shape_of(s)), abs(settled), steps
    for word, z in zip(page[:lines], column):
        t, u = divmod(word, 2**32)
        d = sum(shape_of(t))
        if t >= 2**30 or class_refusal(u) or d != sum(class_of(u)) or not 1 <= d <= n:
            return False
        size, span = size + abs(z) * factorial(d), span + most_steps(d)
    return size <= factorial(n) and steps >= 0 and span <= most_steps(n)


def lent_refusal(page, column):
    """6, 21 for a page and a column."""
    return first_of((len(page) > PAGE, 6), (len(page) != len(column), 21))


def session_refusal(slip, page, column):
    """6, 21, 7 for a slip, a page and a column."""
    return lent_refusal(page, column) or first_of((not sound(slip, page, column), 7))


def written(waiting, room):
    """A page and a column of a length, with these lines and zeros after them."""
    zeros = [0] * (room - len(waiting))
    return [*waiting, *zeros], [*waiting.values(), *zeros]


def opened(s, c, page, column):
    """What an opening answers: refusal number, slip, page, column."""
    waiting = {line_word(1, good_word(s), c): 1} if shape_of(s) else {}
    k = pair_refusal(s, c) or lent_refusal(page, column) or first_of((len(waiting) > len(page), 10))
    if k:
        return k, (0,) * 6, page, column
    return 0, (good_word(s), c, 0 if waiting else 1, len(waiting), 0, 1), *written(waiting, len(page))


def struck(slip, page, column, i, cycle):
    """What comes of a line and a cycle that are named: refusal number, and the hooks, each its own sign, the shape that
    it leaves and the word of these with the class that is left."""
    k = session_refusal(slip, page, column) or first_of((i >= slip[3], 8))
    parts = [] if k else list(class_of(page[i] % 2**32))
    if cycle not in parts:
        return k or 9, []
    parts.remove(cycle)
    found = [(-1 if minus else 1, left) for minus, left in hooks(shape_of(page[i] >> 32), cycle)]
    return 0, [(e, left, line_word(1, shape_word(left), class_word(parts))) for e, left in found]


def strip_of(found):
    """The hooks that make lines as a strip has them."""
    return [word + 2**63 * (e < 0) for e, left, word in found if left]


def previewed(slip, page, column, i, cycle, strip):
    """What a preview answers: refusal number, count, strip."""
    k, found = struck(slip, page, column, i, cycle)
    new = strip_of(found)
    k = k or first_of((len(new) > len(strip), 18))
    return (k, 0, strip) if k else (0, len(new), new + strip[len(new):])


def step_taken(slip, page, column, i, found):
    """The waiting lines after a step on line i, which has these hooks; and what it settles."""
    waiting = {word: z for place, (word, z) in enumerate(zip(page[:slip[3]], column)) if place != i}
    for e, left, word in found:
        if left:
            waiting[word] = waiting.get(word, 0) + column[i] * e
            if not waiting[word]:
                del waiting[word]
    return waiting, sum(column[i] * e for e, left, _ in found if not left)


def committed(slip, page, column, i, cycle, strip):
    """What a commit answers: refusal number, slip, page, column."""
    k, found = struck(slip, page, column, i, cycle)
    new = strip_of(found)
    waiting, brought = ({}, 0) if k else step_taken(slip, page, column, i, found)
    k = k or first_of((strip[:len(new)] != new, 19), (len(waiting) > len(page), 10))
    if k:
        return k, slip, page, column
    s, c, settled, _, steps, mode = slip
    return 0, (s, c, settled + brought, len(waiting), steps + 1, mode), *written(waiting, len(page))


def watched(slip, page, column, kind, i):
    """What a watch answers: a refusal number, or a whole number or a ratio (a float)."""
    k = session_refusal(slip, page, column) or first_of((not 1 <= kind <= 5, 15), (kind <= 2 and i >= slip[3], 8))
    if k:
        return k, None
    found = [(shape_of(word >> 32), class_of(word % 2**32), z) for word, z in zip(page[:slip[3]], column)]
    if kind == 2:
        shape, c, _ = found[i]
        return 0, float(character(shape, c)) / float(character(shape, (1,) * sum(shape)))
    values = [z * character(shape, c) for shape, c, z in found]
    return 0, values[i] if kind == 1 else slip[2] if kind == 3 else sum(values) if kind == 4 else slip[4]


def waiting_lines(slip, page, column):
    """The waiting lines, each a coefficient, a shape word and a class word."""
    return [(z, *divmod(word, 2**32)) for word, z in zip(page[:slip[3]], column)]


def saved(slip, page, column, out):
    """What a save answers: refusal number, length, and the lent bytes."""
    k = session_refusal(slip, page, column)
    text = [] if k else bytes_of(put_away(slip, waiting_lines(slip, page, column)))
    k = k or first_of((len(text) > len(out), 17))
    return (k, 0, out) if k else (0, len(text), text + out[len(text):])


def loaded(text, page, column):
    """What a load answers: refusal number, the text's line that 16 is given for, slip, page, column."""
    at_fault, slip, lines = taken_up(text, 1)
    entries = (lines or []) + [(0, 0, 0)] * (len(page) - len(lines or []))
    words, weights = [line_word(1, s, c) for _, s, c in entries], [z for z, _, _ in entries]
    k = lent_refusal(page, column) or first_of((at_fault, 16), (len(words) > len(page), 10))
    k = k or (0 if sound(slip, words, weights) else 7)
    return (k, at_fault if k == 16 else 0, (0,) * 6, page, column) if k else (0, 0, slip, words, weights)
