#!/usr/bin/env python3
"""values.py: reckons values by a model of its own, and has the checker compute the definitions and compare.

The definitions are those of the specs of `theory`, `words`, `listing`, `oldlists`, `linewords`, `pages`, `sessions`,
`characters`, `classcolumns` and `sessiontext`. The model, which shares nothing with them, is model.py, gathering.py for
the gathered mode, and texts.py for the text of a session. Each equation is a list of expressions over the definitions
and the list of their values, proved by computation alone (`refl`).

A copy of the crates is made in a temporary folder, with crates beside them that have the equations, and `rt all check`
proves these; what a checkout on this machine has proved already is not proved again. Then some values of each notion
are changed at random, one in an equation, and the checker has to refuse every such equation: so the comparison can
fail.

    python3 tools/values.py                  characters and watches up to degree 10, the rest up to 16; the gathered
                                             mode up to 8, and on (2^8)
    python3 tools/values.py --degree 8       characters and watches less far
    python3 tools/values.py --only commits,watches --seed 7    some notions, other random cases
    python3 tools/values.py --keep DIR       leave the equations in DIR, to be read

Without options it compares some 66,000 values of 4,400 equations, in 260 seconds of processor time on as many cores as
there are up to four (four minutes were seen on two busy ones); longer where the crates have to be proved first.

It is run by hand, and is no part of the gate. The exit status is 0 only if every value agrees and every changed one is
refused. It needs Python 3 and `rt`. For a new definition write one more function with @notion in front, which yields
expressions and values; for a definition that changes, change the model. A value is what one expression asks for, but
each entry of a column and each hook is one, and the slip and the lines of a text are two."""
import argparse
import os
import random
import re
import shutil
import struct
import subprocess
import sys
import tempfile
import time
from itertools import groupby
from math import factorial

sys.dont_write_bytecode = True
import gathering  # noqa: E402
from model import (  # noqa: E402
    LIMIT, LIST, PAGE, character, class_of, class_refusal, class_size, class_word, committed, dropped, first_of,
    good_shape_refusal, good_word, hooks, line, line_word, list_refusal, most_steps, number, opened, pair_refusal,
    partitions, period, previewed, shape_of, shape_refusal, shape_word, sound, struck, transposed, watched)
from texts import (  # noqa: E402
    LEAST, MOST, by_hand, bytes_of, damaged, gathered_by_hand, loaded, put_away, saved, taken_up)

CRATES = ['theory', 'text', 'textreading', 'words', 'listing', 'oldlists', 'pairs', 'linewords', 'pages', 'sessions',
          'characters', 'classcolumns', 'sessiontext']
NO_SPECS = ['clearing', 'hooks']  # what some of them rest on, and that defines no value that a promise speaks of


# ---- values as text of antt
def nat(n):
    """A natural number; a word in hexadecimal."""
    return str(n) if n < 2**16 else '0x%X' % n


def integer(z):
    """A whole number."""
    return '(pos %s)' % nat(z) if z >= 0 else '(negsuc %s)' % nat(-z - 1)


def items(texts):
    """A list."""
    return '(%s)' % ' ∷ '.join([*texts, '[]']) if texts else '[]'


def nats(ns):
    """A list of natural numbers; long runs of one number as such."""
    runs = [(k, len(list(g))) for k, g in groupby(ns)]
    if len(runs) > 4 or len(ns) < 64:
        return items([nat(n) for n in ns])
    return '(%s)' % ' ++ '.join('replicate %d %s' % (t, nat(k)) for k, t in runs)


def truth(b):
    """A truth value."""
    return 'true' if b else 'false'


def float_text(x):
    """A float as the library writes it: sign, odd number, power of 2."""
    minus = struct.pack('>d', x)[0] >> 7 == 1
    a, b = abs(x).as_integer_ratio()
    twos = (a & -a).bit_length() - 1 if a else 0
    return '(fin %s %d %s)' % (truth(minus), a >> twos, integer(twos - b.bit_length() + 1 if a else 0))


def slip_text(slip):
    """A slip."""
    s, c, settled, lines, steps, mode = slip
    return '(slip_of %s %s %s %d %s %d)' % (nat(s), nat(c), integer(settled), lines, integer(steps), mode)


def lines_text(lines):
    """Waiting lines."""
    return items(['plain %s %s %s' % (truth(sign < 0), nat(s), nat(c)) for sign, s, c in lines])


def entries_text(lines):
    """Waiting lines with coefficients."""
    return items(['bearing %s %s %s' % (integer(z), nat(s), nat(c)) for z, s, c in lines])


def lent_text(page, column):
    """A page and a column of coefficients."""
    zeros = len(column) > 64 and not any(column)
    return '(lent %s %s)' % (nats(page), '(replicate %d (pos 0))' % len(column) if zeros
                             else items(map(integer, column)))


def bytes_text(text):
    """A text."""
    return nats(bytes_of(text))


def left_text(answer):
    """What an opening or a commit answers."""
    k, slip, page = answer
    return 'after %d %s %s' % (k, slip_text(slip), nats(page))


def both_left_text(answer):
    """The same in the gathered mode."""
    k, slip, page, column = answer
    return 'left %d %s %s' % (k, slip_text(slip), lent_text(page, column))


def value_text(k, value, kind):
    """What a watch answers."""
    shown = ('none' if value is None else
             '(quotient %s)' % float_text(value) if kind == 2 else '(whole %s)' % integer(value))
    return 'saw %d %s' % (k, shown)


def call(name, *texts):
    """A definition that takes the limit on degrees."""
    return ' '.join([name, 'degree_limit', *texts])


def gathered_call(name, *texts):
    """One that takes a mode too, or a form of texts if it ends in _by: the gathered one."""
    return call('%s %s' % (name, 'gathered_form' if name.endswith('_by') else 'gathered_mode'), *texts)


# ---- cases
def room_in_front(word):
    """How many ones there is room for in front of a shape word: as many as it has zeros at its end."""
    digits = format(word, '031b')
    return len(digits) - len(digits.rstrip('0'))


def in_front(word, ones):
    """A word with so many ones put in front of its digits; it loses as many at its end."""
    return number('1' * ones + format(word, '031b')[:31 - ones])


def some_in_front(r, word):
    """A shape word with none, one, some or as many ones in front as there is room for."""
    room = room_in_front(word)
    return in_front(word, r.choice([0, 1, r.randint(0, room), room]))


def some_words(seed, count):
    """Words at the borders, and at random: any, short ones, words of partitions a little spoilt or with ones in
    front."""
    r = random.Random(seed)
    words = {0, 1, 2, 2**14, 2**15, 2**29, 2**30 - 1, 2**30, 2**30 + 1, 2**31 - 1, 2**31, 2**32 - 1}
    words |= {0x3FFFC000, 0x3FFFE000, 0x4000, 0x2000, 0x40000000, 0x50000000, 0x05780000}
    words |= {0x7FFF8000, 0x7FFFFFFE, 0x7FFFFFEB, 0x56000000, 0x5FFFE000, 0x5FFFF000, 0xC0000000, 0xD6000000}
    for n in (15, 16, 17):
        words |= {shape_word((n,)), shape_word((1,) * n), class_word((n,)), class_word((1,) * n)}
    while len(words) < count:
        p = r.choice(partitions(r.randint(1, 18)))
        good = r.choice([shape_word, class_word])(p)
        near, front = good ^ 1 << r.randrange(32), in_front(good, r.randint(1, 31))
        words.add(r.choice([r.getrandbits(32), r.getrandbits(30), r.getrandbits(12) << 19, good, near, front]))
    return sorted(words)


def some_lists(seed, count):
    """Part lists at the borders, and at random: partitions, and these a little spoilt."""
    r = random.Random(seed)
    lists = {(), (0,), (16,), (17,), (255,), (1,) * 16, (1,) * 17, (1, 2), (2, 0), (3, 3, 0), (8, 8), (9, 8), (0, 1)}
    while len(lists) < count:
        p = list(r.choice(partitions(r.randint(1, 18))))
        p[r.randrange(len(p))] += r.choice([0, 0, 1, -1])
        lists.add(tuple(p))
    return sorted(lists)


def some_sessions(n, seed):
    """Slips and pages of degree n, from openings on pages of some length, struck at random; and these spoilt."""
    r = random.Random('%s %s' % (seed, n))
    for turn in range(6):
        s, c = (f(r.choice(partitions(n))) for f in (shape_word, class_word))
        c = class_word((1,) * n) if turn == 0 else c
        k, slip, page = opened(s, c, [r.getrandbits(64) for _ in range(r.choice([1, 2, 4, 7, 12]))])
        for _ in range(n + 1):
            yield slip, page
            if not slip[3]:
                break
            i = r.randrange(slip[3])
            cycles = class_of(line(page[i])[2])
            cycle = r.choice([max(cycles), r.choice(cycles)])
            k, slip, page = committed(slip, page, i, cycle, struck(slip, page, i, cycle)[1])
            yield spoilt(r, slip, page)
            if k:
                break
    if n == 3:
        k, slip, page = opened(shape_word((2, 1)), class_word((1, 1, 1)), [7] * PAGE)
        yield slip, page
        yield slip, page + [0]


def spoilt(r, slip, page):
    """A slip and a page with one thing changed, sound or not."""
    s, c, settled, lines, steps, mode = slip
    n, page, i = sum(shape_of(s)), list(page), r.randrange(len(page))
    way = r.randrange(12)
    if way == 0:
        lines = r.randint(0, len(page) + 1)
    elif way == 1:
        settled = r.choice([1, -1]) * (factorial(n) - r.randint(-1, 3))
    elif way == 2:
        steps = r.choice([-1, most_steps(n) + 1 - r.randint(0, 4)])
    elif way == 3:
        s = shape_word(r.choice(partitions(r.randint(0, n + 1))))
    elif way == 4:
        c ^= 1 << r.randrange(32)
    elif way == 5:
        page[i] ^= 1 << r.randrange(64)
    elif way == 6:
        page[i] ^= 1 << 63
    elif way == 7:
        m = r.randint(1, max(1, n))
        page[i] = line_word(r.choice([1, -1]), shape_word(r.choice(partitions(m))), class_word(r.choice(partitions(m))))
    elif way == 8:
        s = in_front(s, r.randint(1, 14))
    elif way == 9:
        sign, t, k = line(page[i])
        page[i] = line_word(sign, in_front(t, r.randint(1, 14)), k)
    elif way == 10:
        mode = r.choice([1, 1, 2, 2**32 - 1])
    else:
        page = page[:i]
    return (s, c, settled, lines, steps, mode), page


def some_put_away(n, seed):
    """Slips of degree n and waiting lines that a text can hold: of random sessions, and at random, sound or not."""
    r = random.Random('%s %s put away' % (seed, n))
    for slip, page in some_sessions(n, seed):
        if sound(slip, page) and len(page) < PAGE and r.randrange(5) == 0:
            yield slip, [line(word) for word in page[:slip[3]]]
    for _ in range(6):
        lines = []
        for _ in range(r.choice([0, 1, 2, 3, 5, 11])):
            m = r.choice([r.randint(0, n), r.randint(0, LIMIT)])
            c = r.choice(partitions(r.choice([m, m, m, r.randint(0, LIMIT)])))
            lines.append((r.choice([1, -1]), shape_word(r.choice(partitions(m))), class_word(c)))
        c = r.choice(partitions(r.choice([n, n, r.randint(0, LIMIT)])))
        settled = r.choice([LEAST, MOST, -1, factorial(n), -factorial(n), r.randint(-99, 99), r.randint(LEAST, MOST)])
        steps = r.choice([MOST, 10, most_steps(n), r.randint(0, 999), r.randint(0, MOST)])
        yield (shape_word(r.choice(partitions(n))), class_word(c), settled, len(lines), steps, 0), lines


def some_texts(n, seed):
    """Their texts, and each of these damaged."""
    r = random.Random('%s %s texts' % (seed, n))
    for slip, lines in some_put_away(n, seed):
        text = put_away(slip, lines)
        yield text
        yield from damaged(r, text)


def resized(run, room):
    """A run cut off or filled up with zeros to a length."""
    return (run + [0] * room)[:max(0, room)]


def some_gathered(n, seed):
    """Slips, pages and columns of degree n, gathered: from openings on (1^n), on a class of twos and on another, struck
    at random; made up, with a line and a cycle whose hooks meet equal lines (`met`); and these spoilt. With each a line
    and a cycle to be named."""
    r = random.Random('%s %s gathered' % (seed, n))
    twos = (2,) * (n // 2) + (1,) * (n % 2)
    for c in ((1,) * n, twos, r.choice(partitions(n))):
        room = r.choice([2, 4, 7, 12])
        word = shape_word(r.choice([p for p in partitions(n) if character(p, c)] or partitions(n)))
        k, slip, page, column = gathering.opened(word, class_word(c), [7] * room, [-7] * room)
        for _ in range(n + 2):
            i = r.randrange(max(1, slip[3]))
            cycles = class_of(page[i] % 2**32) if slip[3] else (1,)
            cycle = r.choice([max(cycles), r.choice(cycles)])
            yield slip, page, column, i, cycle
            yield *spoilt_gathered(r, slip, page, column), r.randint(0, slip[3]), r.choice([cycle, r.randint(0, n)])
            strip = gathering.strip_of(gathering.struck(slip, page, column, i, cycle)[1])
            k, slip, page, column = gathering.committed(slip, page, column, i, cycle, strip)
            if k:
                break
    for turn in range(10 if n >= 2 else 0):
        slip, page, column, i, cycle = met(r, n, 1 + turn % 2 * 99)
        yield slip, page, column, i, cycle
        for _ in range(2):
            yield *spoilt_gathered(r, slip, page, column), i, cycle


def room_left(slip, page, column):
    """What settled can be in size, and the steps can be, beside the lines of a slip, page and column."""
    n, degrees = sum(shape_of(slip[0])), [sum(shape_of(word >> 32)) for word in page[:slip[3]]]
    size = sum(abs(z) * factorial(d) for z, d in zip(column, degrees))
    return factorial(n) - size, most_steps(n) - sum(map(most_steps, degrees))


def met(r, n, tries):
    """A sound slip, page and column of degree n, where some hooks of a line and a cycle meet lines equal to them, which
    become 0, more or less; with that line and cycle, the one of most hooks in so many tries."""
    while True:
        degrees = [r.randint(2, max(2, n - 1)) for _ in range(tries)]
        found = [[r.choice(partitions(d)) for _ in range(2)] for d in degrees]
        shape, c = max(found, key=lambda pair: len(hooks(pair[0], min(pair[1]))))
        cycle, z = min(c) if tries > 1 else r.choice(c), r.choice([1, -1, 1, -1, 2, -3, r.randint(-9, 9)])
        rest = list(c)
        rest.remove(cycle)
        struck_word = line_word(1, shape_word(shape), class_word(c))
        waiting = {struck_word: z}
        for minus, left in hooks(shape, cycle):
            if left and r.randrange(2):
                own = -z if minus else z
                waiting[line_word(1, shape_word(left), class_word(rest))] = r.choice([-own, -own, own, 1, -own - 1])
        for _ in range(r.randint(0, 3)):
            m = r.randint(1, n)
            pair = shape_word(r.choice(partitions(m))), class_word(r.choice(partitions(m)))
            waiting.setdefault(line_word(1, *pair), r.choice([1, -1, 2]))
        words = r.sample(list(waiting), len(waiting))
        column = [waiting[word] for word in words]
        slip = shape_word(r.choice(partitions(n))), class_word(r.choice(partitions(n))), 0, len(words), 0, 1
        if gathering.sound(slip, words, column):
            break
    size, span = room_left(slip, words, column)
    slip = *slip[:2], r.choice([0, size, -size, r.randint(-size, size)]), len(words), r.choice([0, span]), 1
    room = len(words) + r.choice([0, 0, 1, 2])
    return slip, resized(words, room), resized(column, room), words.index(struck_word), cycle


def spoilt_gathered(r, slip, page, column):
    """A slip, a page and a column with one thing changed, sound or not."""
    s, c, settled, lines, steps, mode = slip
    n, page, column, i = sum(shape_of(s)), list(page), list(column), r.randrange(max(1, lines))
    (size, span), way = room_left(slip, page, column), r.randrange(17)
    t, u = divmod(page[i], 2**32)
    if way == 0:
        mode = r.choice([0, 0, 2, 2**32 - 1])
    elif way == 1:
        settled = r.choice([1, -1]) * (size + r.randint(-1, 1))
    elif way == 2:
        steps = r.choice([-1, span, span + 1])
    elif way == 3:
        lines = max(0, lines + r.choice([1, -1]))
    elif way == 4:
        page[i] ^= 1 << r.choice([63, 63, 62, r.randrange(64)])
    elif way == 5:
        page[i] = line_word(1, in_front(t, r.randint(1, 14)), u)
    elif way == 6:
        column[i] = r.choice([0, 0, -column[i], LEAST, MOST, LEAST + 1])
    elif way in (7, 8):
        d = sum(shape_of(t))
        fit = abs(column[i]) + (size - abs(settled)) // factorial(d)
        column[i] = r.choice([1, -1]) * r.choice([fit, fit + 1])
    elif way == 9:
        column[r.randrange(len(column))] = r.choice([0, 1, -1, LEAST])
    elif way in (10, 16):
        low = min(range(max(1, lines)), key=lambda place: sum(shape_of(page[place] >> 32)))
        page[r.choice([place for place in range(lines) if place != low] or [low])] = page[low]
    elif way == 11:
        m = r.randint(1, n + 1)
        page[i] = line_word(1, shape_word(r.choice(partitions(m))), class_word(r.choice(partitions(m))))
    elif way == 12:
        s = r.choice([in_front(s, r.randint(1, 14)), shape_word(r.choice(partitions(r.randint(0, n + 1))))])
    elif way == 13:
        c = r.choice([c ^ 1 << r.randrange(32), class_word(r.choice(partitions(r.randint(0, n + 1))))])
    elif way == 14:
        column = resized(column, len(column) + r.choice([1, -1, -1, 3]))
    else:
        page = page[:r.randrange(len(page) + 1)]
        column = r.choice([column, column[:len(page)]])
    return (s, c, settled, lines, steps, mode), page, column


def some_gathered_away(n, seed):
    """Gathered slips of degree n and waiting lines that a text can hold: of random sessions, and at random, sound or
    not."""
    r = random.Random('%s %s gathered away' % (seed, n))
    for slip, page, column, _, _ in some_gathered(n, seed):
        if gathering.session_refusal(slip, page, column) == 0 and r.randrange(4) == 0:
            yield slip, gathering.waiting_lines(slip, page, column)
    for slip, lines in some_put_away(n, seed):
        weights = [r.choice([1, -3, 12, 0, -1, LEAST, MOST, r.randint(-99, 99)]) for _ in lines]
        if r.randrange(2):
            yield (*slip[:5], 1), [(z, *words) for z, (_, *words) in zip(weights, lines)]


def some_gathered_texts(n, seed):
    """Their texts, these damaged, and texts of the plain mode."""
    r = random.Random('%s %s gathered texts' % (seed, n))
    for slip, lines in some_gathered_away(n, seed):
        text = put_away(slip, lines)
        yield text
        yield from r.sample(list(damaged(r, text)), 3)
    for slip, lines in list(some_put_away(n, seed))[-2:]:
        yield put_away(slip, lines)


# ---- notions: each yields expressions over the definitions, their values, and how many values that is, if not one
NOTIONS = []


def notion(function=None, each=40, least=0, most=99):
    """Marks a notion, a function of a degree and a seed. It has `each` pairs in an equation, and is asked up to the
    degree of the run, but at least up to `least` and at most up to `most`."""
    if function is None:
        return lambda f: notion(f, each, least, most)
    function.each, function.least, function.most = each, least, most
    NOTIONS.append(function)
    return function


@notion(least=LIMIT)
def listing(n, seed):
    """All partitions of n, in order."""
    yield 'listing %d' % n, items([nats(p) for p in partitions(n)])


@notion(least=LIMIT)
def sections(n, seed):
    """Where the words of a degree start among all words, degree by degree, and how many they are."""
    start = sum(len(partitions(d)) for d in range(n))
    yield call('section_of', nat(n)), 'section_answer 0 %d %d' % (start, len(partitions(n)))
    yield call('section_of', nat(17 + n)), 'section_answer 12 0 0'


@notion(least=LIMIT)
def partition_rank(n, seed):
    """Ranks."""
    for rank, p in enumerate(partitions(n)):
        yield 'rank ' + nats(p), nat(rank)


@notion(least=LIMIT)
def shape_words(n, seed):
    """Shape words of shapes, and of their conjugates; and these shapes as old words."""
    for p in partitions(n):
        yield 'shape_word ' + nats(p), nat(shape_word(p))
        yield 'conjugate_word ' + nat(shape_word(p)), nat(shape_word(transposed(p)))
        yield 'old_word ' + nat(shape_word(p)), nat(class_word(p))


@notion(least=LIMIT)
def shapes_read(n, seed):
    """Shapes of shape words; rows and columns interchanged."""
    for p in partitions(n):
        yield 'shape_of ' + nat(shape_word(p)), nats(p)
        yield 'transposed ' + nats(p), nats(transposed(p))


@notion(least=LIMIT)
def good_words(n, seed):
    """Good words of shape words with ones in front, and how many these are."""
    r = random.Random('%s %s good words' % (seed, n))
    for p in partitions(n):
        good, room = shape_word(p), room_in_front(shape_word(p))
        for ones in sorted({0, 1, r.randint(1, room), room}):
            yield 'good_word ' + nat(in_front(good, ones)), nat(good)
            yield 'dropped ' + nat(in_front(good, ones)), nat(ones)


@notion(least=LIMIT)
def good_answers(n, seed):
    """The call that answers both."""
    r = random.Random('%s %s good answers' % (seed, n))
    for p in partitions(n):
        good = shape_word(p)
        ones = r.randint(0, room_in_front(good))
        yield call('good_shape_word', nat(in_front(good, ones))), good_answer(0, good, ones)


@notion(most=0)
def any_good_words(n, seed):
    """The same words and counts at the borders and at random."""
    for w in some_words(seed, 200):
        if w < 2**31:
            yield 'good_word ' + nat(w), nat(good_word(w))
            yield 'dropped ' + nat(w), nat(dropped(w))


@notion(most=0)
def any_good_answers(n, seed):
    """And the call."""
    for w in some_words(seed, 200):
        yield call('good_shape_word', nat(w)), good_answer(shape_refusal(w), good_word(w), dropped(w))


def good_answer(k, word, ones):
    """A good word and how many ones were dropped, or a refusal."""
    return 'good_answer %d %s %d' % ((k, '0', 0) if k else (0, nat(word), ones))


@notion(least=LIMIT)
def class_words(n, seed):
    """Class words of classes; and the new words of these, as the old words of shapes."""
    for p in partitions(n):
        yield 'class_word ' + nats(p), nat(class_word(p))
        yield 'new_word ' + nat(class_word(p)), nat(shape_word(p))


@notion(least=LIMIT)
def classes_read(n, seed):
    """Classes of class words."""
    for p in partitions(n):
        yield 'class_of ' + nat(class_word(p)), nats(p)


@notion(least=LIMIT)
def class_sizes(n, seed):
    """Sizes of classes, and periods as `period-computed` says they are; n!, S(n), the number of partitions."""
    yield 'factorial %d' % n, nat(factorial(n))
    yield 'get_or partition_counts %d 0' % n, nat(len(partitions(n)))
    yield 'S %d' % n, nat(most_steps(n))
    for p in partitions(n):
        yield 'class_size ' + nats(p), nat(class_size(p))
        yield 'period_from 1 ' + nats(p), nat(period(p))


@notion(least=LIMIT)
def class_signs(n, seed):
    """Signs of classes: that of a permutation of this class."""
    for p in partitions(n):
        yield 'class_sign ' + nats(p), integer((-1)**(n - len(p)))


@notion
def character_degrees(n, seed):
    """Character degrees."""
    for p in partitions(n):
        yield 'character_degree ' + nats(p), integer(character(p, (1,) * n))


@notion(least=LIMIT)
def quotients(n, seed):
    """Frobenius's quotients: the characters on (1^n)."""
    for p in partitions(n):
        yield 'frobenius ' + nats(p), nat(character(p, (1,) * n))


@notion(least=LIMIT)
def l_numbers(n, seed):
    """The l of a shape: the cells of the hook of the first cell of each row; and their differences."""
    for p in partitions(n):
        column = range(len(p))
        ls = [len({(i, j) for j in range(p[i])} | {(k, 0) for k in column if k > i}) for i in column]
        yield 'l_numbers ' + nats(p), nats(ls)
        yield 'differences ' + nats(ls), nats([ls[i] - ls[k] for i in column for k in column if k > i])


@notion(each=20, least=LIMIT)
def far_characters(n, seed):
    """Characters of degrees above those whose whole table is asked: random shapes on random classes of few cycles."""
    r = random.Random('%s %s far' % (seed, n))
    few = [c for c in partitions(n) if len(c) <= 4]
    for _ in range(20 if n >= 8 else 0):
        p, c = r.choice(partitions(n)), r.choice(few)
        yield '%s on %s' % (nats(p), nats(c)), integer(character(p, c))


@notion(each=1, most=10)
def columns(n, seed):
    """The character table, column by column: what the rules of 1954 give. (1^11) is past the checker's step limit."""
    for c in partitions(n):
        values = [integer(character(p, c)) for p in partitions(n)]
        yield 'column ' + nats(c), items(values), len(values)


@notion(least=LIMIT)
def hook_words(n, seed):
    """The hooks of every length, with their signs, in order, and the words that they leave."""
    for p in partitions(n):
        for h in range(n + 2):
            left = ['hook %s %s' % (truth(minus), nat(shape_word(q))) for minus, q in hooks(p, h)]
            yield 'hook_words %d %s' % (h, nat(shape_word(p))), items(left), max(1, len(left))


@notion(most=0)
def refused_words(n, seed):
    """Refusals of words, as shapes, as shapes that have to be good words, and as classes."""
    for w in some_words(seed, 200):
        yield 'first_of (%s)' % call('shape_checks', nat(w)), nat(shape_refusal(w))
        yield 'first_of (%s)' % call('good_shape_checks', nat(w)), nat(good_shape_refusal(w))
        yield 'first_of (%s)' % call('class_checks', nat(w)), nat(class_refusal(w))


@notion(most=0)
def refused_pairs(n, seed):
    """Refusals of pairs of words."""
    r, words = random.Random(seed), some_words(seed, 200)
    for _ in range(200):
        m = r.randint(0, 18)
        good = some_in_front(r, shape_word(r.choice(partitions(m)))), class_word(r.choice(partitions(m)))
        s, c = (r.choice([word, word, r.choice(words)]) for word in good)
        yield 'first_of (%s)' % call('pair_checks', nat(s), nat(c)), nat(pair_refusal(s, c))


@notion(most=0)
def refused_lists(n, seed):
    """Refusals of part lists."""
    for ps in some_lists(seed, 60):
        yield 'first_of (%s)' % call('shape_list_checks', nats(ps)), nat(list_refusal(ps, 2))
        yield 'first_of (%s)' % call('class_list_checks', nats(ps)), nat(list_refusal(ps, 4))


@notion(most=0)
def words_answered(n, seed):
    """The calls that answer a word: from a part list, from a degree and a rank, of a conjugate."""
    for ps in some_lists(seed, 40):
        for name, large, word in (('shape_word_from', 2, shape_word), ('class_word_from', 4, class_word)):
            k = list_refusal(ps, large)
            yield call(name, nats(ps)), 'word_answer %d %s' % (k, nat(0 if k else word(ps)))
    for w in some_words(seed, 60):
        k = shape_refusal(w)
        word = 0 if k else shape_word(transposed(shape_of(w)))
        yield call('conjugate_shape', nat(w)), 'word_answer %d %s' % (k, nat(word))


@notion(most=7)
def words_listed(n, seed):
    """The calls that answer the word of a degree and a rank, up to past the end."""
    for rank in range(len(partitions(n)) + 2):
        for name, word in (('shape_at', shape_word), ('class_at', class_word)):
            k = first_of((rank >= len(partitions(n)), 11))
            yield call(name, nat(n), nat(rank)), 'word_answer %d %s' % (k, nat(0 if k else word(partitions(n)[rank])))
    for name in ('shape_at', 'class_at'):
        yield call(name, nat(17 + n), '0'), 'word_answer 12 0'


@notion(most=0)
def numbers_answered(n, seed):
    """The calls that answer a number of one word."""
    for w in some_words(seed, 60):
        k, m = shape_refusal(w), class_refusal(w)
        shape, c = shape_of(w), class_of(w)
        yield call('shape_degree', nat(w)), number_answer(k, sum(shape))
        yield call('class_degree', nat(w)), number_answer(m, sum(c))
        yield call('sign_of_class', nat(w)), number_answer(m, (-1)**(sum(c) - len(c)))
        yield call('size_of_class', nat(w)), number_answer(m, 0 if m else class_size(c))
        yield period_told(w), number_answer(m, period(c))


def period_told(w):
    """The answer of which `period-told` says that it is promised."""
    return 'numbered (class_checks degree_limit %s) (pos (period_from 1 (class_of %s)))' % (nat(w), nat(w))


def number_answer(k, z):
    """A number that is answered, or a refusal."""
    return 'number_answer %d %s' % (k, integer(0 if k else z))


@notion
def ranks_answered(n, seed):
    """The calls that answer the rank of a word, some shape words with ones in front."""
    r = random.Random('%s %s ranks' % (seed, n))
    for rank, p in enumerate(partitions(n)):
        yield call('shape_rank', nat(some_in_front(r, shape_word(p)))), number_answer(0, rank)
        yield call('class_rank', nat(class_word(p))), number_answer(0, rank)


@notion(each=10, most=7)
def characters_answered(n, seed):
    """The calls that answer a character, and a character degree: of shape words, some with ones in front, on classes,
    some of another degree."""
    r = random.Random(seed)
    for p in partitions(n):
        s, c = some_in_front(r, shape_word(p)), class_word(r.choice(partitions(r.choice([n, n, n + 1]))))
        k = pair_refusal(s, c)
        yield call('character_of', nat(s), nat(c)), number_answer(k, 0 if k else character(p, class_of(c)))
        yield call('shape_character_degree', nat(s)), number_answer(0, character(p, (1,) * n))


@notion
def parts_written(n, seed):
    """The calls that write parts at the front of a lent column: too short, exact, and longer. Some shape words have
    ones in front."""
    r = random.Random('%s %s parts' % (seed, n))
    for p in partitions(n):
        for name, word in (('shape_parts_into', some_in_front(r, shape_word(p))), ('class_parts_into', class_word(p))):
            for room in {max(0, len(p) - 1), len(p), len(p) + 2}:
                column = [7] * room
                k = 14 if room < len(p) else 0
                left = column if k else list(p) + column[len(p):]
                yield (call(name, nat(word), nats(column)), 'counted %d %d %s' % (k, 0 if k else len(p), nats(left)))


@notion(each=10)
def lists_moved(n, seed):
    """Lists of shapes moved from the old form and to it: of partitions of n and others, with no bad word, one or more,
    in runs of their length and of another; at degree 0 the longest list and one word more too."""
    r, words = random.Random('%s %s' % (seed, n)), some_words(seed, 120)
    long = (LIST, LIST + 1)
    cases = [([0] * count, [7] * room) for count in long for room in long] if n == 0 else []
    for name, pack, read, refusal, packed in (('shapes_from_old', class_word, class_of, class_refusal, shape_word),
                                              ('shapes_to_old', shape_word, shape_of, good_shape_refusal, class_word)):
        made = []
        for _ in range(40):
            given = [pack(r.choice(partitions(r.choice([n, n, r.randint(0, LIMIT)])))) for _ in range(r.randint(0, 7))]
            for _ in range(r.choice([0, 0, 1, 2]) if given else 0):
                given[r.randrange(len(given))] = r.choice(words)
            room = max(0, len(given) + r.choice([0, 0, 0, 0, 0, 1, -1]))
            made.append((given, [r.getrandbits(32) for _ in range(room)]))
        for given, lent in cases + made:
            bad = next(((refusal(w), i) for i, w in enumerate(given) if refusal(w)), (0, 0))
            k, i = (20, 0) if len(given) != len(lent) or len(given) > LIST else bad
            left = lent if k else [packed(read(w)) for w in given]
            yield call(name, nats(given), nats(lent)), 'listed %d %d %s' % (k, i, nats(left))


@notion(each=1, most=6)
def columns_written(n, seed):
    """The call that writes a column: too short, and longer."""
    for c in partitions(n):
        values = [character(p, c) for p in partitions(n)]
        for room in (len(values) - 1, len(values) + 1):
            k, column = (14 if room < len(values) else 0), [-7] * room
            left = column if k else values + column[len(values):]
            yield (call('column_into', nat(class_word(c)), items(map(integer, column))),
                   'filled %d %d %s' % (k, 0 if k else len(values), items(map(integer, left))))


@notion(each=10, least=LIMIT)
def openings(n, seed):
    """Openings on pages of 0 to 2 words: of every shape, at times with ones in front, on some classes, at times of
    another degree."""
    r = random.Random('%s %s' % (seed, n))
    for p in partitions(n):
        s, c = some_in_front(r, shape_word(p)), class_word(r.choice(partitions(r.choice([n, n, n, n + 1]))))
        page = [r.getrandbits(64) for _ in range(r.randint(0, 2))]
        yield call('opening', nat(s), nat(c), nats(page)), left_text(opened(s, c, page))


@notion(each=10, most=0)
def openings_refused(n, seed):
    """Openings of words at the borders and at random; on pages of 4,096 and 4,097 words."""
    r, words = random.Random(seed), some_words(seed, 60)
    for s in words:
        c = r.choice(words)
        yield call('opening', nat(s), nat(c), nats([7, 7])), left_text(opened(s, c, [7, 7]))
    for room in (PAGE, PAGE + 1):
        for p in ((), (2, 1)):
            s, c, page = shape_word(p), class_word(p), [7] * room
            yield call('opening', nat(s), nat(c), nats(page)), left_text(opened(s, c, page))


def some_strikes(n, seed, r):
    """Named lines and cycles on slips and pages of random sessions, and on spoilt ones: every cycle and none, lines
    past the end."""
    for slip, page in some_sessions(n, seed):
        i = r.choice([r.randint(0, max(0, slip[3] - 1)), r.randint(0, slip[3])])
        cycles = class_of(line(page[i])[2]) if i < len(page) else ()
        for cycle in {r.choice(cycles or (1,)), r.randint(0, n)}:
            yield slip, page, i, cycle


@notion(each=4, least=LIMIT)
def previews(n, seed):
    """Previews on strips of all lengths up to three words more than they need."""
    r = random.Random('%s %s previews' % (seed, n))
    for slip, page, i, cycle in some_strikes(n, seed, r):
        strip = [r.getrandbits(64) for _ in range(r.randint(0, len(struck(slip, page, i, cycle)[1]) + 3))]
        k, count, left = previewed(slip, page, i, cycle, strip)
        text = call('preview', slip_text(slip), nats(page), nat(i), nat(cycle), nats(strip))
        yield text, 'counted %d %d %s' % (k, count, nats(left))


@notion(each=4, least=LIMIT)
def commits(n, seed):
    """Commits with the preview's strip, and with one that is longer, shorter, changed in a word or turned round."""
    r = random.Random('%s %s commits' % (seed, n))
    for slip, page, i, cycle in some_strikes(n, seed, r):
        new = struck(slip, page, i, cycle)[1]
        changed = [w ^ 1 << r.randrange(64) if place == 0 else w for place, w in enumerate(new)]
        for strip in r.sample([new, new, new + [r.getrandbits(64)], new[:-1], changed, new[::-1]], 2):
            text = call('commit', slip_text(slip), nats(page), nat(i), nat(cycle), nats(strip))
            yield text, left_text(committed(slip, page, i, cycle, strip))


@notion(each=4)
def watches(n, seed):
    """Watches of slips and pages of random sessions, and of spoilt ones: every kind, 0 and 6, lines past the end."""
    r = random.Random('%s %s watches' % (seed, n))
    for slip, page in some_sessions(n, seed):
        for kind in r.sample(range(7), 3):
            i = r.choice([r.randint(0, max(0, slip[3] - 1)), r.randint(0, slip[3])])
            k, value = watched(slip, page, kind, i)
            yield call('watch', slip_text(slip), nats(page), nat(kind), nat(i)), value_text(k, value, kind)


@notion(each=5, least=LIMIT)
def texts_written(n, seed):
    """The texts of slips and waiting lines, byte by byte."""
    for slip, lines in some_put_away(n, seed):
        yield 'session_text %s %s' % (slip_text(slip), lines_text(lines)), bytes_text(put_away(slip, lines))


@notion(each=10, least=LIMIT)
def faults(n, seed):
    """The first lines at fault of such texts, and of damaged ones."""
    for text in some_texts(n, seed):
        yield call('fault', bytes_text(text)), nat(taken_up(text)[0])


@notion(each=20, most=0)
def faults_by_hand(n, seed):
    """The first lines at fault as the issue of P1 has them, rule by rule."""
    for text, k in by_hand():
        assert k == taken_up(text)[0], text
        yield call('fault', bytes_text(text)), nat(k)


@notion(each=5, least=LIMIT)
def texts_read(n, seed):
    """The slip and the waiting lines of those that have no fault."""
    for text in some_texts(n, seed) if n else [*some_texts(n, seed), *(text for text, _ in by_hand())]:
        at_fault, slip, lines = taken_up(text)
        if not at_fault:
            asked = 'put (slip_in %s) (lines_in %s)' % (bytes_text(text), bytes_text(text))
            yield asked, 'put %s %s' % (slip_text(slip), lines_text(lines)), 2


@notion(each=2, least=LIMIT)
def saves(n, seed):
    """Saves of random sessions, and of spoilt ones: into too few bytes, just enough, and more."""
    r = random.Random('%s %s saves' % (seed, n))
    for slip, page in some_sessions(n, seed):
        if len(page) >= PAGE or r.randrange(8) == 0:
            out = [7] * max(0, saved(slip, page, [7] * 999)[1] + r.choice([-1, 0, 0, 3]))
            k, length, left = saved(slip, page, out)
            asked = call('save_into', slip_text(slip), nats(page), nats(out))
            yield asked, 'counted %d %d %s' % (k, length, nats(left))


@notion(each=2, least=LIMIT)
def loads(n, seed):
    """Loads of texts, and of damaged ones: onto pages too short, just long enough, longer; 4,096 and 4,097 words."""
    r = random.Random('%s %s loads' % (seed, n))
    for slip, lines in some_put_away(n, seed):
        good = put_away(slip, lines)
        for text in (good, r.choice(list(damaged(r, good)))):
            rooms = [max(0, len(lines) + r.choice([-1, 0, 0, 2]))] + [PAGE, PAGE + 1] * (n == 3 and not lines)
            for page in ([7] * room for room in rooms):
                k, at_fault, left, words = loaded(text, page)
                asked = call('load_into', bytes_text(text), nats(page))
                yield asked, 'taken (loaded %d %d %s) %s' % (k, at_fault, slip_text(left), nats(words))


# ---- the gathered mode
def some_entries(r, n):
    """Lines with coefficients, some of them equal, and some of 0."""
    for _ in range(24):
        words = [(shape_word(r.choice(partitions(n))), class_word(r.choice(partitions(n)))) for _ in range(3)]
        words += [(words[0][0], words[1][1]), (words[1][0], words[0][1])]
        weights = [1, -1, 2, -2, 3, r.randint(-99, 99), LEAST, MOST, 0]
        yield tuple([(r.choice(weights[:r.choice([4, 9])]), *r.choice(words)) for _ in range(r.randint(0, most))]
                    for most in (5, 5))


@notion(each=12, most=6)
def gathers(n, seed):
    """Lines, and hook lines that come to them: joined to the earliest, those of 0 out."""
    r = random.Random('%s %s gathers' % (seed, n))
    for lines, new in some_entries(r, n):
        yield 'gather %s %s' % (entries_text(lines), entries_text(new)), entries_text(gathering.gather(lines, new))


@notion(most=6)
def gathered_told(n, seed):
    """Whether no two lines are equal, and whether no coefficient is 0 besides; whether two lines are equal."""
    r = random.Random('%s %s gathered told' % (seed, n))
    for lines, new in some_entries(r, n):
        for some in (lines, gathering.gather(lines, new), gathering.gather([], new)):
            differ = len({tuple(words) for _, *words in some}) == len(some)
            yield 'distinct ' + entries_text(some), truth(differ)
            yield 'gathered ' + entries_text(some), truth(differ and all(z for z, *_ in some))
        for l, m in zip(lines, new):
            yield 'alike (%s) (%s)' % tuple(entries_text([x])[1:-6] for x in (l, m)), truth(l[1:] == m[1:])


@notion(each=12, most=6)
def coefficients(n, seed):
    """What the lines equal to one of them weigh together, before and after others come to them."""
    r = random.Random('%s %s coefficients' % (seed, n))
    for lines, new in some_entries(r, n):
        for some in (lines, lines + new, gathering.gather(lines, new)):
            one = r.choice(lines + new + [(1, 2**29, 2**30)])
            of = 'coefficient (%s) %s' % (entries_text([one])[1:-6], entries_text(some))
            yield of, integer(sum(z for z, *words in some if tuple(words) == one[1:]))


@notion(each=8, most=8)
def gathered_sound(n, seed):
    """Whether a slip, a page and a column are sound, of random sessions, made up ones, and spoilt ones."""
    for slip, page, column, _, _ in some_gathered(n, seed):
        if len(page) == len(column):
            asked = gathered_call('sound_in', slip_text(slip), lent_text(page, column))
            yield asked, truth(gathering.sound(slip, page, column))


@notion(each=8, most=7)
def gathered_refused(n, seed):
    """6, 21, 7 of these, of columns of other lengths, and of pages of 4,096 and 4,097 words."""
    r = random.Random('%s %s gathered refused' % (seed, n))
    cases = [case[:3] for case in some_gathered(n, seed)]
    if n == 3:
        slip = gathering.opened(shape_word((2, 1)), class_word((2, 1)), [7], [7])[1]
        page, column = [line_word(1, *slip[:2])] + [0] * PAGE, [1] + [0] * 3
        cases += [((0, 0, 1, 0, 0, 1), [0] * room, [0] * other)
                  for room in (PAGE, PAGE + 1) for other in (PAGE, PAGE + 1)]
        cases += [(slip, page[:room], column[:room - 1 + r.choice([0, 1, 2])]) for room in (1, 2, 3)]
    for slip, page, column in cases:
        asked = gathered_call('page_checks_in', slip_text(slip), lent_text(page, column))
        yield 'first_of (%s)' % asked, nat(gathering.session_refusal(slip, page, column))


@notion(each=8, most=8)
def gathered_openings(n, seed):
    """Gathered openings of every shape, at times with ones in front, on some classes, at times of another degree: on
    pages of 0 to 2 words and columns mostly as long; at degree 0 of words at the borders too, and on long pages."""
    r = random.Random('%s %s gathered openings' % (seed, n))
    cases = []
    for p in partitions(n):
        s, c = some_in_front(r, shape_word(p)), class_word(r.choice(partitions(r.choice([n, n, n, n + 1]))))
        room = r.randint(0, 2)
        cases.append((s, c, room, max(0, room + r.choice([0, 0, 0, 1, -1]))))
    if n == 0:
        words = some_words(seed, 60)
        cases += [(s, r.choice(words), 2, r.choice([2, 3])) for s in words]
        cases += [(0, 0, room, other) for room in (PAGE, PAGE + 1) for other in (PAGE, PAGE + 1)]
    for s, c, room, other in cases:
        page, column = [7] * room, [0 if other >= PAGE else -7] * other
        asked = gathered_call('opening_in', nat(s), nat(c), lent_text(page, column))
        yield asked, both_left_text(gathering.opened(s, c, page, column))


@notion(each=8, most=8)
def gathered_previews(n, seed):
    """Gathered previews, with the hooks' own signs, on strips of all lengths up to two words more than they need."""
    r = random.Random('%s %s gathered previews' % (seed, n))
    for slip, page, column, i, cycle in some_gathered(n, seed):
        need = len(gathering.struck(slip, page, column, i, cycle)[1])
        strip = [r.getrandbits(64) for _ in range(r.randint(max(0, need - 1), need + 2))]
        k, count, left = gathering.previewed(slip, page, column, i, cycle, strip)
        asked = gathered_call('preview_in', slip_text(slip), lent_text(page, column), nat(i), nat(cycle), nats(strip))
        yield asked, 'counted %d %d %s' % (k, count, nats(left))


@notion(each=8, most=8)
def gathered_commits(n, seed):
    """Gathered commits: on pages as they are, and just as long as the lines need before and after, or one word less;
    with the preview's strip, and with one that has the coefficient's sign, no signs, or is otherwise another."""
    r = random.Random('%s %s gathered commits' % (seed, n))
    for slip, page, column, i, cycle in some_gathered(n, seed):
        k, found = gathering.struck(slip, page, column, i, cycle)
        new = gathering.strip_of(found)
        cases = [(page, column, new)]
        if k == 0:
            need = len(gathering.step_taken(slip, page, column, i, found)[0])
            for room in {max(slip[3], need), max(slip[3], need - 1)}:
                cases.append((resized(page, room), resized(column, room), new))
            turned, bare = [w ^ 2**63 for w in new], [w % 2**63 for w in new]
            given = turned if column[i] < 0 else bare
            strips = [given, given, new[:-1], new[::-1], new + [7]]
            cases.append((page, resized(column, len(page) + r.choice([0, 0, 0, 1, -1])), r.choice(strips)))
        for some, beside, strip in cases:
            asked = gathered_call('commit_in', slip_text(slip), lent_text(some, beside), nat(i), nat(cycle), nats(strip))
            yield asked, both_left_text(gathering.committed(slip, some, beside, i, cycle, strip))


@notion(each=4, most=0)
def gathered_twos(n, seed):
    """Gathered commits on (2^8), on a page as long as the step needs: some shapes, struck at random to the end."""
    r = random.Random('%s %s twos' % (seed, n))
    for shape in ((4, 4, 4, 4), (6, 4, 4, 2), (5, 4, 3, 2, 1, 1), (16,)):
        k, slip, page, column = gathering.opened(shape_word(shape), class_word((2,) * 8), [7], [7])
        while slip[3]:
            i = r.choice([0, 0, r.randrange(slip[3])])
            found = gathering.struck(slip, page, column, i, 2)[1]
            room = max(slip[3], len(gathering.step_taken(slip, page, column, i, found)[0]))
            page, column, strip = resized(page, room), resized(column, room), gathering.strip_of(found)
            asked = gathered_call('commit_in', slip_text(slip), lent_text(page, column), nat(i), '2', nats(strip))
            answer = gathering.committed(slip, page, column, i, 2, strip)
            yield asked, both_left_text(answer)
            k, slip, page, column = answer
        assert slip[2] == character(shape, (2,) * 8), shape


@notion(each=8, most=7)
def gathered_watches(n, seed):
    """Gathered watches: every kind, 0 and 6, lines past the end."""
    r = random.Random('%s %s gathered watches' % (seed, n))
    for slip, page, column, i, _ in some_gathered(n, seed):
        for kind in {r.choice([1, 2, 4]), r.randrange(7)}:
            i = r.choice([i, i, r.randint(0, slip[3])])
            k, value = gathering.watched(slip, page, column, kind, i)
            asked = gathered_call('watch_in', slip_text(slip), lent_text(page, column), nat(kind), nat(i))
            yield asked, value_text(k, value, kind)


@notion(each=5, most=7)
def gathered_written(n, seed):
    """The texts of gathered slips and waiting lines, byte by byte."""
    for slip, lines in some_gathered_away(n, seed):
        asked = 'session_text_by gathered_form %s %s' % (slip_text(slip), entries_text(lines))
        yield asked, bytes_text(put_away(slip, lines))


@notion(each=10, most=7)
def gathered_faults(n, seed):
    """The first lines at fault of such texts, of damaged ones, and of plain ones; and of some by the plain mode."""
    for place, text in enumerate(some_gathered_texts(n, seed)):
        yield gathered_call('fault_by', bytes_text(text)), nat(taken_up(text, 1)[0])
        if place % 8 == 0:
            yield call('fault', bytes_text(text)), nat(taken_up(text)[0])


@notion(each=20, most=0)
def gathered_by_rules(n, seed):
    """The first lines at fault as the issue of P7 has them, rule by rule."""
    for text, k in gathered_by_hand():
        assert k == taken_up(text, 1)[0], text
        yield gathered_call('fault_by', bytes_text(text)), nat(k)


@notion(each=5, most=7)
def gathered_read(n, seed):
    """The slip and the waiting lines of those that have no fault."""
    for text in [*some_gathered_texts(n, seed), *(text for text, _ in gathered_by_hand() if n == 0)]:
        at_fault, slip, lines = taken_up(text, 1)
        if not at_fault:
            asked = 'put (slip_by gathered_form %s) (lines_by gathered_form %s)' % (bytes_text(text), bytes_text(text))
            yield asked, 'put %s %s' % (slip_text(slip), entries_text(lines)), 2


@notion(each=4, most=7)
def gathered_saves(n, seed):
    """Gathered saves: into too few bytes, just enough, and more."""
    r = random.Random('%s %s gathered saves' % (seed, n))
    for slip, page, column, _, _ in some_gathered(n, seed):
        if r.randrange(4) == 0:
            out = [7] * max(0, gathering.saved(slip, page, column, [7] * 999)[1] + r.choice([-1, 0, 0, 3]))
            k, length, left = gathering.saved(slip, page, column, out)
            asked = gathered_call('save_by', slip_text(slip), lent_text(page, column), nats(out))
            yield asked, 'counted %d %d %s' % (k, length, nats(left))


@notion(each=4, most=7)
def gathered_loads(n, seed):
    """Gathered loads of texts, of damaged ones, and of such as have no sound lines: onto pages too short, just long
    enough, longer; columns mostly as long; 4,096 and 4,097 words."""
    r = random.Random('%s %s gathered loads' % (seed, n))
    cases = []
    for slip, lines in some_gathered_away(n, seed):
        good = put_away(slip, lines)
        for text in (good, r.choice(list(damaged(r, good)))):
            room = max(0, len(lines) + r.choice([-1, 0, 0, 2]))
            cases.append((text, room, max(0, room + r.choice([0] * 10 + [1, -1]))))
        if lines and n:
            twice = put_away((*slip[:3], 2, *slip[4:]), [lines[0]] * 2)
            none = put_away((*slip[:3], 1, *slip[4:]), [(0, *lines[0][1:])])
            cases.append((r.choice([twice, none]), 2, 2))
    if n == 0:
        none = put_away((0, 0, 1, 0, 0, 1), [])
        cases += [(none, room, other) for room in (PAGE, PAGE + 1) for other in (PAGE, PAGE + 1)]
        cases += [(put_away((0, 0, 1, 0, 0, 0), []), 1, 1), (none, 1, 1), (none, 0, 0), (none, 0, 1)]
    for text, room, other in cases:
        page, column = [7] * room, [0 if other >= PAGE else -7] * other
        k, at_fault, left, words, weights = gathering.loaded(text, page, column)
        asked = gathered_call('load_by', bytes_text(text), lent_text(page, column))
        yield asked, 'resumed (loaded %d %d %s) %s' % (k, at_fault, slip_text(left), lent_text(words, weights))


# ---- the writing
CONSTRUCTORS = {
    'Rattle.theory.specs.Basics': 'Bool true false List [] ◌∷◌ ◌++◌ replicate get_or ℕ ℤ pos negsuc'.split(),
    'Rattle.theory.specs.Hooks': ['Hook'],
    'Rattle.theory.specs.ClassData.Periods': ['period_from'],  # of a file of laws, which `definitions` passes over
    'Rattle.words.specs.Answers': ['CountAnswer'],
    'Rattle.oldlists.specs.Lists': ['ListAnswer'],
    'Rattle.pages.specs.declared.Slip': ['Slip'],
    'Rattle.pages.specs.Line': ['Line'],
    'Rattle.sessions.specs.Opening': ['Handed'],
    'Rattle.sessiontext.specs.Calls': ['Loaded'],
    'Rattle.characters.specs.Watch': ['Value', 'whole', 'quotient', 'none'],
    'lib.Ieee': ['Float', 'fin'],
    'mathlib.Core.Path': ['◌≡◌', 'refl'],
}
LIBRARY = ['div', 'of_int']  # definitions of lib.Ieee that have to be unfolded
PASSED_OVER = ['Lib.antt', 'Private.antt', 'Examples.antt']
HIDDEN = [  # asked by no notion, and named as something else is
    ('textreading', 'step'), ('pages', 'left')]
OWN = """
abbrev hook : Bool → ℕ → Hook ℕ
hook minus left = record { minus = minus; leaves = left }

abbrev after : ℕ → Slip → List ℕ → Handed × List ℕ
after k slip page = (handed k slip, page)

abbrev saw : ℕ → Value → ℕ × Value
saw k value = (k, value)

abbrev counted : ℕ → ℕ → List ℕ → CountAnswer × List ℕ
counted k n column = (count_answer k n, column)

abbrev filled : ℕ → ℕ → List ℤ → CountAnswer × List ℤ
filled k n column = (count_answer k n, column)

abbrev listed : ℕ → ℕ → List ℕ → ListAnswer × List ℕ
listed k i list = (list_answer k i, list)

abbrev put : Slip → List Line → Slip × List Line
put slip lines = (slip, lines)

abbrev taken : Loaded → List ℕ → Loaded × List ℕ
taken answer page = (answer, page)

abbrev bearing : ℤ → ℕ → ℕ → Line
bearing z s c = record { weight = z; shape = s; class = c }

abbrev lent : List ℕ → List ℤ → List ℕ × List ℤ
lent page column = (page, column)

abbrev left : ℕ → Slip → List ℕ × List ℤ → Handed × (List ℕ × List ℤ)
left k slip x = (handed k slip, x)

abbrev resumed : Loaded → List ℕ × List ℤ → Loaded × (List ℕ × List ℤ)
resumed answer x = (answer, x)
"""


def equations(function, degree, seed):
    """The equations of a notion: a name, and the pairs that it compares, each with how many values it is."""
    for n in range(min(max(degree, function.least), function.most) + 1):
        pairs = [(pair + (1,))[:3] for pair in function(n, seed)]
        for i in range(0, len(pairs), function.each):
            yield '%s-%d-%d' % (function.__name__.replace('_', '-'), n, i), pairs[i:i + function.each]


def equation_text(name, pairs, shut):
    """An equation: the list of expressions is the list of values, by computation."""
    left, right = (items(['(%s)' % pair[side] for pair in pairs]) for side in (0, 1))
    return '\n%s :\n    %s\n    ≡ %s\nunfolding %s\n%s = refl\n' % (name, left, right, ' '.join(shut), name)


def definitions():
    """Every file of definitions as a module, with the names that it has; and the names that have to be unfolded."""
    names, shut = {place: list(own) for place, own in CONSTRUCTORS.items()}, []
    for crate in CRATES:
        for file in sorted(os.listdir('crates/%s/specs' % crate)):
            if file.endswith('.antt') and file not in PASSED_OVER:
                text = open('crates/%s/specs/%s' % (crate, file), encoding='utf8').read()
                found = re.findall(r'^ *(abbrev|unfoldable) pub (\S+) :', text, re.M)
                own = [name for _, name in found if (crate, name) not in HIDDEN]
                names.setdefault('Rattle.%s.specs.%s' % (crate, file[:-5]), []).extend(own)
                shut += [name for way, name in found if way == 'unfoldable']
    names['lib.Ieee'] += LIBRARY
    return names, shut + LIBRARY


def write(folder, file, text, how='w'):
    """Writes or appends a text."""
    os.makedirs(os.path.dirname('%s/%s' % (folder, file)), exist_ok=True)
    with open('%s/%s' % (folder, file), how, encoding='utf8') as out:
        out.write(text)


def module(notion_name):
    """The module of a notion's equations."""
    return ''.join(word.capitalize() for word in notion_name.split('_'))


def write_crate(folder, crate, modules):
    """A crate with no function, and a file of equations for each notion."""
    names, shut = definitions()
    for notion_name, made in modules.items():
        body = OWN + ''.join(equation_text(*equation, shut) for equation in made)
        words = set(re.split(r'[\s(),;{}]+', body))
        used = [(place, [name for name in own if words & {name, name.strip('◌')}]) for place, own in names.items()]
        uses = ['use %s.{%s}\n' % (place, ', '.join(own)) for place, own in used if own]
        write(folder, 'crates/%s/proofs/%s.antt' % (crate, module(notion_name)), ''.join(uses) + body)
    write(folder, 'crates/%s/proofs/Lib.antt' % crate, ''.join('mod %s\n' % module(name) for name in modules))
    write(folder, 'crates/%s/src/lib.rt' % crate, '// Nothing.\n\n#![tactic(auto)]\n')
    write(folder, 'crates.txt', '%s: %s\n' % (crate, ' '.join(CRATES)), 'a')


def copy_crates(folder):
    """The crates whose definitions are asked. What a checkout on this machine has proved of them, rt takes from there."""
    lines = [text for text in open('crates.txt', encoding='utf8') if text.split(':')[0] in CRATES + NO_SPECS]
    write(folder, 'crates.txt', ''.join(lines))
    for crate in CRATES + NO_SPECS:
        shutil.copytree('crates/' + crate, '%s/crates/%s' % (folder, crate),
                        ignore=shutil.ignore_patterns('out', 'must-fail'))


def check(folder, at_once):
    """Has rt prove the crates: whether all are proved, the equations whose sides differ (one past the checker's step
    limit is not told to differ), and what was said."""
    ran = subprocess.run(['rt', 'all', 'check', '--jobs', str(at_once)], cwd=folder, stdout=subprocess.PIPE,
                         stderr=subprocess.STDOUT)
    said = ran.stdout.decode()
    blocks = [text for text in re.split(r'(?m)^(?=\S)', said) if 'the two types' in text and 'step limit' not in text]
    refused = {m[1] for m in (re.match(r'\S+antt:\d+:\d+: error: `([^`]+)`: ', text) for text in blocks) if m}
    return ran.returncode == 0, refused, said


def spoilt_value(text, r):
    """The text of a value with one number or truth value in it changed."""
    place = r.choice(list(re.finditer(r'\b(0x[0-9A-F]+|\d+|true|false)\b', text)))
    new = {'true': 'false', 'false': 'true'}.get(place[0]) or str(int(place[0], 0) + r.choice([1, 1, 2, 10]))
    return text[:place.start()] + new + text[place.end():]


def wrong_equations(made, count, r):
    """Equations of one pair each, of a notion's, with one value changed."""
    pairs = [pair for _, pairs in made for pair in pairs if re.search(r'\d|true|false', pair[1])]
    for i, (left, right, _) in enumerate(r.sample(pairs, min(count, len(pairs)))):
        yield '%s-wrong-%d' % (made[0][0], i), [(left, spoilt_value(right, r), 1)]


def run(asked, folder):
    """Writes the equations, has them checked, and tells: whether all agree, and all that was changed was refused."""
    began, r, parts = time.time(), random.Random(asked.seed), min(4, os.cpu_count() or 1)
    right = {f.__name__: list(equations(f, asked.degree, asked.seed)) for f in NOTIONS
             if not asked.only or f.__name__ in asked.only.split(',')}
    wrong = {name: list(wrong_equations(made, asked.wrong, r)) for name, made in right.items()}
    copy_crates(folder)
    for i in range(parts):
        write_crate(folder, 'right_%d' % i, {name: made[i::parts] for name, made in right.items()})
    print('equations written, %.0f s' % (time.time() - began), flush=True)
    proved, refused, said = check(folder, parts)
    values = {name: sum(count for _, pairs in made for _, _, count in pairs) for name, made in right.items()}
    for name, made in right.items():
        print('%-20s %6d values of %4d equations' % (name, values[name], len(made)))
        print(''.join('    DIFFERS: %s\n' % equation for equation, _ in made if equation in refused), end='')
    changed = {equation for made in wrong.values() for equation, _ in made}
    if proved:
        write_crate(folder, 'wrong', wrong)
    caught = check(folder, parts)[1] & changed if proved else set()
    print('' if proved else said, end='')
    print(''.join('NOT REFUSED: %s\n' % equation for equation in sorted(changed - caught) if proved), end='')
    print('%s: %d values of %d equations; %d of %d changed values refused; %.0f s' % (
        'all agree' if proved else 'NOT ALL AGREE, or not checked', sum(values.values()), sum(map(len, right.values())),
        len(caught), len(changed), time.time() - began))
    return proved and bool(changed) and caught == changed


def main():
    """Reads the options, and runs in a folder that is removed unless it is to be kept."""
    options = argparse.ArgumentParser(description=__doc__.split('\n')[0])
    options.add_argument('--degree', type=int, default=10, help='characters and watches up to this degree (10)')
    options.add_argument('--only', help='some notions, by name, set apart by commas')
    options.add_argument('--seed', default='01', help='what random cases start from')
    options.add_argument('--wrong', type=int, default=4, help='how many values of each notion are changed (4)')
    options.add_argument('--keep', help='a folder that is not there yet, for the equations; it is left')
    asked = options.parse_args()
    kept = asked.keep and os.path.abspath(asked.keep)
    os.chdir(os.path.dirname(os.path.dirname(os.path.abspath(__file__))))
    with tempfile.TemporaryDirectory() as folder:
        return 0 if run(asked, kept or folder) else 1


if __name__ == '__main__':
    sys.exit(main())
