"""texts.py: the text of a session as document 02, P1 and P7, and their issues say it, without the definitions, for
values.py. A waiting line is a sign or, in the gathered mode, a coefficient, a shape word and a class word.

A text is read by patterns, and is never written again to be compared. Texts to be read are here too: damaged ones, and
ones by hand with the first line at fault beside each."""
import re

from model import LIMIT, PAGE, class_of, class_word, falls, first_of, line, line_word, shape_of, shape_word, sound

LEAST, MOST = -2**63, 2**63 - 1  # what a slip holds of steps and settled, and a column of a coefficient
WHOLE_NUMBER = '0|-?[1-9][0-9]*'


# ---- writing
def bytes_of(text):
    """The bytes of a text, which has a character for each."""
    return list(text.encode('latin1'))


def comma_list(parts):
    """Parts, set apart by commas."""
    return ','.join(map(str, parts))


def put_away(slip, lines):
    """The text of a slip and its waiting lines, in the mode that the slip says."""
    s, c, settled, _, steps, mode = slip
    fields = [('mode', 'gathered')] * mode + [
              ('degree', sum(shape_of(s))), ('shape', comma_list(shape_of(s))), ('class', comma_list(class_of(c))),
              ('steps', steps), ('settled', settled), ('lines', len(lines))]
    for weight, t, u in lines:
        sign = str(weight) if mode else {1: '+', -1: '-'}[weight]
        fields.append(('line', ';'.join([sign, comma_list(shape_of(t)), comma_list(class_of(u))])))
    return ''.join('%s=%s\n' % field for field in fields)


# ---- reading
def whole_in(row, name, least, most):
    """The number on a line of text of this name, or None: with no needless zero, and within bounds."""
    found = re.fullmatch('%s=(%s)\n' % (name, WHOLE_NUMBER), row)
    return int(found[1]) if found and least <= int(found[1]) <= most else None


def partition_in(text):
    """The partition of 0 to 16 whose parts are set apart by commas, or None."""
    if not re.fullmatch('([1-9][0-9]*(,[1-9][0-9]*)*)?', text):
        return None
    parts = tuple(int(part) for part in text.split(',') if part)
    return parts if falls(parts) and sum(parts) <= LIMIT else None


def named_in(row, name):
    """The partition on a line of text of this name, or None."""
    found = re.fullmatch(name + '=(.*)\n', row)
    return partition_in(found[1]) if found else None


def waiting_in(row, mode):
    """The waiting line on a line of text, or None."""
    found = re.fullmatch('line=(%s);(.*);(.*)\n' % (WHOLE_NUMBER if mode else '[+-]'), row)
    shape, c = (partition_in(found[i]) for i in (2, 3)) if found else (None, None)
    weight = int(found[1] if mode else found[1] + '1') if found else 0
    fits = shape is not None and c is not None and LEAST <= weight <= MOST
    return (weight, shape_word(shape), class_word(c)) if fits else None


def taken_up(text, mode=0):
    """A text read in a mode: its first line at fault, from 1, or 0 for none; and of a text with none the slip and the
    lines."""
    rows = re.findall('[^\n]*\n|[^\n]+', text)
    front = ['gathered' if row == 'mode=gathered\n' else None for row in (rows + [''])[:mode]]
    rows = rows[mode:]
    head, rest = (rows + [''] * 6)[:6], rows[6:]
    degree = whole_in(head[0], 'degree', 0, 2**64 - 1)
    shape, c = named_in(head[1], 'shape'), named_in(head[2], 'class')
    steps, settled = whole_in(head[3], 'steps', 0, MOST), whole_in(head[4], 'settled', LEAST, MOST)
    count = whole_in(head[5], 'lines', len(rest), len(rest))
    lines = [waiting_in(row, mode) for row in rest]
    if shape is not None and sum(shape) != degree:
        degree = None
    found = [*front, degree, shape, c, steps, settled, count, *lines]
    if None in found:
        return found.index(None) + 1, None, None
    return 0, (shape_word(shape), class_word(c), settled, count, steps, mode), lines


# ---- the calls
def saved(slip, page, out):
    """What a save answers: refusal number, length, and the lent bytes."""
    text = bytes_of(put_away(slip, [line(word) for word in page[:slip[3]]])) if sound(slip, page) else []
    k = first_of((len(page) > PAGE, 6), (not text, 7), (len(text) > len(out), 17))
    return (k, 0, out) if k else (0, len(text), text + out[len(text):])


def loaded(text, page):
    """What a load answers: refusal number, the text's line that 16 is given for, slip, page."""
    at_fault, slip, lines = taken_up(text)
    words = [line_word(*waiting) for waiting in lines or []]
    left = words + [0] * (len(page) - len(words))
    k = first_of((len(page) > PAGE, 6), (at_fault, 16), (len(words) > len(page), 10)) or (0 if sound(slip, left) else 7)
    return (k, at_fault if k == 16 else 0, (0,) * 6, page) if k else (0, 0, slip, left)


# ---- texts to be read
def damaged(r, text):
    """A text damaged at a random place, once in every way."""
    i = r.randrange(len(text))
    near = chr((ord(text[i]) + r.choice([1, -1])) % 256)
    for byte in (near, r.choice('0123456789,;=+-\n'), chr(r.randrange(256))):
        yield text[:i] + byte + text[i + 1:]
    yield text[:i] + text[i + 1:]
    yield text[:i] + text[i] + text[i:]
    yield text[:i]
    yield text[:-1]
    yield text + r.choice(['\n', 'line=+;1;1\n', 'line', text])
    rows = re.findall('[^\n]*\n', text)
    i, j = (r.randrange(len(rows)) for _ in range(2))
    yield ''.join(rows[:i] + rows[i + 1:])
    yield ''.join(rows[:i] + rows[i:i + 1] + rows[i:])
    rows[i], rows[j] = rows[j], rows[i]
    yield ''.join(rows)


# The text of the issue, with / for each newline.
ISSUE = 'degree=5/shape=3,2/class=3,2/steps=1/settled=0/lines=1/line=-;1,1;2/'

# What makes a line of that text the first at fault where it stands in its place.
AT_FAULT = {
    1: 'degree=05|degree=+5|degree=-5|degree=|degree=5 | degree=5|Degree=5|degree5|degree==5|degree=5\r|degree=5,|'
       'degree=6|degree=4|degree=18446744073709551615|degree=18446744073709551616|degree=18446744073709551621|'
       'degree=5\0|degree=\xb5|shape=3,2|',
    2: 'shape=17|shape=2,3|shape=9,8|shape=3,2,0|shape=0|shape=3,,2|shape=,3,2|shape=3,2,|shape=3,02|shape=3 2|'
       'shape=3;2|shape=3.2|shape=+3,2|shape=-3,2|shape=259,2|shape=18446744073709551619,2|shape|class=3,2|',
    3: 'class=17|class=2,3|class=9,8|class=3,2,0|class=0|class=3,,2|class=,3,2|class=3,2,|class=3,02|class=3;2|'
       'class=3,258|class=1,1,1,1,1,1,1,1,1,1,1,1,1,1,1,1,1|class|Class=3,2|',
    4: 'steps=01|steps=-1|steps=-0|steps=+1|steps=|steps=1,|step=1|steps=9223372036854775808|'
       'steps=18446744073709551617|',
    5: 'settled=-0|settled=+1|settled=00|settled=-01|settled=--1|settled=1-|settled=-|settled=|settled=- 1|'
       'settled=9223372036854775808|settled=-9223372036854775809|settled=18446744073709551616|'
       'settled=-18446744073709551616|',
    6: 'lines=0|lines=2|lines=01|lines=+1|lines=-1|lines=|lines=18446744073709551617|line=1|line=-;1,1;2|',
    7: 'line=;1,1;2|line=*;1,1;2|line=-1,1;2|line=-;1,1|line=-;1,1;2;|line=-;1,1;2;2|line=--;1,1;2|line=+-;1,1;2|'
       'line=-;1,2;3|line=-;17;2|line=-;1,1;9,8|line=-;0;|line=-;;0|line=-;1,1;02|line=-;1,1,;2|line=-,1,1,2|'
       'line=-; 1,1;2|lines=-;1,1;2|',
}

# What may stand in its place.
OF_FORM = {
    3: 'class=|class=16|class=1,1,1,1,1,1,1,1,1,1,1,1,1,1,1,1|class=4',
    4: 'steps=0|steps=9223372036854775807',
    5: 'settled=-1|settled=10|settled=-9223372036854775808|settled=9223372036854775807',
    7: 'line=+;;|line=-;;|line=+;;1|line=-;1;|line=+;2,1;16|line=-;16;1|line=+;1,1;2',
}

# Whole texts, each with its first line at fault.
EMPTY = 'degree=0/shape=/class=/steps=0/settled=1/'
WHOLE = [
    ('', 1), ('/', 1), ('degree=5', 1), ('degree=5/', 2), ('degree=5/shape=3,2/class=3,2/', 4),
    (ISSUE, 0), (ISSUE[:-1], 7), (ISSUE + '/', 6), (ISSUE + 'line', 6), (ISSUE * 2, 6), ('/' + ISSUE, 1),
    ('degree=6/shape=3,2/', 1), ('degree=6/shape=3,2', 2), ('degree=6/shape=2,3/', 2), ('degree=17/shape=17/', 2),
    ('degree=18446744073709551615/shape=17/', 2), ('degree=18446744073709551616/shape=17/', 1),
    ('degree=%s/shape=/' % ('9' * 999), 1), ('degree=16/shape=16/class=/steps=0/settled=0/lines=0/', 0),
    (EMPTY + 'lines=0/', 0), (EMPTY + 'lines=0', 6), (EMPTY + 'lines=3/a//b', 7), (EMPTY + 'lines=2/a//b', 6),
    (EMPTY + 'lines=2/line=+;;/b', 8), ('degree=0/shape=/class=/steps=00/settled=/lines=/', 4),
    (EMPTY + 'lines=250/' + 'line=+;;/' * 250, 0), (EMPTY + 'lines=250/' + 'line=+;;/' * 251, 6),
    (EMPTY + 'lines=250/' + 'line=+;;/' * 249 + 'line=+;1,2;/', 256),
    ('mode=gathered/' + ISSUE, 1), ('mode=plain/' + ISSUE, 1), (ISSUE.replace('-;', '-1;'), 7),
]

# The same for the gathered mode: its text; what makes its first and last lines faulty, the latter without `line=`;
# coefficients that may stand there; whole texts.
GATHERED = 'mode=gathered/degree=5/shape=3,2/class=3,2/steps=1/settled=0/lines=1/line=-3;1,1;2/'
AT_FAULT_GATHERED = {
    1: 'mode=plain|mode=1|mode=|mode|mode=gathered |mode= gathered|mode=Gathered|Mode=gathered|mode=gathered\r|'
       'mode==gathered|mode=gathere|mode=gatheredd|gathered|degree=5|',
    8: ';1,1;2|+;1,1;2|-;1,1;2|+1;1,1;2|+3;1,1;2|-0;1,1;2|00;1,1;2|03;1,1;2|-03;1,1;2|--3;1,1;2|3-;1,1;2|3 ;1,1;2|'
       ' 3;1,1;2|- 3;1,1;2|3,1;1,1;2|3.0;1,1;2|9223372036854775808;1,1;2|-9223372036854775809;1,1;2|'
       '18446744073709551613;1,1;2|18446744073709551616;1,1;2|-18446744073709551619;1,1;2|%s;1,1;2|3;1,1|3;1,1;2;|'
       '3;1,1;2;2|3;1,2;3|3;17;2|3;1,1;9,8|3;0;|3;;0|3;1,1;02|3;1,1,;2|3,1,1,2|3; 1,1;2|3|' % ('9' * 99),
}
OF_FORM_GATHERED = '1 -3 12 0 -1 10 -10 5040 1000000 9223372036854775807 -9223372036854775808'.split()
NONE_YET = 'mode=gathered/' + EMPTY
WHOLE_GATHERED = [
    ('', 1), ('/', 1), ('mode=gathered', 1), ('mode=gathered/', 2), ('mode=gathered//', 2),
    ('mode=gathered/degree=5/', 3), ('mode=gathered/degree=6/shape=3,2/', 2), ('mode=gathered/degree=6/shape=2,3/', 3),
    (ISSUE, 1), (EMPTY + 'lines=0/', 1), (GATHERED, 0), (GATHERED[:-1], 8), (GATHERED + '/', 7), (GATHERED * 2, 7),
    ('/' + GATHERED, 1), ('mode=gathered/' + GATHERED, 2), ('mode=gathered/' + ISSUE, 8),
    (GATHERED + 'mode=gathered/', 7),
    (GATHERED.replace('mode=gathered/degree=5/', 'degree=5/mode=gathered/'), 1), (NONE_YET + 'lines=0/', 0),
    (NONE_YET + 'lines=0', 7), (NONE_YET + 'lines=2/1;;/1;;/', 8), (NONE_YET + 'lines=2/line=1;;/line=1;;/', 0),
    (NONE_YET + 'lines=2/line=0;2;2/line=-12;1;1/', 0), (NONE_YET + 'lines=2/line=0;2;2/line=-0;1;1/', 9),
    (NONE_YET + 'lines=2/line=+1;2;2/line=-0;1;1/', 8),
]


def by_hand():
    """Texts for every rule, and the first line at fault as document 02 and the issue say it."""
    rows = ISSUE.split('/')
    for cases, wrong in ((AT_FAULT, True), (OF_FORM, False)):
        for k, places in cases.items():
            for text in places.split('|'):
                yield '\n'.join(rows[:k - 1] + [text] + rows[k:]), k if wrong else 0
    for text, k in WHOLE:
        yield text.replace('/', '\n'), k


def gathered_by_hand():
    """The same for the gathered mode."""
    rows = GATHERED.split('/')
    wrong = {k + 1: places for k, places in AT_FAULT.items() if k < 7}
    wrong[1] = AT_FAULT_GATHERED[1]
    wrong[8] = '|'.join('line=' + text for text in AT_FAULT_GATHERED[8].split('|')) + '|line3;1,1;2|lines=3;1,1;2|'
    for k, places in wrong.items():
        for text in places.split('|'):
            yield '\n'.join(rows[:k - 1] + [text] + rows[k:]), k
    for weight in OF_FORM_GATHERED:
        yield '\n'.join(rows[:7] + ['line=%s;1,1;2' % weight, '']), 0
    for text, k in WHOLE_GATHERED:
        yield text.replace('/', '\n'), k
