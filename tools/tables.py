#!/usr/bin/env python3
"""tables.py: writes the tables of the listing, crates/listing/src/tables.rt, and the displacements that give shape
words their places, crates/classcolumns/src/tables.rt and specs/Private/Displacements.antt. Run it in the repository; it
writes in the layout of `rt fmt`. What it writes is not believed: the functions that read a table say its rule, and are
proved."""
import textwrap

LIMIT = 16
EIGHT_DIGITS = 256


def partitions(n, most):
    """The partitions of n into parts of at most `most`, in decreasing lexicographic order."""
    if n == 0:
        yield []
    for p in range(min(n, most), 0, -1):
        for rest in partitions(n - p, p):
            yield [p] + rest


def shape_word(rows):
    """Each row gives a zero, and then as many ones as it is longer than the next; digit 1 is bit 30."""
    digits = ''.join('0' + '1' * (row - after) for row, after in zip(rows, rows[1:] + [0]))
    return int(digits.ljust(31, '0'), 2)


def displaced(words):
    """For the eight high digits of a word (bits 29 to 22) a number such that it and the eight low ones (bits 21 to 14)
    add up to a place that no other word has. The largest group of words goes first, to the lowest places it fits."""
    groups = {}
    for word in words:
        groups.setdefault(word >> 22, []).append((word >> 14) % EIGHT_DIGITS)
    taken, chosen = set(), [0] * EIGHT_DIGITS
    for high in sorted(groups, key=lambda high: (-len(groups[high]), high)):
        while any(chosen[high] + low in taken for low in groups[high]):
            chosen[high] += 1
        taken.update(chosen[high] + low for low in groups[high])
    return chosen


listing = [list(partitions(n, n)) for n in range(LIMIT + 1)]
counts = [len(shapes) for shapes in listing]
words = [shape_word(rows) for shapes in listing for rows in shapes]
starts = [sum(counts[:n]) for n in range(LIMIT + 1)]
displacements = displaced(words)


def number(comment, name, value):
    return '\n// %s\npub const %s: usize = %d;\n' % (comment, name, value)


def table(comment, name, kind, entries, length=None):
    filled = textwrap.fill(' '.join('%d,' % entry for entry in entries), 99, initial_indent='    ',
                           subsequent_indent='    ')
    return '\n// %s\npub const %s: [%s; %s] = [\n%s\n];\n' % (comment, name, kind, length or len(entries), filled)


with open('crates/listing/src/tables.rt', 'w') as file:
    file.write('// The tables of the listing. Made by tools/tables.py; lib.rt says what each has, and is proved.\n')
    file.write(table('How many partitions each degree has.', 'COUNTS', 'usize', counts, 'words::DEGREES'))
    file.write(table('Where each degree starts in WORDS.', 'STARTS', 'usize', starts, 'words::DEGREES'))
    file.write(table('The shape words, degree by degree, each degree in listing order.', 'WORDS', 'u32', words,
                     'super::WORD_COUNT'))

with open('crates/classcolumns/src/tables.rt', 'w') as file:
    file.write('// Made by tools/tables.py; lookup.rt says what the table has, and is proved.\n')
    file.write(number('Eight digits make numbers below it.', 'EIGHT_DIGITS', EIGHT_DIGITS))
    file.write(number('Places are below it.', 'PLACE_COUNT', max(displacements) + EIGHT_DIGITS))
    file.write(table('A shape word t has the place DISPLACEMENTS[t >> 22] + (t >> 14) % EIGHT_DIGITS: no two have one.',
                     'DISPLACEMENTS', 'u16', displacements, 'EIGHT_DIGITS'))

with open('crates/classcolumns/specs/Private/Displacements.antt', 'w') as file:
    rows = [' ∷ '.join(map(str, displacements[i:i + 16])) for i in range(0, EIGHT_DIGITS, 16)]
    file.write('-- Made by tools/tables.py: the displacements that give the shape words their places (Places.antt).\n')
    file.write('--   displacement_table     one for each number of eight digits\n')
    file.write('--   largest_displacement   the largest of them\n')
    file.write('use Rattle.std.specs.Prelude.{◌∷◌}\nuse Rattle.theory.specs.Basics.{List, [], ℕ}\n\n')
    file.write('abbrev pub largest_displacement : ℕ\nlargest_displacement = %d\n\n' % max(displacements))
    file.write('unfoldable pub displacement_table : List ℕ\ndisplacement_table =\n    ')
    file.write(' ∷\n    '.join(rows) + ' ∷ []\n')
