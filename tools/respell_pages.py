#!/usr/bin/env python3
"""respell_pages.py: brings the names that pages cite to the spelling of today's Rattle.

    python3 tools/respell_pages.py [FILE ..]      writes the files; README.md and docs/*.md if none is given
    python3 tools/respell_pages.py --look         writes nothing, and prints the names with their new spelling

Run in a clone that has the two commits below. The table is made by setting the declarations of each .antt file of the
older Rattle beside those of the same file right after port.py and respell.py, which kept their order. In a page what
stands in backquotes or in a code block is respelled; in another file, as a test or a header, what stands in backquotes.
docs/PORT*.md and docs/changes/ are left as they are."""
import glob
import re
import subprocess
import sys

OLDER, SPELLED = 'f027de1', '18c2e8a'
DECLARED = re.compile(r'\s*((?:(?:abbrev|unfoldable|pub|opaque)\s+)*)(?:(?:record|data)\s+(\S+)|([^\s(){}]+(?: [^\s(){}]+)*?) :(?=\s|$))')
NO_DECLARATION = re.compile(r'\s*(--|use\b|pub use\b|mod\b|pub mod\b|infix)')
TOKEN = re.compile(r"[^\s(){}\[\],;.λ:→×≡≤+*/∷∙◌↔|«»^%`#!&\"]+")
# one name for two things, which have two now: the thing that pages speak of
ONE_OF_TWO = {'in-order': 'in_order'}
# the kit's words, and the forms of a clause
KIT = {'getD': 'get_or', '_≡_': '◌≡◌', '_∷_': '◌∷◌', '_++_': '◌++◌', '_<_': '◌<◌', '_≤_': '◌≤◌', '_+_': '◌+◌', '_∣_': '◌∣◌'}


def shown(commit, path):
    ran = subprocess.run(['git', 'show', '%s:%s' % (commit, path)], capture_output=True, check=False)
    return ran.stdout.decode()


def declared(text):
    """The names that a file declares, in order; a line of fields or constructors declares several."""
    found = []
    for line in text.splitlines():
        m = DECLARED.match(line)
        if m and not NO_DECLARATION.match(line):
            found += (m[2] or m[3]).replace('pub ', '').split()
    return found


def table():
    ran = subprocess.run(['git', 'ls-tree', '-r', '--name-only', OLDER, 'crates'], stdout=subprocess.PIPE, check=True)
    names = {}
    for path in ran.stdout.decode().splitlines():
        if path.endswith('.antt'):
            old, new = declared(shown(OLDER, path)), declared(shown(SPELLED, path))
            if len(old) == len(new):
                for one, other in zip(old, new):
                    names.setdefault(one, set()).add(other)
    twice = {one for one, others in names.items() if len(others) > 1}
    assert twice == set(ONE_OF_TWO), twice
    names = {one: others.pop() for one, others in names.items()} | ONE_OF_TWO | KIT
    return {one: other for one, other in names.items() if one != other}


def respelled(text, names):
    """A text of code."""
    text = re.sub(r"\b([\w-]+) \.(\d|refused|entry|exit)\b", r'\1.\2', text).replace('′', "'")
    return TOKEN.sub(lambda m: names.get(m[0], m[0]), text)


def page(text, names):
    """A page: its code blocks, and what stands in backquotes, also over the end of a line."""
    parts = re.split(r'(```.*?```|(?:^    .*\n)+|(?<!`)`[^`]+`(?!`))', text, flags=re.S | re.M)
    return ''.join(respelled(part, names) if i % 2 else part for i, part in enumerate(parts))


def main():
    names = table()
    files = [word for word in sys.argv[1:] if not word.startswith('--')]
    files = files or ['README.md', *(it for it in sorted(glob.glob('docs/*.md')) if '/PORT' not in it)]
    if '--look' in sys.argv:
        for one, other in sorted(names.items()):
            print(one, other)
        return
    for file in files:
        with open(file, encoding='utf8') as it:
            text = it.read()
        new = page(text, names) if file.endswith('.md') else re.sub(
            r'`[^`\n]+`', lambda m: respelled(m[0], names), text)
        if new != text:
            with open(file, 'w', encoding='utf8') as it:
                it.write(new)


main()
