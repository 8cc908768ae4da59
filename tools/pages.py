#!/usr/bin/env python3
"""pages.py: writes the tables of the pages that are counted or found, and not told, between the lines
`<!-- NAME: written by tools/pages.py -->` and `<!-- end of NAME -->`. Run it in the repository.

    tools/pages.py                      writes them anew
    tools/pages.py --check              says which are not as they would be written; exit status 1 if one is not
    bench/run | tools/pages.py --speed  puts what bench/run printed, with the day, into README.md; nothing checks it

    believed   docs/READING.md: the definitions that the contracts of public functions cite, and that those cite,
               but for two crates (NOT_BELIEVED)
    more       docs/READING.md: the further words of the theorems that this page names as `X: name`
    edits      docs/READING.md: the must-fail edits of theory, each with what it says of itself
    sizes      docs/ARCHITECTURE.md: lines and edits of each crate
    speed      README.md
"""
import datetime
import functools
import glob
import os
import re
import sys
import textwrap

sys.dont_write_bytecode = True
sys.path.insert(0, os.path.dirname(os.path.abspath(__file__)))
import tree  # noqa: E402

# Crates whose contracts need not be believed. What the test programs share is public by its place, and no part of the
# calculator; how the code finds hooks is cited by no contract of another crate.
NOT_BELIEVED = ('testing', 'hooks')


def table(head, rows):
    lines = ['| %s |' % ' | '.join(row) for row in [head, ['---'] * len(head)] + rows]
    return '\n'.join(lines)


def quoted(names):
    return ' '.join('`%s`' % name for name in names)


def wrapped(text):
    """A paragraph in lines of at most 120 characters; what stands in backquotes stays on one."""
    kept = re.sub(r'`[^`]*`', lambda m: m[0].replace(' ', '\0'), text)
    return textwrap.fill(kept, 120, break_long_words=False, break_on_hyphens=False).replace('\0', ' ')


# ---- what a page cites

CITED_FILE = r'((?:[A-Z]|[a-z]+/(?:specs|proofs)/|proofs/)[A-Za-z0-9/]*)'
CITED = re.compile(CITED_FILE + r':((?:,? (?:and |its |in its field )?`[^`:]+`(?: \([^)]*\))?(?: \.\.)?)+)')


def flowing(text):
    """A page without its code blocks and comments, each paragraph, row or item on a line."""
    text = re.sub(r'```.*?```|<!--.*?-->', '', text, flags=re.S)
    text = re.sub(r'^    .*$', '', text, flags=re.M)
    return re.sub(r'\n(?![\n|#*-]|\d+\. ) *', ' ', text)


@functools.cache
def cited_files(name):
    """The files that X of `X: name` can mean, of one crate if the page is right: those of theory's specs/ and proofs/,
    definitions and theorems of one notion, before those of another crate."""
    first = name.split('/')[0]
    if first in tree.crates():
        patterns = [['crates/%s.antt' % name]]
    else:
        of_crates = [['crates/%s/%s%s.antt' % (crate, folder, name) for folder in ('specs/', 'proofs/', '')]
                     for crate in tree.crates()]
        patterns = [of_crates[tree.crates().index('theory')], sum(of_crates, [])]
    found = [[path for path in paths if os.path.exists(path)] for paths in patterns]
    return next((paths for paths in found if paths), [])


def has_name(path, name):
    items = tree.module(path)[0]
    return name in items or any(name in item.inner for item in items.values())


def citations(text):
    """The pairs (X, name) that a flowing text cites as X: `name`, or as `X: name`."""
    for file, names in CITED.findall(text):
        for name in re.findall(r'`([^`]+)`', re.sub(r'\([^)]*\)', '', names)):
            yield file, name
    for file, name in re.findall('`' + CITED_FILE + r': ([^`\s]+)`', text):
        yield file, name


# ---- the tables

def states(file):
    """What a file says that it states: the first sentence of its first comment."""
    said = []
    for line in tree.read(file).splitlines():
        if not line.startswith('-- ') or line.startswith('--   '):
            break
        said.append(line[3:])
    return re.split(r'\.(?: |$)', ' '.join(said))[0]


def by_file(found):
    """Names by their files: fields and constructors go with what they belong to."""
    files = {}
    for file, name in sorted(found):
        if file.endswith('.antt') and name not in tree.module(file)[0]:
            owners = [item.name for item in tree.module(file)[0].values() if name in item.inner]
            name = owners[0] if owners else name
        files.setdefault(file, set()).add(name)
    return files


def in_order(files):
    """Files in the order of crates.txt and of their crate's Lib.antt."""
    def place(file):
        crate = file.split('/')[1]
        lib = 'crates/%s/specs/Lib.antt' % crate
        mods = re.findall(r'pub mod (\w+)', tree.read(lib)) if os.path.exists(lib) else []
        first = re.sub(r'\.antt$', '', file.split('/')[3]) if file.count('/') > 2 else ''
        return tree.crates().index(crate), mods.index(first) if first in mods else -1, '/proofs/' in file, file
    return sorted(files, key=place)


def written_order(file, names):
    items = list(tree.module(file)[0])
    return sorted(names, key=lambda name: items.index(name) if name in items else -1)


def members(file):
    """The ghost members of a file's traits, blocks and types: their names, and what each says."""
    return re.findall(r'^ *(?:pub )?ghost (\w+)(?: =|:) \{(.*?)\}[;,]$', tree.read(file), re.M | re.S)


def laws(file):
    """The members that a trait of a file declares as laws: what a block says of one is its proof."""
    declared = re.findall(r'^ *ghost (\w+): \{(.*?)\};$', tree.read(file), re.M | re.S)
    return {name for name, body in declared if body.startswith(' (')}


@functools.cache
def believed():
    found = set()
    for function in tree.public_functions():
        if function.path.split('::')[0] not in NOT_BELIEVED:
            found |= tree.reached(function.file, function.promise)
    for function in tree.methods():
        crate = function.path.split('::')[0]
        if crate not in NOT_BELIEVED:
            root = 'crates/%s/src/lib.rt' % crate
            for file in {function.file, root}:
                for name, body in members(file):
                    if name not in laws(root):
                        found |= tree.reached(file, body)
    return found


@functools.cache
def words_of(path, name):
    """The words that a theorem's statement uses, or a definition, with those of the definitions that these use."""
    item = tree.module(path)[0].get(name)
    return tree.reached(path, item.text if item.defines else item.statement) if item else set()


def words_of_theorems(text):
    """The words that the statements of the theorems use which a page names, and the definitions that it names."""
    cited = [(path, name) for file, name in citations(flowing(text)) for path in cited_files(file)]
    return {word for path, name in cited for word in words_of(path, name)}


def library(files):
    names = sorted({name for file, held in files.items() if not file.startswith('crates/') for name in held})
    return wrapped('Of the kit\'s library: %s.' % quoted(names))


def structs(files):
    rows = []
    for folder, names in files.items():
        for file in sorted(glob.glob(folder + '/*.rt')) if folder.endswith('/src') else []:
            declared = re.findall(r'^pub (?:struct|enum) (\w+)', tree.read(file), re.M)
            if names.intersection(declared):
                rows.append('%s of `%s`' % (quoted(name for name in declared if name in names), file))
    return wrapped('Structs and enums: %s.' % '; '.join(rows))


@functools.cache
def believed_table(_):
    files = by_file(believed())
    antt = in_order(file for file in files if file.endswith('.antt'))
    rows = [['`%s`' % file, states(file), quoted(written_order(file, files[file])), str(tree.lines_of(file))]
            for file in antt]
    total = sum(tree.lines_of(file) for file in antt)
    return '\n\n'.join([
        '%d files, {:,} lines with their glossaries and imports.'.format(total) % len(antt),
        table(['file', 'states', 'words', 'lines'], rows), structs(files), library(files)])


def more_table(reading):
    first = believed()
    files = by_file(words_of_theorems(reading) - first)
    known = by_file(first)
    files = {file: names - known.get(file, set()) for file, names in files.items()}
    antt = in_order(file for file, names in files.items() if file.endswith('.antt') and names)
    rows = [['`%s`' % file, quoted(written_order(file, files[file]))] for file in antt]
    return '\n\n'.join([table(['file', 'words'], rows), library(files)])


def edits_table(_):
    names = [edit for edit, crates in tree.edits().items() if 'theory' in crates]
    rows = [['`%s`' % edit, tree.purpose('theory', edit)] for edit in names]
    return table(['edit of `theory`', 'what it says of itself'], rows)


def sizes_table(_):
    rows, with_code = [], {path.split('::')[0] for path in tree.functions()}
    for crate in tree.crates():
        folder = 'crates/%s/' % crate
        top = tree.lines_of(folder + 'specs/*.antt')
        private = tree.lines_of(folder + 'specs/Private/**/*.antt')
        proofs = tree.lines_of(folder + 'proofs/**/*.antt')
        laws = sum(tree.lines_of(file) for file in tree.laws(crate)) if crate in with_code else proofs
        counts = [
            top, tree.lines_of(folder + 'specs/*/**/*.antt') - private + laws, private, proofs - laws,
            tree.lines_of(folder + 'src/**/*.rt'),
            sum(crate in crates for crates in tree.edits().values())]
        rows.append(['`%s`' % crate] + [str(count) if count else '' for count in counts])
    totals = [str(sum(int(row[i] or 0) for row in rows)) for i in range(1, 7)]
    head = ['crate', 'definitions', 'their laws', 'private definitions', 'proofs of functions', 'code', 'edits']
    return table(head, rows + [['all'] + totals])


TABLES = {
    'believed': ('docs/READING.md', believed_table), 'more': ('docs/READING.md', more_table),
    'edits': ('docs/READING.md', edits_table), 'sizes': ('docs/ARCHITECTURE.md', sizes_table)}


def placed(name, page, text, written):
    """A page's text with a table in its place."""
    begin, end = '<!-- %s: written by tools/pages.py -->\n' % name, '\n<!-- end of %s -->' % name
    if text.count(begin) != 1 or text.count(end) != 1:
        sys.exit('pages: %s has no place for the table %s' % (page, name))
    before, rest = text.split(begin)
    return before + begin + written + end + rest.split(end)[1]


def differences(texts):
    """The tables of pages with these texts that are not as they would be written, a line each."""
    for name, (page, made) in TABLES.items():
        if placed(name, page, texts[page], made(texts[page])) != texts[page]:
            yield '%s: the table "%s" is not what tools/pages.py writes' % (page, name)


def write(page, text):
    with open(page, 'w', encoding='utf8') as file:
        file.write(text)


def main():
    if sys.argv[1:] == ['--check']:
        lacking = list(differences({page: tree.read(page) for page, _ in TABLES.values()}))
        for line in lacking:
            print(line)
        sys.exit(1 if lacking else 0)
    if sys.argv[1:] == ['--speed']:
        said = 'Printed by `bench/run` on %s:\n\n```text\n%s```' % (datetime.date.today(), sys.stdin.read())
        write('README.md', placed('speed', 'README.md', tree.read('README.md'), said))
        return
    for name, (page, made) in TABLES.items():
        text = tree.read(page)
        write(page, placed(name, page, text, made(text)))


if __name__ == '__main__':
    main()
