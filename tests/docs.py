#!/usr/bin/env python3
"""docs.py: what the pages name is there, and what is there is named. Run it in the repository; needs python3 alone.

The pages are README.md and docs/*.md; docs/changes/*.md are history, which names what has gone, and are left out, as
docs/PORT*.md are, which tell of the move from an older Rattle, and docs/DESIGN-PASS.md, which tells old beside new.
- Every name in backquotes is a crate, a module, a function, a type, a field, a constant, an edit, a definition or
  theorem, a file or folder, a command, or one of the few words listed below. X: `name` says that X.antt has it, in
  theory that of specs/ or that of proofs/.
- docs/PROMISES.md has one row for each public function and for each method of a trait that others can call, and no
  other; its theorem stands in proofs/Unique.antt of its crate and speaks of this function's contract, the first of a
  generic one of all types; its edits are must-fail edits of its crate, or of the one that it names; each call but an
  export has two or more, or an exception with a reason.
- Every edit, and every theorem of a Unique.antt, is named: an edit on PROMISES or READING, a theorem on PROMISES.
- Every definition file is named on READING, every crate has a row on ARCHITECTURE, row k of the refusals names no-k,
  and the tables that tools/pages.py writes are what it writes. No edit changes a file of proofs/, but for laws of what
  it changes in specs/ first; and what an edit changes stands in its file once.
- Decisions are numbered, each number once, and a number that is cited is there; a line of text has at most 120
  characters.
It tells that a name is there, not that it says what the page claims. Last it tries itself: a page that is changed in
one place must be found wrong. Prints what is not so; the exit status is 0 only where there is nothing."""
import functools
import glob
import os
import re
import sys

sys.dont_write_bytecode = True
sys.path.insert(0, 'tools')
import pages  # noqa: E402
import tree  # noqa: E402

PROMISES, READING, DECISIONS = 'docs/PROMISES.md', 'docs/READING.md', 'docs/DECISIONS.md'

# Words of the two languages and of the notation, of the kit's library, placeholders, and texts that are shown.
WORDS = set('''requires ensures abbrev unfoldable pub mod enum struct extern u8 u64 i64 usize f64 std
rt help stdout crates/NAME CRATE
'''.split()) | {
    'x ∷ xs', '[]', '++', '≡', 'p ∣ n', '×', '→ ⊥', '(n : ℕ) × P', '(◌=? p)', 'cond b x y',
    'elim z [ | pos n ↦ .. ]', 'r.refused', '.0', '.1', 'parts.now', 'page.old', 'page.new', '&', '&[u8]', '&[..]',
    '&[u64]', '&mut [..]', '&mut [u64]', '&mut [i64]', '!s & (s << h)', 'suc zero', 'extern "C"', '-lzembrusha',
    '--only F', '--start F', 'X: name', 'X.antt', 'specs/X.antt', 'specs/X/', 'proofs/X/', 'proofs/F/',
    'crate::function', '_in', '_by', 'mode=gathered', 'degree=', 'degree=3', 'class=', 'class=3', 'refused=12',
    'refused=13', 'table 5', '0x2C000000', 'rattle-kit-13f logic dac8208d650f15bf', 'N passed, 0 failed', 'old:',
    'new:', 'pub mod', 'pub fn'}

# Commands of rt, and the folder of what they make, which need not be there.
COMMANDS = 'all check ci doc fmt lib must-fail run tidy verdict version'.split()
MADE = 'target/'

# Where a path may begin.
FOLDERS = ['', 'crates/', 'crates/*/', 'crates/*/src/', 'crates/*/specs/', 'crates/*/specs/*/', 'crates/*/proofs/']


# ---- what is there

@functools.cache
def modules():
    """Every path of a module, as crate::module."""
    files = glob.glob('crates/*/src/**/*.rt', recursive=True)
    return {function.rsplit('::', 1)[0] for function in tree.functions()} | {
        file[len('crates/'):-len('.rt')].replace('/src/', '::') for file in files}


@functools.cache
def source_names():
    """Types, fields, variants and constants of the Rattle source."""
    found = set()
    for file in glob.glob('crates/*/src/**/*.rt', recursive=True):
        text = tree.without_comments(tree.read(file))
        found.update(re.findall(r'\b(?:struct|enum|const|impl) (\w+)', text))
        for body in re.findall(r'\b(?:struct|enum) \w+ \{(.*?)\}', text, re.S):
            found.update(re.findall(r'^\s*(?:pub )?(\w+)(?::|\(|,)', body, re.M))
    return found


@functools.cache
def antt_names():
    """Definitions, theorems, fields and constructors, and the names of the kit's library that READING lists."""
    found = set()
    for file in tree.antt_files():
        for item in tree.module(file)[0].values():
            found |= {item.name} | item.inner
    words = pages.believed() | pages.words_of_theorems(tree.read(READING))
    return found | {name for file, name in words if not file.startswith('crates/')}


@functools.cache
def plain_names():
    paths = [*tree.crates(), *tree.functions(), *modules()]
    return {part for path in paths for part in path.split('::')} | source_names() | antt_names() | set(tree.edits())


def there(path):
    """Whether a path is one of the repository, of a crate, or of a crate's specs, with braces and stars."""
    m = re.search(r'\{([^}]*)\}', path)
    if m:
        return all(there(path[:m.start()] + one + path[m.end():]) for one in m[1].split(','))
    if path.startswith(MADE):
        return True
    path = path.rstrip('/')
    return any(glob.glob(folder + path + ending) for folder in FOLDERS for ending in ('', '.antt'))


def command(words):
    """Whether words are a command: of rt, on crates, or of a script, on files."""
    if words[0] == 'rt':
        return words[1] in COMMANDS and all(
            word in tree.crates() or word in ('NAME', 'CRATE') or word.startswith('-') for word in words[2:])
    return '/' in words[0] and all(there(word) for word in words if '/' in word)


def expression(name):
    """Whether a formula is of known names, numbers and short names of variables, at least one being known."""
    words = re.findall(r'[^\W\d_][\w·-]*', name)
    long = [word for word in words if len(word) > 2]
    return bool(long) and all(word in plain_names() or word in WORDS for word in long)


def named(name):
    if name in WORDS or name in plain_names():
        return True
    if re.fullmatch(r'[\w:]+', name) and '::' in name:
        return any(('::' + path).endswith('::' + name) for path in [*tree.functions(), *modules()])
    if ' ' not in name and re.search(r'[/.]', name):
        return there(name)
    words = name.split()
    return len(words) > 1 and (command(words) if words[0] == 'rt' or '/' in words[0] else expression(name))


# ---- what is wrong

def names_in(text):
    """What stands in backquotes in a page, paragraph by paragraph."""
    lines = pages.flowing(text).splitlines()
    return {' '.join(name.split()) for line in lines for name in re.findall(r'`([^`]+)`', line)}


def wrong_names(page, text):
    for line in pages.flowing(text).splitlines():
        if line.count('`') % 2:
            yield '%s: a backquote is open: %s' % (page, line[:60])
    for name in names_in(text):
        cited = re.fullmatch(pages.CITED_FILE + r': (\S+)', name)
        if not cited and not named(name):
            yield '%s: nothing is named %s' % (page, name)
    for file, name in set(pages.citations(pages.flowing(text))) - {('X', 'name')}:
        found = pages.cited_files(file)
        if len({path.split('/')[1] for path in found}) != 1:
            yield '%s: %s is %s' % (page, file, 'no file' if not found else 'one of ' + ', '.join(found))
        elif not any(pages.has_name(path, name) for path in found):
            yield '%s: %s has no %s' % (page, ' or '.join(found), name)
    for path in set(re.findall(r'(?<![\w/`.])((?:docs|tests|tools|window|crates|bench|\.ci)/[\w./-]*\w)', text)):
        if not there(path):
            yield '%s: no file %s' % (page, path)


def rows_of(text):
    return re.findall(r'^\| `(\w+(?:::\w+)+)` \| (.*?) \| (.*?) \|$', text, re.M)


def reasoned(cell):
    m = re.search(r'exception: ([^;|]*)', cell)
    return bool(m) and len(m[1].split()) >= 2


def of_all_types(statement, alias):
    """Whether the types and traits in front of a contract's arguments, if there are any, are the theorem's own."""
    front = re.search(r' %s\.Post ((?:\S+ )*?)κs a r s ' % re.escape(alias), statement)[1].split()
    own = {name for names in re.findall(r'\(([^():]*) : ', statement) for name in names.split()}
    return own.issuperset(front)


def wrong_theorem(function, crate, cell):
    """Each theorem of a cell is about the function: of a generic one, the first of all types and then of some."""
    names = re.findall(r'`([^`]+)`', cell)
    if reasoned(cell):
        return
    if not names:
        yield 'names no theorem'
        return
    file = 'crates/%s/proofs/Unique.antt' % crate
    items, brought = tree.module(file) if os.path.exists(file) else ({}, {})
    reads = 'Rattle.%s.proofs.%s.Reads' % (crate, '.'.join(function.split('::')[1:]))
    alias = [name[1:] for name, (module, _) in brought.items() if module == reads and name.startswith('*')]
    for name in names:
        if name not in items or not items[name].text.startswith('pub '):
            yield '%s has no theorem %s' % (file, name)
            return
        statement = items[name].statement
        if not alias or statement.count(' %s.Post ' % alias[0]) != 2:
            yield '%s is not about this function' % name
            return
        # of a generic function, its types and traits stand in front
        of, other = (r' %s\.Post (?:\S+ )*?κs a %s ' % (re.escape(alias[0]), outcome) for outcome in ('r s', "r' s'"))
        said = statement.rpartition('→')[2]
        same = re.match(r" ?\(?r ≡ r'", said)
        if not re.search(of, statement) or not re.search(other, statement) or not same:
            yield '%s does not say that two outcomes are one' % name
        elif name == names[0] and not of_all_types(statement, alias[0]):
            yield '%s is of some types alone' % name
        if len(re.findall(r"\bs\.[\d.]+\.now ≡ s'\.[\d.]+\.now\b", said)) != tree.functions()[function].lent:
            yield '%s does not say so of each lent run' % name


def wrong_edits(crate, cell):
    names = re.findall(r'`([^`]+)`((?: \(of \w+)?)', cell)
    for name, other in names:
        home = other.replace(' (of ', '') or crate
        if home not in tree.edits().get(name, []):
            yield '%s has no edit %s' % (home, name)
    if crate == 'zembrusha':
        if not names and 'thin' not in cell:
            yield 'neither thin nor with edits'
    elif len(names) < 2 and not reasoned(cell):
        yield '%d edits, two wanted' % len(names)


def wrong_promises(text):
    rows = rows_of(text)
    found = [function for function, _, _ in rows]
    public = {function.path: function for function in tree.public_functions()}
    methods = {function.path for function in tree.methods()}
    for path in [*public, *methods]:
        if found.count(path) != 1:
            yield '%s has %d rows' % (path, found.count(path))
    for path, function in public.items():
        if not function.promise or function.asks:
            yield '%s has no ensures, or a requires' % path
    for function, theorem, edits in rows:
        crate = function.split('::')[0]
        if function not in public and function not in methods:
            yield '%s is no public function' % function
            continue
        for why in [*wrong_theorem(function, crate, theorem), *wrong_edits(crate, edits)]:
            yield '%s: %s' % (function, why)
    for file in glob.glob('crates/*/proofs/Unique.antt'):
        crate = file.split('/')[1]
        theorems = [name for function, cell, _ in rows if function.startswith(crate + '::')
                    for name in re.findall(r'`([^`]+)`', cell)]
        for name, item in tree.module(file)[0].items():
            if item.text.startswith('pub ') and theorems.count(name) != 1:
                yield '%s of %s is named %d times' % (name, file, theorems.count(name))


def wrong_converse(texts):
    both = names_in(texts[PROMISES]) | names_in(texts[READING])
    for edit, crates in tree.edits().items():
        if edit not in both:
            yield 'no page names the edit %s of %s' % (edit, ', '.join(crates))
    for file in glob.glob('crates/*/specs/*.antt'):
        if os.path.basename(file) not in ('Lib.antt', 'Private.antt') and file not in both:
            yield '%s: %s is not listed' % (READING, file)


def not_once(edit, text):
    """The old texts of an edit that do not stand in its file just once, one pair being applied after the other."""
    files, name, old = {}, '', ''
    for line in text.splitlines():
        if line.startswith('file: '):
            name = 'crates/%s/%s' % (edit.split('/')[1], line[6:])
        elif line.startswith('old: '):
            old = line[5:]
        elif line.startswith('new:'):
            now = files.get(name) or tree.read(name)
            if now.count(old) != 1:
                yield old
            files[name] = now.replace(old, line[5:])


def wrong_rows(texts):
    """Refusals in READING, each in its row; crates that a page leaves out; an edit that changes a proof, or is not as
    CONTRIBUTING shows it."""
    for number, row in re.findall(r'^\| (\d+) \| (.*)', texts[READING], re.M):
        if not re.search('`no[-_]%s`' % number, row):
            yield '%s: row %s does not name no-%s' % (READING, number, number)
    layers = texts['docs/ARCHITECTURE.md'].partition('| crate | holds ')[2].partition('\n\n')[0]
    for crate in tree.crates():
        if '`%s`' % crate not in ' '.join(re.findall(r'^\| (.*?) \|', layers, re.M)):
            yield 'docs/ARCHITECTURE.md: no row for the crate %s' % crate
    edits = {file: tree.read(file) for file in glob.glob('crates/*/must-fail/*.edit')}
    for file, text in edits.items():
        changes = re.findall(r'^file: (.*)', text, re.M)
        crate = file.split('/')[1]
        laws = tree.laws(crate) if changes[0].startswith('specs/') else []
        for changed in changes:
            if not changed.startswith(('src/', 'specs/')) and 'crates/%s/%s' % (crate, changed) not in laws:
                yield '%s changes %s' % (file, changed)
        for old in not_once(file, text):
            yield '%s: not once in its file: %s' % (file, old)
    shown = re.search(r'`(crates/\S+\.edit)`:\n\n```text\n(.*?)```', texts['docs/CONTRIBUTING.md'], re.S)
    if not shown or edits.get(shown[1]) != shown[2]:
        yield 'docs/CONTRIBUTING.md: the edit that it shows is not so'


def wrong_decisions(texts):
    numbers = re.findall(r'^\*\*D(\d+)\. ', texts[DECISIONS], re.M)
    for number in sorted(set(numbers), key=int):
        if numbers.count(number) > 1:
            yield '%s: D%s is there twice' % (DECISIONS, number)
    for line in texts[DECISIONS].splitlines():
        if line.startswith('**') and not re.match(r'\*\*D\d+\. ', line):
            yield '%s: no number: %s' % (DECISIONS, line[:60])
    for page, text in texts.items():
        for number in set(re.findall(r'\bD(\d+)\b', text)) - set(numbers):
            yield '%s: there is no decision D%s' % (page, number)


def wrong_lines(page, text):
    for line in text.splitlines():
        if len(line) > 120 and not line.startswith('|'):
            yield '%s: more than 120 characters: %s' % (page, line[:60])


def wrong_words(texts):
    """Words of the list above that no page needs."""
    used = {name for text in texts.values() for name in names_in(text)}
    inside = {part for name in used for part in re.split(r'[\s()]+', name)}
    for word in sorted(WORDS - used - inside):
        yield 'docs.py: no page has the word %s' % word


def lacking(texts):
    for page, text in texts.items():
        yield from wrong_names(page, text)
        yield from wrong_lines(page, text)
    for why in wrong_promises(texts[PROMISES]):
        yield '%s: %s' % (PROMISES, why)
    yield from wrong_converse(texts)
    yield from wrong_rows(texts)
    yield from wrong_decisions(texts)
    yield from wrong_words(texts)
    yield from pages.differences(texts)


# ---- this test, tried

# What makes a page wrong: the page, a pattern, what takes its place, once, and what must then be said.
CHANGES = [
    (PROMISES, r'^\| `words::.*\n', '', 'has 0 rows'),
    (PROMISES, r'^\| `words::.*\n', '', 'no page names the edit'),
    (PROMISES, r'^(\| `words::.*\n)', r'\1\1', 'has 2 rows'),
    (PROMISES, r'^\| `words::', '| `word::', 'is no public function'),
    (PROMISES, r'`([a-z-]+)-once`', r'`\1-onec`', 'has no theorem'),
    (PROMISES, r'`shape-word-once`', '`class-word-once`', 'is not about this function'),
    (PROMISES, r'`shape-word-once`', 'proved', 'names no theorem'),
    (PROMISES, r'`cleared-once`, and of words and of coefficients ', '', 'is of some types alone'),
    (PROMISES, r'^\| `text::numbers::U64Written::write`.*\n', '', 'U64Written::write has 0 rows'),
    (PROMISES, r'^(\| `words::.*? \| .*? \| `)(\w+)`', r'\1not_\2`', 'words has no edit not_'),
    (PROMISES, r'^(\| `words::.*? \| .*? \| `\w+`).*', r'\1 |', '1 edits, two wanted'),
    (PROMISES, r'^(\| `listing::.*? \| .*? \| `)\w+`', r'\1list_last_rise`', 'listing has no edit list_last_rise'),
    (PROMISES, r'exception: [^;|]*', 'exception: ', '0 edits, two wanted'),
    (READING, r'Hooks/Rule: `hook-rule`', 'Hooks/Rule: `hook-rul`', 'Rule.antt has no hook-rul'),
    (READING, r'Hooks/Rule: ', 'Hooks/Words: ', 'Words.antt has no hook-rule'),
    (READING, r'`characters::character`', '`characters::charakter`', 'nothing is named characters::charakter'),
    (READING, r'\.antt` \|', '.ant` |', 'nothing is named crates/'),
    (READING, r'\| (\d+) \|$', r'| 1\1 |', 'the table "believed"'),
    (READING, r'its `bounded`', 'its `bound`', 'has no bound'),
    (READING, r'^(\| 8 \|.*)`no-8`', r'\1`no-11`', 'row 8 does not name no-8'),
    (READING, r'`Evaluation`', '', 'the table "more"'),
    (READING, r'`minus_one_one_is_nothing`', '`minus_one_one_is_nought`', 'nothing is named minus_one'),
    (READING, r'`sessiontests`', '`sessiontests', 'a backquote is open'),
    (READING, r'^\| `crates/theory/specs/Hooks\.antt`.*\n', '', 'Hooks.antt is not listed'),
    ('docs/ARCHITECTURE.md', r'\| (\d+) \|', r'| 1\1 |', 'the table "sizes"'),
    ('docs/ARCHITECTURE.md', r'`lines::strip`', '`lines::stripe`', 'nothing is named lines::stripe'),
    ('docs/PROOF.md', r'`lowered-lowered`', '`lowered-lowering`', 'Lowered.antt has no lowered-lowering'),
    ('docs/ARCHITECTURE.md', r'^\| `listing`.*\n', '', 'no row for the crate listing'),
    ('docs/CONTRIBUTING.md', r'^old: .*', 'old: nothing', 'the edit that it shows'),
    ('docs/CONTRIBUTING.md', r'`rt check`', '`rt chock`', 'nothing is named rt chock'),
    ('docs/CONTRIBUTING.md', r'\bdocs/PROMISES', 'docs/PROMISE', 'no file docs/PROMISE.md'),
    (DECISIONS, r'^\*\*D2\. ', '**D1. ', 'D1 is there twice'),
    (DECISIONS, r'^\*\*D2\. ', '**', 'no number'),
    (DECISIONS, r'`answer-given`', '`answer-giving`', 'nothing is named answer-giving'),
    ('README.md', r'`window/zembrusha\.h`', '`window/zembrush.h`', 'nothing is named window/zembrush.h'),
    ('README.md', r'^    window/start', '    window/begin', 'no file window/begin'),
    ('README.md', r'\n\n', ' (D0)\n\n', 'there is no decision D0'),
]


def unnoticed(texts):
    """The changes after which it is not said what must be said, or that find nothing to change."""
    for page, pattern, instead, said in CHANGES:
        changed, count = re.subn(pattern, instead, texts[page], count=1, flags=re.M)
        if not count:
            yield 'docs.py: %s has no %s' % (page, pattern)
        elif not any(said in line for line in lacking({**texts, page: changed})):
            yield 'docs.py: %s with "%s" for "%s": it is not said "%s"' % (page, instead, pattern, said)


def main():
    told = ('docs/PORT', 'docs/DESIGN-PASS')
    files = ['README.md', *(file for file in sorted(glob.glob('docs/*.md')) if not file.startswith(told))]
    texts = {page: tree.read(page) for page in files}
    found = sorted(set(lacking(texts))) or list(unnoticed(texts))
    for line in found:
        print(line)
    sys.exit(1 if found else 0)


main()
