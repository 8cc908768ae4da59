"""tree.py: what the repository has by name: crates, functions and their promises, definitions and theorems, edits.
tools/pages.py and tests/docs.py read it. It reads the layout that `rt fmt` gives, and is no parser of either language.

    Item      a definition or theorem of an .antt file: its statement and its whole text
    Function  a function of a crate: its path, whether another crate can call it, its promise
"""
import functools
import glob
import os
import re
from dataclasses import dataclass, field

MODIFIERS = r'(?:(?:abbrev|unfoldable|pub|opaque)\s+)*'
WORD = r'(?!=\s)[^\s(){}]+'
SIGNATURE = re.compile(r'(%s)(?:(record|data)\s+(\S+)|(%s(?: %s)*?) :(?=\s|$))' % (MODIFIERS, WORD, WORD))


def read(path):
    with open(path, encoding='utf8') as file:
        return file.read()


def crates():
    """The crates that crates.txt lists, in its order."""
    lines = [line.split('#')[0].split(':')[0].split() for line in read('crates.txt').splitlines()]
    return [words[0] for words in lines if words]


def lines_of(pattern):
    """How many lines the files have that match."""
    return sum(len(read(path).splitlines()) for path in glob.glob(pattern, recursive=True))


# ---- edits

def edits():
    """Each edit of a must-fail folder: its name, and the crates that have one of this name."""
    found = {}
    for path in sorted(glob.glob('crates/*/must-fail/*.edit')):
        found.setdefault(os.path.basename(path)[:-len('.edit')], []).append(path.split('/')[1])
    return found


def purpose(crate, edit):
    """What an edit says of itself, in front of its lines."""
    said = []
    for line in read('crates/%s/must-fail/%s.edit' % (crate, edit)).splitlines():
        if re.match(r'(file|old|new):', line):
            break
        said.append(line.lstrip('# ').strip())
    return ' '.join(said).rstrip('.')


# ---- functions

@dataclass
class Function:
    path: str
    public: bool
    promise: str
    asks: bool
    lent: int  # how many runs it may write
    file: str
    method: bool  # of a trait of its crate, or of the library on a public type of its module: others can call it, too


FUNCTION = re.compile(r'^(?P<in>[ \t]*)(?P<pub>pub )?(?P<extern>extern "C" )?fn (?P<name>\w+)', re.M)


def without_comments(text):
    return re.sub(r'//[^\n]*', '', text)


def promises(contract):
    """What stands in the braces of each `ensures` of a contract."""
    for m in re.finditer(r'\bensures(?: \*)?(?: \w+)? \{', contract):
        depth, at = 1, m.end()
        while depth:
            depth += {'{': 1, '}': -1}.get(contract[at], 0)
            at += 1
        yield contract[m.end():at - 1]


IMPL = r'^impl(?:<[^>]*>)? (\w+)(?:<(.*)>)?(?: for (\S+))? \{'


def owner(name, of, given):
    """What Rattle calls a block: a type, or of a trait the type and the trait, as `U64Written`, with the words of what
    the trait is of, as `RefusedFromRefusal`."""
    if given is None:
        return name
    given = 'RefSlice' if given.startswith('&[') else re.sub(r'.*::|<.*', '', given)
    return given[0].upper() + given[1:] + name + ''.join(re.findall(r'\w+', of or ''))


def of_others(name, given, text, root, reached):
    """Whether others can call the methods of a block: those of a trait of its crate, wherever the block stands, or of
    another trait on a type that is public in its module."""
    if given is None:
        return False
    own = re.findall(r'^pub trait (\w+)', read(root), re.M)
    types = re.findall(r'^pub (?:struct|enum) (\w+)', text, re.M)
    return name in own or reached and given.split('<')[0] in types


def functions_in(path, file, reached):
    """The functions of a file and of the modules that it names. `reached`: `pub mod` lines lead here."""
    text = without_comments(read(file))
    root = 'crates/%s/src/lib.rt' % path[0]
    owners = [(m.start(), owner(m[1], m[2], m[3]), os.path.exists(root) and of_others(m[1], m[3], text, root, reached))
              for m in re.finditer(IMPL, text, re.M)]
    for m in FUNCTION.finditer(text):
        rest = text[m.end():]
        body = re.search(r'(?:\n[ \t]*| )\{[ \t]*\n', rest)
        contract = rest[:body.start()] if body else rest.split('\n}')[0]
        inside = [name for start, name, _ in owners if start < m.start()] if m['in'] else []
        method = [others for start, _, others in owners if start < m.start()] if m['in'] else []
        yield Function(
            path='::'.join(path + inside[-1:] + [m['name']]),
            public=bool(m['pub']) and (reached or bool(m['extern'])),
            promise=' '.join(promises(contract)),
            asks='requires' in contract,
            lent=len(re.findall(r'&mut \[', contract)),
            file=file,
            method=bool(method) and method[-1],
        )
    for m in re.finditer(r'^(pub )?mod (\w+);', text, re.M):
        folder = os.path.dirname(file) if os.path.basename(file) in ('lib.rt', 'main.rt') else file[:-len('.rt')]
        inner = '%s/%s.rt' % (folder, m[2])
        if os.path.exists(inner):
            yield from functions_in(path + [m[2]], inner, reached and bool(m[1]))


@functools.cache
def functions():
    """Every function of every crate, by its path. A program has no public one."""
    found = {}
    for crate in crates():
        for root in ('lib', 'main'):
            file = 'crates/%s/src/%s.rt' % (crate, root)
            if os.path.exists(file):
                for function in functions_in([crate], file, root == 'lib'):
                    found[function.path] = function
    return found


def public_functions():
    return [function for function in functions().values() if function.public]


def methods():
    """The methods of traits that others can call."""
    return [function for function in functions().values() if function.method]


# ---- definitions and theorems

@dataclass
class Item:
    name: str
    file: str
    defines: bool      # a record, data, marked abbrev or unfoldable, or of a type that is no statement
    statement: str     # its type, with the parameters of the modules around it
    text: str          # all of it
    inner: set = field(default_factory=set)      # fields and constructors
    open: bool = True      # its type may go on


def module_file(module):
    """The file of a module path such as Rattle.theory.specs.Hooks.Rule, also where the kit has it; None for libraries
    of antt."""
    m = re.match(r'Rattle\.(\w+)\.(specs|proofs)\.(.+)$', module)
    return m and 'crates/%s/%s/%s.antt' % (m[1], m[2], m[3].replace('.', '/'))


USE = re.compile(r'^\s*(?:pub |ghost )*use ([^\s;{]+?)(?:\.\{([^}]*)\}| as (\S+?))?;?$', re.M)


def imports(text):
    """What the `use` lines bring in: name here -> (module, name there). The name '*x' is a module called x."""
    found = {}
    for module, names, alias in USE.findall(text):
        if alias:
            found['*' + alias] = (module, None)
        for name in filter(None, (name.strip() for name in names.split(','))):
            there, _, here = name.partition(' as ')
            found[(here or there).strip()] = (module, there.strip())
    return found


def parts_of(name):
    """The words by which a name is used: those between the places of an operator, as `on` of `◌on◌`."""
    return [part for part in name.split('◌') if part]


@functools.cache
def module(path):
    """The items of an .antt file, by name, and its imports."""
    text = read(path)
    items, scopes, item = {}, [(0, '')], None
    lines = text.splitlines()
    at = 0
    while at < len(lines):
        line = lines[at]
        at += 1
        stripped = line.strip()
        if not stripped or stripped.startswith('--'):
            continue
        indent = len(line) - len(line.lstrip())
        while indent < scopes[-1][0]:
            scopes.pop()
            item = None
        if indent > scopes[-1][0]:
            if item:
                item.text += '\n' + line
                if item.open:
                    item.statement += ' ' + stripped
                for name in re.findall(r'^((?:pub )?\S+(?: \S+)*?) :(?=\s|$)', stripped):
                    item.inner.update(name.replace('pub ', '').split())
            continue
        if re.match(r'module\b', stripped):
            header = stripped
            while not re.search(r'\bwhere$', header):
                header += ' ' + lines[at].strip()
                at += 1
            ahead = next(l for l in lines[at:] if l.strip() and not l.strip().startswith('--'))
            scopes.append((len(ahead) - len(ahead.lstrip()), scopes[-1][1] + ' ' + header))
            item = None
            continue
        m = SIGNATURE.match(stripped)
        if m and not re.match(r'(use|pub use|pub mod|infix|infixr|infixl|unfolding|ruleset)\b', stripped):
            name = m[3] or m[4]
            item = Item(name.split()[0], path, bool(m[2]) or bool(re.search(r'abbrev|unfoldable', m[1])),
                        scopes[-1][1] + ' ' + stripped, stripped)
            items[item.name] = item
        elif item:
            item.open = False
            item.text += '\n' + line
    return items, imports(text)


def laws(crate):
    """The files of a crate's proofs/ that have laws of its definitions: X.antt and those of X/, where specs/ has X.antt."""
    found = []
    for file in sorted(glob.glob('crates/%s/specs/*.antt' % crate)):
        notion = os.path.basename(file)[:-len('.antt')]
        if notion not in ('Lib', 'Private'):
            found += glob.glob('crates/%s/proofs/%s.antt' % (crate, notion))
            found += glob.glob('crates/%s/proofs/%s/**/*.antt' % (crate, notion), recursive=True)
    return found


def antt_files():
    return [path for crate in crates() for kind in ('specs', 'proofs')
            for path in sorted(glob.glob('crates/%s/%s/**/*.antt' % (crate, kind), recursive=True))]


def words_in(text):
    """The words of a text, as names are used in it, but for those that it binds itself."""
    text = re.sub(r'--[^\n]*', ' ', text)
    binders = re.findall(r'[({]([^(){}:⌜]+) : |λ ([^.]*)\.', text)
    bound = {name for names in binders for name in ' '.join(names).split()}
    for token in re.split(r'[\s(){};,"⌜⌝]+', text):
        token = token.strip('.')
        if token and token not in bound:
            yield token
            # of a projection, as `slip.refused`, what is projected and the field
            yield from (part for part in token.split('.') if part and part != token and part not in bound)


@functools.cache
def used_names(path):
    """The words by which a file can use a name, each with the name: its own, and those that it brings in."""
    items, brought = module(path) if path.endswith('.antt') else ({}, imports(read(path)))
    own = {word: name for name in items for word in [name] + parts_of(name)}
    return own, {word: there for name, there in brought.items() for word in [name] + parts_of(name)}


@functools.cache
def resolve(path, name):
    """Where a name that a file uses is defined: (file, name), through `pub use`; a struct's is its crate's src; a name
    of the kit's libraries has its module for a file. None if the file brings in no such name."""
    own, brought = used_names(path)
    if name in own:
        return path, own[name]
    if name in brought:
        return origin_of(*brought[name])
    alias, _, rest = name.partition('.')
    return origin_of(brought['*' + alias][0], rest) if rest and '*' + alias in brought else None


def origin_of(origin, name):
    m = re.match(r'Rattle\.(\w+)\.specs\.declared\.', origin)
    if m and m[1] in crates():
        return 'crates/%s/src' % m[1], name
    file = module_file(origin)
    if not file or not os.path.exists(file):
        return origin, name
    return resolve(file, name) or (file, name)


def reached(path, text):
    """The names that a text of a file uses, with where they are defined, and those that their definitions use."""
    found, waiting = set(), [(path, text)]
    while waiting:
        here, said = waiting.pop()
        for word in set(words_in(said)):
            origin = resolve(here, word)
            if not origin or origin in found:
                continue
            file, name = origin
            item = file.endswith('.antt') and module(file)[0].get(name)
            if not item or item.defines:
                found.add(origin)
            if item and item.defines:
                waiting.append((file, item.text))
    return found
