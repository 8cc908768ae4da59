#!/usr/bin/env python3
"""places.py [COMMIT] [-v]: how many places of each point of docs/DESIGN-PASS.md stand in crates/*/src, in the work tree or
at a commit; -v prints each place. A place is a line; for point 2 a group of functions, for point 5 a fact or a group of
parameters, for point 6 a function."""
import collections
import pathlib
import re
import subprocess
import sys

ROOT = pathlib.Path(__file__).resolve().parent.parent


def sources(commit):
    """The name and the lines of each source, in the work tree or at a commit."""
    if commit is None:
        files = sorted(ROOT.glob('crates/*/src/**/*.rt'))
        return {str(f.relative_to(ROOT)): f.read_text().split('\n') for f in files}
    names = subprocess.run(['git', 'ls-tree', '-r', '--name-only', commit, 'crates'], cwd=ROOT, check=True,
                           capture_output=True, text=True).stdout.split()
    return {name: subprocess.run(['git', 'show', f'{commit}:{name}'], cwd=ROOT, check=True, capture_output=True,
                                 text=True).stdout.split('\n')
            for name in names if '/src/' in name and name.endswith('.rt')}


def lines_like(files, *patterns):
    """Each line that one of the patterns finds."""
    found = [re.compile(pattern) for pattern in patterns]
    return [f'{name}:{n}: {line.strip()}' for name, lines in files.items() for n, line in enumerate(lines, 1)
            if any(pattern.search(line) for pattern in found)]


def functions(files):
    """Each function: its file, its name, its parameters' text, its clauses and its body."""
    for name, lines in files.items():
        text = '\n'.join(lines)
        for m in re.finditer(r'\bfn (\w+)(?:<[^(]*>)?\(', text):
            depth, at = 1, m.end()
            while depth and at < len(text):
                depth += {'(': 1, ')': -1}.get(text[at], 0)
                at += 1
            indent = re.match(' *', text[text.rfind('\n', 0, m.start()) + 1:]).group()
            opened = re.compile(r'\n%s\{$|^(?!.*\bensures\b).* \{$' % indent, re.M).search(text, at)
            body = opened.end() - 1 if opened else -1
            end = text.find('\n%s}' % indent, body)
            if body < 0 or end < 0:
                continue
            yield name, m.group(1), text[m.end():at - 1], text[at:body], text[body:end]


def twins(files):
    """Pairs of functions whose bodies are the same but for names, types and constants."""
    def shape(body):
        """A body without its names and numbers."""
        body = re.sub(r'//[^\n]*', '', body)
        body = re.sub(r'"[^"]*"|\b\w+\b', 'w', body)
        return re.sub(r'\s+', '', body)
    groups = collections.defaultdict(list)
    for name, function, _, _, body in functions(files):
        if body.count('\n') >= 4:
            groups[name.split('/')[1], shape(body)].append(f'{name}: {function}')
    return [' = '.join(group) for group in groups.values() if len(group) > 1]


def repeated(files):
    """Facts in the contracts of three functions of a crate, and parameters that three functions take, always together."""
    facts = collections.defaultdict(set)
    held = collections.defaultdict(set)
    for name, function, parameters, clauses, _ in functions(files):
        crate = name.split('/')[1]
        for clause in re.findall(r'requires[^{]*\{((?:[^{}]|\{[^{}]*\})*)\}', clauses):
            for fact in re.split('×', clause):
                fact = re.sub(r'\s+', ' ', fact).strip(' ()')
                if fact:
                    facts[crate, fact].add(f'{name}: {function}')
        for parameter in parameters.split(','):
            if ':' in parameter:
                held[crate, parameter.strip()].add(f'{name}: {function}')
    together = collections.defaultdict(list)
    for (crate, parameter), where in held.items():
        if len(where) >= 3:
            together[crate, frozenset(where)].append(parameter)
    return ([f'{crate}: {fact} ({len(where)})' for (crate, fact), where in facts.items() if len(where) >= 3]
            + [f'{crate}: {", ".join(group)} ({len(where)})' for (crate, where), group in together.items()
               if len(group) > 1])


def beside(files):
    """Functions that take a slice and, beside it, a place or a length in it, or two slices that run side by side."""
    place = re.compile(r'\b\w+: &(mut )?\[\w+\],?\s*(at|start|lines|count|from|latest): usize')
    return [f'{name}: {function}' for name, function, parameters, clauses, _ in functions(files)
            if place.search(re.sub(r'\s+', ' ', parameters)) or re.search(r'length \w+\.\w+ ≡ length \w+\.\w+', clauses)]


def points(files):
    """The places of each point."""
    return {
        '1': lines_like(files, r'^    (pub )?(refused|formed|found|full|enough|fault): (u8|u32|bool|usize),',
                        r'^pub enum Watched', r'^\s*(pub )?fn .*refus.*-> u(8|32)'),
        '2': twins(files),
        '3': lines_like(files, r'^\s*while '),
        '4': lines_like(files, r'fn (same|equal|both|size|copy\w*|print\w*|decimal|wide)\b',
                        r'\bimpl (PartialEq|Clone|Copy|Ord|PartialOrd|Eq)\b'),
        '5': repeated(files),
        '6': beside(files),
        '7': lines_like(files, r'\bmatch (kind|step|call|which|n)\b', r'\bfn\(', r'\b(old|class): bool'),
    }


def main():
    commits = [a for a in sys.argv[1:] if a != '-v']
    files = sources(commits[0] if commits else None)
    for point, places in points(files).items():
        print(f'point {point}: {len(places)}')
        if '-v' in sys.argv:
            print('\n'.join('    ' + place for place in places))


main()
