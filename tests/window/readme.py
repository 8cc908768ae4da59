#!/usr/bin/env python3
"""readme.py PROGRAM < README: follows the README as a new user would. What is typed after its prompts gives what
stands below them, in one run of the window from top to bottom; and each program in it, built and run by the command
that stands below it, writes what that line says. Run it in the repository."""
import os
import re
import subprocess
import sys
import tempfile

FILES = {'c': 'five.c', 'rust': 'five.rs'}


def typed_and_shown(text):
    """The commands after prompts, and the lines that the window is said to show."""
    typed, shown = [], []
    for block in re.findall(r'(?:^    .*\n)+', text, re.MULTILINE):
        if block.startswith('    > '):
            for line in block.splitlines():
                (typed if line.startswith('    > ') else shown).append(line[4:])
    return [line[2:] for line in typed], shown


def follow_sessions(program, text):
    typed, shown = typed_and_shown(text)
    script = '\n'.join(typed)
    with tempfile.TemporaryDirectory() as room:
        answer = subprocess.run([os.path.abspath(program)], input=script, capture_output=True, text=True, check=True,
                                cwd=room).stdout
    if not typed or answer.splitlines() != shown:
        sys.exit(f'readme: the window shows\n{answer}')


def follow_examples(text):
    examples = re.findall(r'```(c|rust)\n(.*?)```\n\n    ([^\n]*?) +# writes ([^\n]*)\n', text, re.DOTALL)
    if [language for language, *_ in examples] != list(FILES):
        sys.exit('readme: the examples are not one for each language')
    for language, source, command, writes in examples:
        with tempfile.TemporaryDirectory() as room:
            for name in ('window', 'target'):
                os.symlink(os.path.abspath(name), os.path.join(room, name))
            with open(os.path.join(room, FILES[language]), 'w', encoding='utf-8') as file:
                file.write(source)
            written = subprocess.run(command, shell=True, cwd=room, capture_output=True, text=True, check=True).stdout
        if written != writes + '\n':
            sys.exit(f'readme: {command} writes {written}')


def main():
    text = sys.stdin.read()
    follow_sessions(sys.argv[1], text)
    follow_examples(text)


main()
