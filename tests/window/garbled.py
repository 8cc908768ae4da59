#!/usr/bin/env python3
"""garbled.py PROGRAM: feeds the window bytes at random and commands with bytes changed, from fixed seeds. It must read
to the end, answer by lines of its own forms alone, write nothing to standard error and end with status 0."""
import os
import random
import re
import subprocess
import sys
import tempfile

ANSWERS = re.compile(rb'''refused\ [0-9]+:\ .*
    | nothing\ is\ open
    | \([0-9,]*\)\ on\ \([0-9,]*\)(,\ gathered)?:\ settled\ -?[0-9]+,\ steps\ [0-9]+\ of\ at\ most\ [0-9]+
    | line\ [0-9]+:\ ([-+]|-?[1-9][0-9]*)\ \([0-9,]+\)\ on\ \([0-9,]+\),\ strike\ .*
    | no\ line\ waits:\ the\ character\ is\ -?[0-9]+
    | would\ come(,\ times\ -?[1-9][0-9]*)?:\ [-+]\ \([0-9,]+\)\ on\ \([0-9,]+\)
      (,\ to\ line\ [0-9]+,\ which\ becomes\ -?[0-9]+(\ and\ goes)?)?
    | no\ line\ would\ come
    | would\ be\ added\ to\ settled:\ -?[0-9]+
    | sum\ of\ the\ waiting\ lines:\ -?[0-9]+
    | settled\ plus\ waiting:\ -?[0-9]+,\ unchanged\ since\ the\ (opening|load)
    | (not\ )?(saved|loaded):?\ .+
    | the\ character\ of\ \([0-9,]*\)\ on\ \([0-9,]*\)\ is\ -?[0-9]+
    | dropped\ (1\ one|([2-9]|[1-3][0-9])\ ones)\ from\ the\ front\ of\ 0x[0-9A-F]{8},\ which\ leaves\ 0x[0-9A-F]{8}
    | (class|\([0-9,]*\))\ .*
    | (open|preview|strike|lines|watch|save|load|character|table|help|quit|SHAPE|With|LINE|FILE('s)?)\ .*''',
                     re.VERBOSE)

# The last command, and its answer: what is read to the end is answered to the end.
LAST = b'\nopen 1 1\n'
LAST_ANSWER = b'(1) on (1): settled 0, steps 0 of at most 1\nline 0: + (1) on (1), strike 1\n'

# How often some answers are met at least.
LEAST = {b'unchanged': 100, b'refused': 1000, b'\nsaved s\n': 50, b'\nloaded s\n': 50, b'\nwould be added': 20,
         b'\ndropped 1 one from': 10, b' ones from': 10, b', gathered: settled': 100, b'\nwould come, times': 5,
         b', which becomes ': 1}

# With these a hook is previewed that is joined to a line, and with the first two takes it out.
SEEDS = (4, 11, 33)

PARTITIONS = ['3,2', '2,2,1', '1,1,1,1,1', '4,1', '5', '0x2C000000', '0x14000000', '2,1', '1', '0x0', '6', '3,2,1']
ONES_IN_FRONT = ['0x56000000', '0x7FFFFFEB']  # of the shape (3,2)


def command(dice):
    """A command of its form, or nearly."""
    shape, cycles = dice.choice(PARTITIONS + ONES_IN_FRONT), dice.choice(PARTITIONS)
    strike = f'strike {dice.randrange(4)} {dice.randrange(6)}'
    preview = f'preview {dice.randrange(2)} {dice.randrange(4)}'
    mode = dice.choice(['', '', ' gathered', ' gathered', ' plain'])
    return dice.choice([f'open {shape} {cycles}{mode}', strike, strike, strike, preview, preview, 'lines', 'watch',
                        'save s', 'load s', f'character {shape} {cycles}', f'table {dice.randrange(7)}', 'help'])


def line(dice):
    """A line of input: a command, a command with a few bytes changed, or any bytes."""
    text = bytearray(command(dice).encode())
    kind = dice.randrange(4)
    if kind == 0:
        text = bytearray(dice.randbytes(dice.choice([0, 1, 5, 30, 200, 999, 1000, 1001, 3000])))
    elif kind == 1:
        for _ in range(dice.randrange(1, 4)):
            text[dice.randrange(len(text))] = dice.randrange(256)
    return bytes(text)


def answered(program, script):
    """The run of a script in a folder of its own. A file's name has one letter, which may be changed: there is no name
    of a file elsewhere that it might become."""
    with tempfile.TemporaryDirectory() as room:
        run = subprocess.run([program], input=script, capture_output=True, timeout=100, cwd=room)
        longer = [name for name in os.listdir(os.fsencode(room)) if len(name) > 1]
    if longer:
        sys.exit(f'garbled: files {longer} are left')
    return run


def main():
    program = os.path.abspath(sys.argv[1])
    for seed in SEEDS:
        dice = random.Random(seed)
        script = b'\n'.join(line(dice) for _ in range(3500))
        script = re.sub(rb'(?m)^[ \t\r]*quit[ \t\r]*$', b'', script)
        run = answered(program, script + LAST)
        if run.returncode != 0 or run.stderr:
            sys.exit(f'garbled: seed {seed} gives status {run.returncode}: {run.stderr[-2000:]}')
        if not run.stdout.endswith(LAST_ANSWER):
            sys.exit(f'garbled: seed {seed} is not read to its end: {run.stdout[-200:]!r}')
        for answer in run.stdout.splitlines():
            if not ANSWERS.fullmatch(answer):
                sys.exit(f'garbled: seed {seed} is answered by {answer!r}')
        if any(run.stdout.count(answer) < least for answer, least in LEAST.items()):
            sys.exit(f'garbled: seed {seed} hardly tries anything')


main()
