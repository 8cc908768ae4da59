#!/usr/bin/env python3
"""terminal.py PROGRAM EXPECTED: a person at a terminal. Types commands into the window on a pseudo-terminal, each after
a prompt, and holds what the terminal shows against stored text; ends it by 'quit', by the end of input, and by hanging
up in the middle of a session."""
import os
import pty
import select
import subprocess
import sys
import time

PROMPT = b'> '
PATIENCE = 20
TYPED = ['open 3,2 3,2', 'watch', 'preview 0 3', 'strike 0 3', 'strike 0 3', '', 'x' * 1100, 'strike 0 2', 'watch']
END_OF_INPUT = b'\x04'


class Terminal:
    """A program on a pseudo-terminal. It does not outlive the test."""

    def __init__(self, program):
        self.master, slave = pty.openpty()
        self.process = subprocess.Popen([program], stdin=slave, stdout=slave, stderr=slave, start_new_session=True)
        os.close(slave)

    def __enter__(self):
        return self

    def __exit__(self, *failure):
        if self.process.poll() is None:
            self.process.kill()

    def shown(self, until):
        """What is shown up to the given text, or up to the end."""
        shown = b''
        deadline = time.monotonic() + PATIENCE
        while until is None or not shown.endswith(until):
            ready, _, _ = select.select([self.master], [], [], max(0, deadline - time.monotonic()))
            if not ready:
                sys.exit(f'terminal: waited in vain after {shown[-200:]!r}')
            try:
                more = os.read(self.master, 4096)
            except OSError:
                more = b''
            if not more:
                break
            shown += more
        return shown.replace(b'\r\n', b'\n')

    def type(self, keys):
        os.write(self.master, keys)

    def status(self):
        return self.process.wait(timeout=PATIENCE)


def converse(program, ending):
    """Types all commands and then the ending; what was shown in all, and the exit status."""
    with Terminal(program) as terminal:
        shown = terminal.shown(until=PROMPT)
        for command in TYPED:
            terminal.type(command.encode() + b'\n')
            shown += terminal.shown(until=b'\n' + PROMPT)
        terminal.type(ending)
        shown += terminal.shown(until=None)
        return shown, terminal.status()


def hang_up(program):
    """Closes the terminal under an open session: the program must end, in whatever way."""
    with Terminal(program) as terminal:
        terminal.shown(until=PROMPT)
        terminal.type(b'open 3,2 3,2\n')
        terminal.shown(until=b'\n' + PROMPT)
        os.close(terminal.master)
        terminal.status()


def main():
    program, expected = sys.argv[1:]
    with open(expected, 'rb') as file:
        stored = file.read()
    for ending, tail in [(b'quit\n', b'quit\n'), (END_OF_INPUT, b'\n')]:
        shown, status = converse(program, ending)
        if status != 0:
            sys.exit(f'terminal: exit status {status} after {ending!r}')
        if shown != stored + tail:
            sys.stdout.buffer.write(shown)
            sys.exit(f'terminal: shows other text than {expected}, see above')
    hang_up(program)


main()
