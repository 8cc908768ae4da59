#!/usr/bin/env python3
"""storing.py PROGRAM FAILING: sessions put away in files and taken up by another run of the window; texts that are
refused; a page that is full; files that the system will not read or write, and what is left of them. FAILING is the
window linked with failing.c. All files are in a temporary folder; where this runs as root, the window runs as somebody
with fewer rights."""
import errno
import os
import resource
import shutil
import signal
import stat
import subprocess
import sys
import tempfile

NOBODY = 65534

# A session by its commands, and its text after two of them: that of the request.
COMMANDS = ['open 4,2,1 2,2,1,1,1', 'strike 0 1', 'preview 1 2', 'strike 1 2', 'strike 0 2', 'watch', 'strike 2 1',
            'strike 0 1', 'preview 0 1', 'strike 0 2', 'watch']
BEGUN = ['open 3,2 3,2', 'strike 0 3']
TEXT = 'degree=5\nshape=3,2\nclass=3,2\nsteps=1\nsettled=0\nlines=1\nline=-;1,1;2\n'
OLD = 'what was there before\n'

# The same of a gathered session.
GATHERED_COMMANDS = ['open 4,2,1 2,2,1,1,1 gathered', 'strike 0 1', 'preview 1 2', 'strike 1 2', 'strike 0 1', 'watch',
                     'strike 2 1', 'strike 0 1', 'preview 0 1', 'strike 0 2', 'watch']
GATHERED_BEGUN = ['open 4,4 2,2,2,2 gathered', 'strike 0 2', 'strike 0 2', 'strike 0 2']
GATHERED_TEXT = ('mode=gathered\ndegree=8\nshape=4,4\nclass=2,2,2,2\nsteps=3\nsettled=0\nlines=3\n'
                 'line=2;2,2;2,2\nline=-1;3,1;2,2\nline=1;4;2,2\n')

# What each line of a text has to be, as the window says it.
FORMS = ["degree= and the shape's degree, without needless zeros", 'shape= and a partition of at most 16, as shape=3,2',
         'class= and a partition of at most 16, as class=3,2', 'steps= and a number below 2^63, without needless zeros',
         'settled= and a number of 64 bits, without needless zeros and with a minus only where it is negative',
         'lines= and the number of all lines after it, without needless zeros',
         'line=, sign, and shape and class, partitions of at most 16, as line=-;1,1;2']
GATHERED_FORMS = ['mode=gathered', *FORMS[:6],
                  'line=, coefficient, a number of 64 bits as settled is, and shape and class, partitions of at most '
                  '16, as line=-3;1,1;2']


def changed(old, new, text=TEXT):
    """The text with something changed in one place."""
    before, after = text.split(old)
    return before + new + after


def gathered(old, new):
    """The gathered text with something changed in one place."""
    return changed(old, new, GATHERED_TEXT)


def page_of(lines, count=None):
    """A text of degree 16 with so many waiting lines of degree 1."""
    head = 'degree=16\nshape=16\nclass=16\nsteps=0\nsettled=0\nlines=%d\n' % (lines if count is None else count)
    return head + 'line=+;1;1\n' * lines


def partitions(degree, most):
    """The partitions of a degree into parts of at most `most`, as they are written, longest part first."""
    if degree == 0:
        return ['']
    return [f'{part},{rest}'.rstrip(',') for part in range(min(degree, most), 0, -1)
            for rest in partitions(degree - part, part)]


def gathered_page(count=4096):
    """A gathered text of so many different lines, all shapes on all classes of degree 10 and some of degree 11, and the
    lines that it is taken from."""
    lines = [f'line=2;{shape};{cycles}\n' for degree in (10, 11) for shape in partitions(degree, degree)
             for cycles in partitions(degree, degree)]
    head = 'mode=gathered\ndegree=16\nshape=16\nclass=16\nsteps=0\nsettled=0\nlines=%d\n' % count
    return head + ''.join(lines[:count]), lines


# Texts that are refused: by 16 at this line, or by 10 or 7.
BAD_TEXTS = {
    1: ['', '\n', 'degree=5', TEXT.replace('\n', '\r\n'), '\ufeff' + TEXT, changed('degree=5', 'degree=05'),
        changed('degree=5', 'degree=6'), 'x' * 3_000_000, '\n' * 3_000_000, TEXT[1:]],
    2: [changed('shape=3,2', 'shape=2,3'), changed('shape=3,2', 'shape=17'), 'degree=5\nshape=3,2'],
    3: [changed('class=3,2', 'class=3,2,'), changed('class=3,2', 'class=9,8')],
    4: ['degree=5\nshape=3,2\nclass=3,2\n', changed('steps=1', 'steps=9223372036854775808')],
    5: [changed('settled=0', 'settled=-0'), changed('settled=0', 'settled=+1')],
    6: [changed('lines=1', 'lines=0'), changed('lines=1', 'lines=2'), TEXT + '\n', page_of(4096, 4095)],
    7: [changed('line=-', 'line='), changed(';2\n', ';2'), changed(';1,1', ';1, 1')],
    8: [TEXT.replace('lines=1', 'lines=2') + 'line=-;1,1;2'],
}
BAD_GATHERED = {
    1: ['mode=', 'mode=gathered', gathered('mode=gathered', 'mode=plain'), GATHERED_TEXT.replace('\n', '\r\n')],
    2: ['mode=gathered\n', gathered('degree=8', 'degree=7'), 'mode=gathered\n' + GATHERED_TEXT],
    7: [gathered('lines=3', 'lines=4'), GATHERED_TEXT + '\n'],
    8: [gathered('line=2;', 'line=+2;'), gathered('line=2;', 'line=+;'), gathered('line=2;', 'line=02;')],
    9: [gathered('line=-1', 'line=-0'), gathered('line=-1', 'line=9223372036854775808')],
    10: [GATHERED_TEXT[:-1]],
}
TOO_MANY = [page_of(4097), page_of(200_000), gathered_page(4097)[0]]
NOT_SOUND = [changed('line=-;1,1;2', 'line=+;;'), changed('settled=0', 'settled=120'), changed('steps=1', 'steps=207'),
             changed('class=3,2', 'class=3,1'), changed(';2\n', ';3\n')]
GATHERED_NOT_SOUND = [gathered('line=2;', 'line=0;'), gathered('line=2;', 'line=-9223372036854775808;'),
                      gathered(';3,1;', ';2,2;')]

# The calls that fail in a save and in a load, and how.
SAVE_FAILURES = {'malloc': errno.ENOMEM, 'realpath': errno.EIO, 'mkstemp': errno.ENOSPC, 'write': errno.ENOSPC,
                 'fchmod': errno.EPERM, 'fsync': errno.EIO, 'close': errno.EDQUOT, 'rename': errno.EBUSY}
LOAD_FAILURES = {'fstat': errno.EIO, 'realloc': errno.ENOMEM, 'read': errno.EIO}


def lower_rights():
    """Those of nobody, where this runs as root and may give its own up."""
    rights = {'user': NOBODY, 'group': NOBODY, 'extra_groups': []}
    try:
        if os.geteuid() == 0 and subprocess.run(['true'], **rights).returncode == 0:
            return rights
    except PermissionError:
        pass
    return {}


class Desk:
    """A folder of its own, in which the window is run."""

    def __init__(self, folder, program, failing):
        self.folder, self.rights = folder, lower_rights()
        self.program, self.failing = (self.copied(path) for path in (program, failing))
        self.desk = self.path('desk')
        os.mkdir(self.desk)
        self.give(self.desk)
        os.chmod(folder, 0o755)

    def give(self, path):
        """Gives a file or a folder to whoever runs the window."""
        if self.rights:
            os.chown(path, NOBODY, NOBODY)

    def path(self, *names):
        return os.path.join(self.folder, *names)

    def copied(self, program):
        """A copy that everybody may run."""
        copy = self.path(os.path.basename(program))
        shutil.copyfile(program, copy)
        os.chmod(copy, 0o755)
        return copy

    def answers(self, commands, program=None, **more):
        """The lines that the window answers."""
        script = ''.join(command + '\n' for command in commands).encode()
        run = subprocess.run([program or self.program], input=script, capture_output=True, cwd=self.desk, timeout=100,
                             **self.rights, **more)
        if run.returncode != 0 or run.stderr:
            sys.exit(f'storing: {commands} gives status {run.returncode}: {run.stderr[-2000:]}')
        return run.stdout.decode().splitlines()

    def after(self, begun, commands, **more):
        """What is answered to commands after those with which a session has begun."""
        return self.answers([*begun, *commands], **more)[len(self.answers(begun)):]

    def write(self, name, text):
        """A file that belongs to whoever runs the window."""
        path = self.path('desk', name)
        with open(path, 'w', encoding='utf-8', newline='') as file:
            file.write(text)
        self.give(path)
        return path

    def read(self, name):
        with open(self.path('desk', name), encoding='utf-8', newline='') as file:
            return file.read()

    def files(self):
        return sorted(os.listdir(self.desk))

    def clear(self):
        shutil.rmtree(self.desk)
        os.mkdir(self.desk)
        self.give(self.desk)


def same(answer, expected, what):
    if answer != expected:
        sys.exit(f'storing: {what}: {answer!r}, and not {expected!r}')


def take_up(desk):
    """A session that is put away anywhere and taken up by another run goes on as the one that was not."""
    for commands, cut in [(both, at) for both in (COMMANDS, GATHERED_COMMANDS) for at in range(1, len(both))]:
        begun, left = commands[:cut], commands[cut:]
        stands = desk.after(begun, ['lines'])
        same(desk.after(begun, ['save friday']), ['saved friday', *stands], f'a save after {begun}')
        unbroken = [line.replace('the opening', 'the load') for line in desk.after(begun, left)]
        same(desk.answers(['load friday', *left]), ['loaded friday', *stands, *unbroken], f'a load before {left}')
    same(desk.files(), ['friday'], 'files after saves')
    for begun, text in [(GATHERED_BEGUN, GATHERED_TEXT), (BEGUN, TEXT)]:
        desk.answers([*begun, 'save friday'])
        same(desk.read('friday'), text, 'the text')


def put_in_place(desk):
    """What a save leaves: the new text, the old permissions, links that are links, and no other file."""
    desk.answers([*BEGUN, 'save new'], umask=0o027)
    same(stat.S_IMODE(os.stat(desk.path('desk', 'new')).st_mode), 0o640, 'permissions of a new file')
    os.chmod(desk.write('old', OLD * 100), 0o604)
    os.mkdir(desk.path('desk', 'folder'))
    os.symlink('../old', desk.path('desk', 'folder', 'link'))
    desk.answers([*BEGUN, 'save folder/link'])
    same(desk.read('old'), TEXT, 'the text behind a link')
    same(stat.S_IMODE(os.stat(desk.path('desk', 'old')).st_mode), 0o604, 'permissions of an old file')
    same(os.path.islink(desk.path('desk', 'folder', 'link')), True, 'the link')
    names = ['b c', 'ä', 'x' * 255]
    for name in names:
        same(desk.after(BEGUN, [f'save  {name} \t'])[0], f'saved {name}', 'a name')
    same(desk.after(BEGUN, ['save d\x1b[2J\x7f'])[0], 'saved d?[2J?', 'a name that a terminal would obey')
    same(desk.files(), sorted([*names, 'd\x1b[2J\x7f', 'folder', 'new', 'old']), 'files')
    same(os.listdir(desk.path('desk', 'folder')), ['link'], 'files in the folder')


def refuse_texts(desk):
    """A refused load shows number, line and reason, and the session, of either mode, stays as it was, page and
    display."""
    form = 'refused 16: the text is not of its form: line %d is not %s, and a newline'
    cases = [(form % (line, forms[min(line, len(forms)) - 1]), text)
             for forms, bad in [(FORMS, BAD_TEXTS), (GATHERED_FORMS, BAD_GATHERED)]
             for line, texts in bad.items() for text in texts]
    cases += [('refused 10: the page has no room for so many lines', text) for text in TOO_MANY]
    cases += [('refused 7: slip and page are not sound', text) for text in NOT_SOUND]
    cases += [('refused 7: slip, page and coefficients are not sound', text) for text in GATHERED_NOT_SOUND]
    for refusal, text in cases:
        desk.write('friday', text)
        for begun in BEGUN, GATHERED_BEGUN:
            stands = desk.after(begun, ['lines', 'watch'])
            same(desk.after(begun, ['load friday', 'watch']), [refusal, *stands], f'a load of {text[:200]!r}')
        same(desk.answers(['load friday']), [refusal, 'nothing is open'], f'a load of {text[:200]!r}')
        same(desk.read('friday'), text, 'the text that is refused')
    desk.write('friday', page_of(4096))
    same(len(desk.answers(['load friday'])), 3 + 4096, 'lines shown of a full page')


def take_up_others(desk):
    """A text that somebody changed is taken up where it is sound, and is not taken for a session of ours."""
    desk.write('friday', changed('settled=0', 'settled=5'))
    same(desk.answers(['load friday', 'strike 0 2']),
         ['loaded friday', 'this session began with no opening: settled plus waiting is 6, the character is 1',
          '(3,2) on (3,2): settled 5, steps 1 of at most 206', 'line 0: - (1,1) on (2), strike 2',
          '(3,2) on (3,2): settled 6, steps 2 of at most 206', 'no line waits: settled is 6, the character is 1'],
         'a text that was changed')
    desk.write('friday', gathered('line=-1;', 'line=-2;'))
    same(desk.answers(['load friday'])[1],
         'this session began with no opening: settled plus waiting is 7, the character is 6',
         'a gathered text that was changed')


def fill_page(desk):
    """On a full page a preview shows the lines of a strike that is refused by 10; both leave the session as it was."""
    full = page_of(4095, 4096) + 'line=-;2,1;1,1,1\n'
    desk.write('friday', full)
    loaded, lines = ['load friday'], ['would come: - (1,1) on (1,1)', 'would come: - (2) on (1,1)']
    stands = desk.after(loaded, ['lines'])
    refusal = 'refused 10: the page has no room for so many lines'
    same(desk.after(loaded, ['preview 4095 1', 'strike 4095 1', 'save friday']),
         [*lines, f'a strike would be {refusal}', *stands, refusal, *stands, 'saved friday', *stands],
         'a strike that has too little room')
    same(desk.read('friday'), full, 'the text of a full page')
    same(desk.after(loaded, ['preview 7 1']),
         ['no line would come', 'would be added to settled: 1', *stands], 'a strike that needs no room')
    room = [*loaded, 'strike 7 1']
    same(desk.after(room, ['preview 4094 1'])[:3], [*lines, 'would be added to settled: 0'], 'just enough room')
    same(desk.after(room, ['strike 4094 1'])[-2:],
         ['line 4094: - (1,1) on (1,1), strike 1', 'line 4095: - (2) on (1,1), strike 1'], 'the last lines of a page')


def fill_gathered_page(desk):
    """On a full gathered page a strike has room where its hooks are joined to lines that wait, and else is refused."""
    text, lines = gathered_page()
    desk.write('friday', text)
    new, joined = lines.index('line=2;9,1;9,1\n'), lines.index('line=2;9,2;10,1\n')
    loaded, refusal = ['load friday'], 'refused 10: the page has no room for so many lines'
    stands = desk.after(loaded, ['lines'])
    same(desk.after(loaded, [f'preview {new} 1', f'strike {new} 1', 'save friday']),
         ['would come, times 2: + (8,1) on (9)', 'would come, times 2: + (9) on (9)', f'a strike would be {refusal}',
          *stands, refusal, *stands, 'saved friday', *stands], 'a strike whose hooks are not joined')
    same(desk.read('friday'), text, 'the text of a full gathered page')
    met = [lines.index(f'line=2;{shape};10\n') for shape in ('8,2', '9,1')]
    same(desk.after(loaded, [f'preview {joined} 1'])[:3],
         [f'would come, times 2: + (8,2) on (10), to line {met[0]}, which becomes 4',
          f'would come, times 2: + (9,1) on (10), to line {met[1]}, which becomes 4', 'would be added to settled: 0'],
         'joined hooks')
    struck = desk.after(loaded, [f'strike {joined} 1'])
    same([len(struck), *(struck[1 + line] for line in met)],
         [1 + 4095, f'line {met[0]}: 4 (8,2) on (10), strike 10', f'line {met[1]}: 4 (9,1) on (10), strike 10'],
         'a strike whose hooks are joined')


def refused_by_system(desk, command, words, **more):
    """A save or a load that the system refuses: it says so, the session goes on, and all files are as they were."""
    before = [(name, os.lstat(desk.path('desk', name))) for name in desk.files()]
    verb, name = command.split(' ', 1)
    done = {'save': 'saved', 'load': 'loaded'}[verb]
    expected = [f'not {done}: {name}: {words}', *desk.after(BEGUN, ['lines', 'strike 0 2'])]
    same(desk.after(BEGUN, [command, 'strike 0 2'], **more), expected, f'{command} with {more}')
    found = [(name, os.lstat(desk.path('desk', name))) for name in desk.files()]
    same([(name, kept.st_ino, kept.st_size, kept.st_mtime_ns) for name, kept in found],
         [(name, kept.st_ino, kept.st_size, kept.st_mtime_ns) for name, kept in before], f'files after {command}')


def refuse_files(desk):
    """Files that are not there, are none, or may not be read or written."""
    os.chmod(desk.write('read only', OLD), 0o444)
    os.chmod(desk.write('write only', OLD), 0o222)
    os.mkfifo(desk.path('desk', 'pipe'))
    os.symlink('loop', desk.path('desk', 'loop'))
    os.mkdir(desk.path('desk', 'folder'))
    os.mkdir(desk.path('desk', 'locked'))
    os.chmod(desk.path('desk', 'locked'), 0o555)
    refusals = {
        'load friday': errno.ENOENT, 'load folder/friday': errno.ENOENT, 'save no folder/friday': errno.ENOENT,
        'load folder': errno.EISDIR, 'save folder': errno.EISDIR, 'save folder/': errno.EISDIR, 'save /': errno.EISDIR,
        'load read only/friday': errno.ENOTDIR, 'save read only/friday': errno.ENOTDIR,
        'load loop': errno.ELOOP, 'save loop': errno.ELOOP,
        'load ' + 'x' * 256: errno.ENAMETOOLONG, 'save ' + 'x' * 256: errno.ENAMETOOLONG}
    for command, number in refusals.items():
        refused_by_system(desk, command, os.strerror(number))
    for command in ['load pipe', 'save pipe']:
        refused_by_system(desk, command, 'Not a regular file')
    if desk.rights or os.geteuid() != 0:
        for command in ['load write only', 'save read only', 'save locked/friday']:
            refused_by_system(desk, command, os.strerror(errno.EACCES))


def full_disk():
    """No file gets longer than ten bytes."""
    signal.signal(signal.SIGXFSZ, signal.SIG_IGN)
    resource.setrlimit(resource.RLIMIT_FSIZE, (10, 10))


def fail(desk):
    """The system fails in the middle: what was there before is there, and nothing else."""
    desk.write('friday', OLD)
    words = os.strerror(errno.EFBIG)
    for name in ['friday', 'monday']:
        refused_by_system(desk, f'save {name}', words, preexec_fn=full_disk)
    for verb, failures in [('save', SAVE_FAILURES), ('load', LOAD_FAILURES)]:
        for call, number in failures.items():
            failing = {'program': desk.failing, 'env': {'FAIL': call, 'FAIL_NUMBER': str(number)}}
            refused_by_system(desk, f'{verb} friday', os.strerror(number), **failing)
    same(desk.read('friday'), OLD, 'the old file')
    slow = {'program': desk.failing, 'env': {'FAIL': 'slow'}}
    desk.answers([*BEGUN, 'save friday'], **slow)
    same(desk.read('friday'), TEXT, 'a text that is written three bytes at a time')
    same(desk.answers(['load friday'], **slow)[0], 'loaded friday', 'a text that is read three bytes at a time')


def main():
    program, failing = sys.argv[1:]
    with tempfile.TemporaryDirectory() as folder:
        desk = Desk(folder, program, failing)
        for part in [take_up, put_in_place, refuse_texts, take_up_others, fill_page, fill_gathered_page, refuse_files,
                     fail]:
            part(desk)
            desk.clear()


main()
