#!/usr/bin/env python3
"""header.py HEADER ARCHIVE RUST RATTLE..: holds the C header against the Rattle source, against the Rust declarations
of the comparison and against the names in the archive, since no compiler does. Names, order and widths of parameters
and of the fields of structs must agree. A lent run, &[T] or &mut [T] in Rattle, is a pointer and a 64-bit length in C
and in Rust. It also tries itself: a header that is changed in one place must be found to differ."""
import re
import subprocess
import sys

# Each language's name of a type, and what it is.
NUMBERS = {
    'uint8_t': 'u8', 'uint32_t': 'u32', 'uint64_t': 'u64', 'size_t': 'u64', 'int64_t': 'i64', 'double': 'f64',
    'u8': 'u8', 'u32': 'u32', 'u64': 'u64', 'usize': 'u64', 'i64': 'i64', 'f64': 'f64',
}
STRUCTS = {
    'struct zembrusha_number': 'number', 'struct zembrusha_slip': 'slip', 'struct zembrusha_handed': 'handed',
    'struct zembrusha_loaded': 'loaded', 'struct zembrusha_listed': 'listed', 'struct zembrusha_good': 'good',
    'Number': 'number', 'Listed': 'listed', 'Slip': 'slip', 'CSlip': 'slip', 'Handed': 'handed', 'Loaded': 'loaded',
    'Good': 'good',
}
TYPES = NUMBERS | STRUCTS

# How many refusal numbers there are, 0 for none included; and the kinds of watches, the modes and the limits of
# documents 01 and 02, as the header has to name them.
REFUSALS = 22
KINDS = ['LINE_CHARACTER', 'LINE_RATIO', 'SETTLED', 'WAITING', 'STEPS']
CONSTANTS = {
    'kind': {name: number for number, name in enumerate(KINDS, 1)},
    'mode': {'PLAIN': 0, 'GATHERED': 1},
    'limit': {'DEGREE_LIMIT': 16, 'PAGE_LIMIT': 4096, 'LIST_LIMIT': 4096, 'LONGEST_COLUMN': 231, 'STRIP_ROOM': 16,
              'TEXT_ROOM': 256 + 4096 * 72, 'GATHERED_TEXT_ROOM': 256 + 4096 * 92},
}

# What changes a header so that it no longer fits: a pattern and what takes its place, once.
CHANGES = [
    (r'uint32_t shape, uint32_t class\)', 'uint32_t class, uint32_t shape)'),
    (r'uint32_t shape', 'uint64_t shape'),
    (r'int64_t zembrusha_degree\(', 'uint32_t zembrusha_degree('),
    (r'uint64_t kind, uint64_t line', 'uint64_t line, uint64_t kind'),
    (r'const uint64_t \*page', 'uint64_t *page'),
    (r'uint64_t cycle, uint64_t \*strip', 'uint64_t cycle, const uint64_t *strip'),
    (r'uint64_t cycle, const uint64_t \*strip', 'uint64_t cycle, uint64_t *strip'),
    (r'uint64_t line, uint64_t cycle', 'uint64_t cycle, uint64_t line'),
    (r'struct zembrusha_handed zembrusha_commit', 'struct zembrusha_number zembrusha_commit'),
    (r'int64_t \*values', 'uint64_t *values'),
    (r'double zembrusha_watch_ratio', 'int64_t zembrusha_watch_ratio'),
    (r'uint32_t zembrusha_conjugate\(uint32_t shape\);', ''),
    (r'struct zembrusha_good zembrusha_good_shape', 'uint32_t zembrusha_good_shape'),
    (r'zembrusha_good_shape\(uint32_t word', 'zembrusha_good_shape(uint64_t word'),
    (r'uint32_t word;\s*uint32_t dropped;', 'uint32_t dropped; uint32_t word;'),
    (r'zembrusha_class_sign\(', 'zembrusha_sign('),
    (r'int64_t settled;\s*uint64_t lines;', 'uint64_t lines; int64_t settled;'),
    (r'uint32_t class_word;', 'uint64_t class_word;'),
    (r'const uint8_t \*text', 'uint8_t *text'),
    (r'const uint32_t \*old', 'uint32_t *old'),
    (r'uint32_t \*new, size_t room', 'const uint32_t *new, size_t room'),
    (r'const uint32_t \*new, size_t count, uint32_t \*old', 'const uint32_t *old, size_t count, uint32_t *new'),
    (r'uint32_t refused;\s*uint64_t index;', 'uint64_t index; uint32_t refused;'),
    (r'uint64_t line;\s*struct zembrusha_slip slip;', 'struct zembrusha_slip slip; uint64_t line;'),
    (r'int64_t steps;\s*uint32_t mode;', 'uint32_t mode; int64_t steps;'),
    (r'uint32_t mode;', ''),
    (r'uint32_t mode;', 'uint64_t mode;'),
    (r'const int64_t \*coefficients', 'int64_t *coefficients'),
    (r'size_t words, int64_t \*coefficients, size_t count\);', 'size_t words, int64_t *coefficients);'),
    (r'size_t words, int64_t \*coefficients', 'size_t words, uint64_t *coefficients'),
    (r'uint64_t \*page, size_t words, int64_t \*coefficients, size_t count',
     'int64_t *coefficients, size_t count, uint64_t *page, size_t words'),
    (r'double zembrusha_gathered_watch_ratio', 'int64_t zembrusha_gathered_watch_ratio'),
    (r'zembrusha_gathered_commit\(', 'zembrusha_gather_commit('),
]

# What stands over a struct that C has too.
OF_C = r'#\[repr\(C\)\]\s*(?:#\[derive\([^)]*\)\]\s*)?'


class Surface:
    """What a text declares: for each function its parameters and its result, for each struct its fields."""

    def __init__(self):
        self.functions, self.structs = {}, {}

    def differences(self, other):
        """Where another surface differs, each as one line."""
        for kind in ('functions', 'structs'):
            ours, theirs = getattr(self, kind), getattr(other, kind)
            for name in sorted(ours.keys() | theirs.keys()):
                if ours.get(name) != theirs.get(name):
                    yield f'{name}: {ours.get(name)} and {theirs.get(name)}'


def runs_joined(parameters):
    """A pointer and the length after it as one lent run. A parameter is a name and a type; a pointer's has a '*'."""
    joined = []
    rest = iter(parameters)
    for name, kind in rest:
        if kind.startswith('*'):
            length = next(rest, ('', 'nothing'))
            kind = kind[1:] if length[1] == 'u64' else f'pointer without a length: {kind}'
        joined.append((name, kind))
    return joined


def c_variable(text):
    """The name and the type of a parameter or a field in C."""
    constant, kind, pointer, name = re.fullmatch(r'(const )?((?:struct )?\w+)\s*(\*?)\s*(\w+)', text.strip()).groups()
    if pointer:
        return name, f'*&[{TYPES[kind]}]' if constant else f'*&mut [{TYPES[kind]}]'
    return name, TYPES.get(kind, kind)


def c_surface(text):
    text = re.sub(r'/\*.*?\*/', '', text, flags=re.DOTALL)
    surface = Surface()
    for name, fields in re.findall(r'struct zembrusha_(\w+)\s*\{(.*?)\};', text, re.DOTALL):
        surface.structs[name] = [c_variable(field) for field in fields.split(';') if field.strip()]
    for result, name, parameters in re.findall(r'((?:struct )?\w+) (zembrusha_\w+)\(([^)]*)\);', text):
        parameters = runs_joined(c_variable(one) for one in parameters.split(','))
        surface.functions[name] = (parameters, TYPES.get(result, result))
    return surface


def typed_variable(text):
    """The name and the type of a parameter or a field in Rust and in Rattle."""
    name, kind = re.fullmatch(r'(?:pub )?(\w+): (.+)', text.strip()).groups()
    pointer = re.fullmatch(r'\*(?:const|(mut)) (\w+)', kind)
    run = re.fullmatch(r'&(mut)? ?\[(\w+)\]', kind)
    if pointer or run:
        mutable, element = (pointer or run).groups()
        lent = f'&mut [{TYPES[element]}]' if mutable else f'&[{TYPES[element]}]'
        return name, f'*{lent}' if pointer else lent
    return name, TYPES.get(kind, kind)


def typed_surface(text, function, struct):
    """What a Rust or a Rattle text declares in functions and structs whose names stand as these patterns say."""
    text = re.sub(r'//[^\n]*', '', text)
    surface = Surface()
    for name, fields in re.findall(struct + r'\s*\{(.*?)\}', text, re.DOTALL):
        surface.structs[STRUCTS.get(name, name)] = [typed_variable(one) for one in fields.split(',') if one.strip()]
    for name, parameters, result in re.findall(function + r'\(([^)]*)\) -> (\w+)', text):
        parameters = runs_joined(typed_variable(one) for one in parameters.split(',') if one.strip())
        surface.functions[name] = (parameters, TYPES.get(result, result))
    return surface


def rattle_surface(text):
    exported = r'#\[unsafe\(no_mangle\)\]\s*pub extern "C" fn (\w+)'
    return typed_surface(text, exported, OF_C + r'pub struct (\w+)')


def rust_surface(text):
    return typed_surface(text, r'fn (zembrusha_\w+)', OF_C + r'struct (\w+)')


def archive_names(archive):
    """The names of the calls that the archive defines."""
    listed = subprocess.run(['nm', '-g', '--defined-only', archive], capture_output=True, text=True, check=True).stdout
    return {line.split()[-1] for line in listed.splitlines() if ' T zembrusha_' in line}


def commented(text):
    """The calls of the header that no comment stands over."""
    declared = re.findall(r'(\*/\n)?(?:struct )?\w+ (zembrusha_\w+)\(', text)
    return [name for comment, name in declared if not comment]


def refusals(text):
    """The refusal numbers of the header's enum, each with a name and a comment on its line."""
    body = re.search(r'enum zembrusha_refusal \{(.*?)\};', text, re.DOTALL)[1]
    return [int(number) for number in re.findall(r'^    ZEMBRUSHA_\w+ = (\d+),? +/\* .+ \*/$', body, re.MULTILINE)]


def constants(text, kind):
    """The names and numbers of one of the header's enums."""
    body = re.search(r'enum zembrusha_%s \{(.*?)\};' % kind, text, re.DOTALL)[1]
    return {name: int(number) for name, number in re.findall(r'ZEMBRUSHA_(\w+) = (\d+)', body)}


def faults(header, archive, rust, rattle):
    """Everything that does not fit, each as one line."""
    ours = c_surface(header)
    yield from (f'Rattle source: {one}' for one in ours.differences(rattle_surface(rattle)))
    yield from (f'Rust declarations: {one}' for one in ours.differences(rust_surface(rust)))
    if archive_names(archive) != set(ours.functions):
        yield f'archive: {sorted(archive_names(archive) ^ set(ours.functions))} on one side only'
    yield from (f'no comment over {name}' for name in commented(header))
    if refusals(header) != list(range(REFUSALS)):
        yield f'refusal numbers: {refusals(header)}'
    for kind, named in CONSTANTS.items():
        if constants(header, kind) != named:
            yield f'enum {kind}: {constants(header, kind)}'
    for pattern, change in CHANGES:
        changed, count = re.subn(pattern, change, header, count=1)
        if count != 1 or not list(ours.differences(c_surface(changed))):
            yield f'the change of {pattern} is not seen'


def read(path):
    with open(path, encoding='utf-8') as file:
        return file.read()


def main():
    header, archive, rust, *rattle = sys.argv[1:]
    found = list(faults(read(header), archive, read(rust), '\n'.join(read(path) for path in rattle)))
    if found:
        sys.exit('\n'.join(['header.py: header, and what it is held against:', *found]))


main()
