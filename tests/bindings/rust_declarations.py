#!/usr/bin/env python3
"""Compares the declarations of a binding for Rust with the header: rust_declarations.py HEADER FFI.RS.

Each function, struct and constant that stands in FFI.RS has to be the header's: the same arguments and fields, of the
same types, in the same order. All statuses but the one of parts, and all hash functions, have to be there. The last
line is 'N passed, M failed'. With one word more, `structs`, a program in C is printed instead, which prints size and
alignment of the structs, and place and size of each of their fields, as the test `structs` of FFI.RS does.
"""
import re
import sys

STRUCTS = {'verity_params': 'Params', 'fsverity_params': 'FileParams', 'verity_build': 'Build', 'verity_fed': 'Fed'}
TYPES = {'uint8_t': 'u8', 'char': 'u8', 'uint32_t': 'u32', 'uint64_t': 'u64', 'size_t': 'usize', 'int': 'i32'}

header = re.sub(r'/\*.*?\*/', '', open(sys.argv[1]).read(), flags=re.S)
rust = re.sub(r'//[^\n]*', '', open(sys.argv[2]).read()).split('#[cfg(test)]')[0]
one_line = re.sub(r'\s+', ' ', header)


def in_rust(declared):
    """Name and type, in Rust, of an argument or field in C."""
    whole = re.fullmatch(r'(const )?(struct )?(\w+) (\*?)(\w+)(?:\[(\d+)\])?', declared.strip())
    is_const, is_struct, kind, is_pointer, name, count = whole.groups()
    kind = STRUCTS.get(kind, kind) if is_struct else TYPES[kind]
    if is_pointer:
        kind = ('*const ' if is_const else '*mut ') + kind
    return name, f'[{kind}; {count}]' if count else kind


def fields_in_c(name):
    return [in_rust(field) for field in re.search(rf'struct {name} {{(.*?)}};', one_line)[1].split(';')[:-1]]


if sys.argv[3:] == ['structs']:
    print('#include <stdalign.h>\n#include <stddef.h>\n#include <stdio.h>\n#include "verity.h"\nint main(void)\n{')
    for name in STRUCTS:
        print(f'    printf("struct {name} %zu %zu\\n", sizeof(struct {name}), alignof(struct {name}));')
        for field, _ in fields_in_c(name):
            print(f'    printf("field {name}.{field} %zu %zu\\n", offsetof(struct {name}, {field}), '
                  f'sizeof(((struct {name} *)0)->{field}));')
    print('    return 0;\n}')
    sys.exit()

passed = failed = 0


def same(what, expected, found):
    global passed, failed
    if expected == found:
        passed += 1
    else:
        failed += 1
        print(f'FAILED {what}\n    expected: {expected}\n    found:    {found}')


prototypes = {name: (TYPES[answer], [in_rust(word) for word in words.split(',')])
              for answer, name, words in re.findall(r'VERITY_MUST_CHECK (int) (\w+)\((.*?)\);', one_line)}
functions = re.findall(r'pub fn (\w+)\((.*?)\) -> (\w+);', re.sub(r'\s+', ' ', rust))
same('functions', rust.count('pub fn'), len(functions))
for name, words, answer in functions:
    words = [tuple(word.strip().split(': ', 1)) for word in words.split(',') if word.strip()]
    same(name, prototypes.get(name), (answer, words))

for name, struct in STRUCTS.items():
    whole = re.search(rf'#\[repr\(C\)\]\s*#\[derive\(Clone, Copy\)\]\s*pub struct {struct} {{(.*?)}}', rust, re.S)
    fields = re.findall(r'pub (\w+): ([^,]+),', whole[1]) if whole else None
    same(f'struct {name}', fields_in_c(name), fields)
same('structs', len(STRUCTS), rust.count('pub struct'))

numbers = dict(re.findall(r'\bVERITY_(\w+) = (-?\d+)', one_line))
statuses = sorted(name for name in numbers if name != 'NO_SUCH_PART')
numbers.update(re.findall(r'#define VERITY_(\w+) (\d+)', header))
constants = re.findall(r'pub const (\w+): \w+ = (-?\d+);', rust)
for name, number in constants:
    same(name, numbers.get(name), number)
same('statuses and hash functions', statuses, sorted(name for name, _ in constants if not name.startswith('MAX_')))
print(f'{passed} passed, {failed} failed')
sys.exit(failed > 0)
