"""The C functions of a header over those of the module, and that its structs are on this machine as the module has them."""
import re

from kit import TOP
from retarget import NotAsKnown


def text_of(library):
    """A header without its comments, and without the functions whose body stands there."""
    source = re.sub(r'/\*.*?\*/', '', (TOP / f'include/{library}.h').read_text('utf-8'), flags=re.S)
    return re.sub(r'^ODIF_INLINE .*?\n}\n', '', source, flags=re.S | re.M)


def declared_in(library):
    """The functions that a header declares and the archive has: name to result and parameters."""
    found = re.findall(rf'^({library}_\w+) ({library}_\w+)\(([^;{{}}]*)\);', text_of(library), flags=re.M)
    return {name: (result, ' '.join(parameters.split())) for result, name, parameters in found}


def strings_of(library):
    """The functions of the C that stands beside the archive."""
    return re.findall(rf'^const char \*({library}_\w+)\(', text_of(library), flags=re.M)


def assertions(library):
    """That each struct is as large, and each field stands, as include/facts has it: so it is in the module, for every machine."""
    version = re.search(r'^#define ODIF_VERSION +"(\d+\.\d+)', (TOP / 'include/odif.h').read_text('utf-8'), re.M)[1]
    facts = (TOP / f'include/facts-{version}.txt').read_text('utf-8')
    sizes = [f'sizeof({name}) == {size}' for name, size in re.findall(rf'^({library}_\w+) (\d+) octets$', facts, re.M)]
    places = [f'offsetof({struct}, {field}) == {at} && sizeof((({struct} *)0)->{field}) == {size}'
              for struct, field, at, size in re.findall(rf'^({library}_\w+)\.(\w+) at (\d+), (\d+) octets$', facts, re.M)]
    if not sizes:
        raise NotAsKnown(f'include/facts-{version}.txt names no struct of {library}.h')
    return [f'_Static_assert({fact}, "the module has it otherwise");' for fact in sizes + places]


def function_of(library, name, result, parameters):
    """The C function of the header over at_NAME. A struct that comes by value is handed on by its place."""
    given, taken = [], []
    for parameter in parameters.split(', '):
        kind, called = re.fullmatch(r'(.*?)(\w+)', parameter).groups()
        by_value = kind.strip().startswith(library + '_') and '*' not in kind
        given.append('&' + called if by_value else called)
        taken.append(f'const {kind}*{called}' if by_value else parameter)
    return (f'\n__attribute__((visibility("hidden"))) void at_{name}({result} *answer, {", ".join(taken)});\n'
            f'{result} {name}({parameters}) {{\n    {result} answer;\n    at_{name}(&answer, {", ".join(given)});\n    return answer;\n}}')


def functions(library, exports):
    """The C file of a library whose module has these exported functions."""
    declared = declared_in(library)
    names = {export.name for export in exports}
    if names != declared.keys():
        raise NotAsKnown(f'{library}.h and the module differ in {", ".join(sorted(names ^ declared.keys()))}')
    lines = ['#include <stddef.h>', f'#include "{library}.h"', *assertions(library)]
    return '\n'.join(lines + [function_of(library, name, *declared[name]) for name in sorted(names)]) + '\n'
