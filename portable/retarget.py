"""Makes of rattle's LLVM module, which is for x86-64 Linux, one for another machine.

Five things of the module are x86-64's:
- its data layout, triple and target-cpu. Those that clang gives an empty file for the machine take their place. Nothing else in the code depends on
  them, but for what follows: every place is counted in octets, a pointer stands in eight octets on every machine, and no number becomes a pointer;
- how wide an address is. A copy of octets looks whether its two sides lie over each other, by the difference of their addresses, in 64 bits. A
  machine of 32 bits reads an address in those, and widens it: the difference is the same. And a pair whose second part is a pointer, what an
  iterator gives, is read at once, by a type that has the pointer after eight octets on x86-64 alone: there it is read part by part;
- stack probes, where the machine has no page below the stack that traps;
- copies that do not say where they stand, which a machine that reads no number across its bounds would make octet by octet;
- the exported functions, which take and give back structs as C does on x86-64. They become private. For each there is a function at_NAME that takes
  pointers and numbers alone: where to put the answer, and the parameters. The function of the header over it is in C (calls.py), which clang
  compiles to the machine's own way of calling.

Whatever the module has that this page does not know ends it with a sentence."""
import re
from collections import namedtuple

UNKNOWN = 'ptrtoint', 'inttoptr', ' asm ', 'addrspace', 'x86_', 'llvm.x86', 'indirectbr', 'thread_local', ' va_arg', 'byref', 'inalloca'
Export = namedtuple('Export', 'result name parameters')


class NotAsKnown(Exception):
    """The module or the header has a form that is not known here."""


def replaced(pattern, new, text, what):
    """The text with the one place of a pattern replaced."""
    text, count = re.subn(pattern, lambda _: new, text, flags=re.M)
    if count != 1:
        raise NotAsKnown(f'the module has {count} {what}, and not one')
    return text


def without(pattern, text, what):
    """The text without a pattern that stands once in each group of attributes of rattle's functions, of which there are two: some are marked inline."""
    groups = re.findall(r'^attributes #\d+ = \{ (?:alwaysinline )?nounwind ".*\}$', text, flags=re.M)
    if not groups or any(len(re.findall(pattern, group)) != 1 for group in groups):
        raise NotAsKnown(f'the module has no {what} in a group of attributes, or more than one')
    return re.sub(pattern, '', text)


def for_machine(text, empty, probes):
    """The module with the lines of another machine, which stand in the module that clang made of an empty file."""
    if known := [bad for bad in UNKNOWN if bad in re.sub(r'"[^"]*"', '""', text)]:
        raise NotAsKnown(f'the module has {known[0].strip()}, which is not free of the machine')
    lines = ''.join(re.findall(r'^target (?:datalayout|triple) = .*\n', empty, flags=re.M))
    text = replaced(r'^target datalayout = .*\ntarget triple = .*\n', lines, text, 'pairs of target lines')
    text = without(r' "target-cpu"="x86-64"(?=[ "])', text, 'target-cpu')
    return text if probes else without(r' "probe-stack"="inline-asm"(?: "stack-probe-size"="\d+")?', text, 'probe-stack')


def narrowed(text):
    """The module with addresses that are read in 32 bits, and widened, and with pairs that end with a pointer read in their parts."""
    def parts(found):
        pair, first, place, at = found.groups()
        return (f'  {pair}.first = load {first}, ptr {place}, align {at}\n  {pair}.place = getelementptr i8, ptr {place}, i64 8\n'
                f'  {pair}.second = load ptr, ptr {pair}.place, align {at}\n'
                f'  {pair}.half = insertvalue {{ {first}, ptr }} poison, {first} {pair}.first, 0\n'
                f'  {pair} = insertvalue {{ {first}, ptr }} {pair}.half, ptr {pair}.second, 1')
    text = re.sub(r'^  (%[\w.]+) = load \{ (i\d+|ptr), ptr \}, ptr (%[\w.]+), align (8)$', parts, text, flags=re.M)
    if known := re.search(r'\b(?:load|store) \{ [^}]*, ptr\b[^}]*\}', text):
        raise NotAsKnown(f'the module has {known[0]}, of which the pointer stands elsewhere in 32 bits')
    return re.sub(r'^  (%[\w.]+) = ptrtoaddr ptr (%[\w.]+) to i64$', r'  \1.read = ptrtoaddr ptr \2 to i32\n  \1 = zext i32 \1.read to i64', text, flags=re.M)


def aligned_in(function, checked):
    """A function whose copies of whole locals say where both sides stand: a copy of all of a local is of the local's type, so the other side stands
    as the local does. checked: a test calls `stands` of both sides first."""
    stands = {name: (size, at) for name, size, at in re.findall(r'^  (%r\d+) = alloca \[(\d+) x i8\], align (\d+)$', function, flags=re.M)}

    def copy(found):
        to, of, size = found.groups()
        ats = [stands[local][1] for local in (to, of) if local in stands and stands[local][0] == size]
        if not ats:
            return found[0]
        before = ''.join(f'  call void @stands(ptr {side}, i64 {ats[0]})\n' for side in (to, of)) if checked else ''
        return f'{before}  call void @llvm.memmove.p0.p0.i64(ptr align {ats[0]} {to}, ptr align {ats[0]} {of}, i64 {size}'
    return re.sub(r'^  call void @llvm\.memmove\.p0\.p0\.i64\(ptr (%\w+), ptr (%\w+), i64 (\d+)', copy, function, flags=re.M)


def aligned(text, checked=False):
    """The module with copies that say where they stand."""
    text = ''.join(aligned_in(function, checked) for function in re.split(r'(?<=^})', text, flags=re.M))
    return text.replace('\ndeclare ', '\ndeclare void @stands(ptr, i64)\n\ndeclare ', 1) if checked else text


def exports_of(text):
    return [Export(result.replace('noundef', '').strip(), name, parameters.split(', '))
            for result, name, parameters in re.findall(r'^define (?!internal)(.*?)@(\w+)\((.*)\) #0 \{$', text, flags=re.M)]


def parameter_of(export, number, parameter, bits):
    """Of a parameter: how at_NAME takes it, what it does with it first, and how it hands it on."""
    kind = re.sub(r' %a\d+$', '', parameter)
    base = kind.split()[0]
    if base == 'i64' and bits == 32:
        return f'i32 noundef %a{number}', [f'  %w{number} = zext i32 %a{number} to i64'], f'i64 noundef %w{number}'
    if base in ('i64', 'i32'):
        return f'{base} noundef %a{number}', [], f'{base} noundef %a{number}'
    if base == 'ptr':
        return f'ptr noundef %a{number}', [], f'{kind} %a{number}'
    raise NotAsKnown(f'{export.name} has a parameter {parameter}')


def stores_of(export):
    """The lines that put what an exported function gives back in registers to the answer's place."""
    if export.result == 'i64':
        return ['  store i64 %r, ptr %out, align 4']
    if export.result in ('{ i64, i64 }', '{ i64, i32 }'):
        second = export.result[-5:-2]
        return [f'  %r0 = extractvalue {export.result} %r, 0', '  store i64 %r0, ptr %out, align 4', f'  %r1 = extractvalue {export.result} %r, 1',
                '  %p1 = getelementptr i8, ptr %out, i64 8', f'  store {second} %r1, ptr %p1, align 4']
    raise NotAsKnown(f'{export.name} gives back {export.result}')


def entry_of(export, bits):
    """The function at_NAME. A large answer's place is the first parameter of the exported function already."""
    heads, before, call = zip(*(parameter_of(export, *numbered, bits) for numbered in enumerate(export.parameters)))
    lines = [line for lines in before for line in lines] + [f'  %r = call {export.result} @x86_{export.name}({", ".join(call)})']
    if export.result != 'ptr':
        heads, lines = ('ptr noundef %out', *heads), lines + stores_of(export)
    return f'define hidden void @at_{export.name}({", ".join(heads)}) #0 {{\n' + '\n'.join(lines) + '\n  ret void\n}\n'


def with_entries(text, exports, bits):
    """The module with its exported functions private, and the functions at_NAME."""
    text = re.sub(r'^define (?!internal)(.*?)@(\w+)\(', r'define internal \1@x86_\2(', text, flags=re.M)
    at = text.index('\ndeclare ')
    return text[:at] + '\n' + '\n'.join(entry_of(export, bits) for export in exports) + text[at:]
