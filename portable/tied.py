"""What ties the machines to the proof: the captured module is what the proved archive was made of, and a form that is not known is refused."""
import pathlib
import shutil
import subprocess

import calls
import retarget
from kit import TOP
from machines import HERE, Failed, run

# A library of one function, which is proved in a second.
TINY = '#![tactic(auto)]\n\n#[unsafe(no_mangle)]\npub extern "C" fn tiny(n: u32) -> u32 {\n    n & 7\n}\n'


def same_archive(room):
    """`portable/capture` writes the archive that `rt lib` writes, octet for octet, and a module besides."""
    top = room.folder / 'tiny'
    (top / 'crates/tiny/src').mkdir(parents=True)
    (top / 'crates.txt').write_text('tiny staticlib:\n', 'utf-8')
    (top / 'crates/tiny/src/lib.rt').write_text(TINY, 'utf-8')
    (top / 'portable').mkdir()
    shutil.copy(HERE / 'capture', top / 'portable')
    archive, kept = top / 'crates/tiny/out/libtiny.a', top / 'target/staticlib'
    run('rt', 'lib', '--cpu=x86-64', cwd=top / 'crates/tiny')
    plain = archive.read_bytes()
    archive.unlink()
    run(top / 'portable/capture', 'tiny', 'small')
    if (kept / 'libsmall.a').read_bytes() != plain:
        raise Failed('it is another archive')
    if not (kept / 'small.bc').stat().st_size:
        raise Failed('there is no module')
    return 'octet for octet'


def same_object(room, library):
    """The captured module, compiled with the noted words, is the archive's own object."""
    out = room.folder / f'module-{library}'
    out.mkdir()
    for kept in 'bc', 'words':
        if not (TOP / f'target/staticlib/{library}.{kept}').exists():
            raise Failed(f'target/staticlib/{library}.{kept} is not there: packaging/archive {library} makes it')
    shutil.copy(TOP / f'target/staticlib/{library}.bc', out / 'module.bc')
    member = run(room.kit.tool('llvm-ar'), 't', TOP / f'target/staticlib/lib{library}.a').decode().strip()
    run(room.kit.tool('llvm-ar'), 'x', TOP / f'target/staticlib/lib{library}.a', cwd=out)
    run(room.kit.tool('clang'), *(TOP / f'target/staticlib/{library}.words').read_text('utf-8').split('\n')[:-1], cwd=out)
    if (out / 'module.o').read_bytes() != (out / member).read_bytes():
        raise Failed('it is another object')
    return 'octet for octet'


def sentence_of(*words, **more):
    """What a command that must fail says."""
    done = subprocess.run([str(word) for word in words], stdout=subprocess.PIPE, stderr=subprocess.STDOUT, encoding='utf-8', check=False, **more)
    if not done.returncode:
        raise Failed(f'{pathlib.Path(words[0]).name} {words[1]} ended well')
    return done.stdout.strip()


def raised(act, *words):
    """What a step says of a form that it does not know."""
    try:
        act(*words)
    except retarget.NotAsKnown as why:
        return str(why)
    raise Failed(f'{act.__name__} took a form that is not known')


def refuses(room):
    """Each is refused with a sentence of its own: another kit, a kit without its clang, a machine that is not to be had (by the header too), a module that
    is not free of the machine, one with two target lines, an exported function of another form, a header that names other functions than the module."""
    other = room.folder / 'other'
    (other / 'bin').mkdir(parents=True)
    (other / 'bin/rt').write_text('#!/bin/sh\necho rattle-kit-0\n', 'utf-8')
    (other / 'bin/rt').chmod(0o755)
    path = {'PATH': f'{other}/bin:/usr/bin:/bin'}
    module = 'target datalayout = "e"\ntarget triple = "x86_64"\nattributes #0 = { "target-cpu"="x86-64" }\n'
    export = retarget.Export('i128', 'odif_check', ['i64 %a0'])
    said = [
        (sentence_of(HERE / 'build', 'rv64i', other / 'out', env=path), 'rattle-kit-0'),
        (sentence_of(HERE / 'capture', 'odif', env=path), 'has no toolchain/bin/clang'),
        (sentence_of(HERE / 'build', 'i386-linux', other / 'out'), 'multiple of 4'),
        (sentence_of(HERE / 'build', 'pdp11', other / 'out'), 'no target pdp11'),
        (sentence_of(room.kit.tool('clang'), '--target=i386-unknown-linux-gnu', '--no-default-config', '-fsyntax-only', '-nostdinc', f'-I{HERE}/include',
                     '-x', 'c', TOP / 'include/odif.h'), 'no libodif for i386'),
        (raised(retarget.for_machine, module + '%1 = ptrtoint ptr %0 to i64\n', module, True), 'not free of the machine'),
        (raised(retarget.for_machine, module + module, module, True), '2 pairs'),
        (raised(retarget.entry_of, export, 64), 'gives back i128'),
        (raised(calls.functions, 'odif', [export]), 'differ in'),
    ]
    for sentence, part in said:
        if part not in sentence:
            raise Failed(f'it says {sentence!r}, and not {part!r}')
    return f'{len(said)} sentences'


# The numbers that a question may give, as the header says, and no other.
JUDGED = [*range(16)]
NUMBERS = {
    'check': [*JUDGED, 16], 'list': [*JUDGED, 16, 19], 'text': [*JUDGED, 16, 19, 22], 'sources': [*JUDGED, 31], 'normal': [*JUDGED, 17, 18],
    'normal_short': [*JUDGED, 18], 'normal_short_lent': [*JUDGED, 18, 32],
    'content': [*JUDGED, 20, 21], 'joined': [*JUDGED, 20, 22], 'children': [*JUDGED, 16, 20, 25], 'order': [*JUDGED, 26], 'date': [*JUDGED, 23, 24],
    'first_date': [*range(9), 10, 11, 23, 24], 'make': [0, 9, 14, 15, 17, 18, 27], 'pages': [*JUDGED, 16, 30], 'blocks_start': [0, 1], 'blocks_take': [0, 28],
    'blocks_close': [*range(9), 29], 'utf8': [0, 18],
}


def every_number(room):
    """Over the corpus each question gives every number that the header says it may give, and no other."""
    lines = dict(line.split(':') for line in room.own()[1:])
    met = {question: [int(number) for number in numbers.split()] for question, numbers in lines.items()}
    for question, numbers in NUMBERS.items():
        if met.get(question) != numbers:
            raise Failed(f'{question} gave {met.get(question)}, and not {numbers}')
    return f'{sum(map(len, NUMBERS.values()))} of {len(NUMBERS)} questions'
