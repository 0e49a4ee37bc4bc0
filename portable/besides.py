"""What is tested on a machine besides its digest: what is built for it alone, and the examples there."""
import subprocess

import box
from machines import DIGEST, HERE, HOSTED, Failed, run
from kit import TOP
from targets import PROVED, TARGETS

SAMPLES = sorted((TOP / 'samples/letters').glob('*.odif'))


def shown(*words, file, **more):
    """What a program writes of a letter on its standard input, and its status."""
    with file.open('rb') as letter:
        done = subprocess.run([str(word) for word in words], stdin=letter, stdout=subprocess.PIPE, stderr=subprocess.DEVNULL, check=False, **more)
    return done.stdout, done.returncode


def shown_here(room):
    """Of each sample what examples/letter.c writes over the proved archive, with its status."""
    if not room.samples:
        sources, library = [TOP / 'examples/letter.c', TOP / 'include/odif_sentence.c'], TOP / 'target/staticlib/libodif.a'
        own = room.on_linux(PROVED, sources, [library], room.folder / 'letter')
        room.samples = {file: shown(*own, file=file) for file in SAMPLES}
    return room.samples


def same_on_samples(room, way):
    """A way to show a letter gives on every sample what the proved archive gives."""
    expected = shown_here(room)
    for file in SAMPLES:
        if (got := way(file)) != expected[file]:
            raise Failed(f'{file.name}: {got}, and not {expected[file]}')
    return f'{len(SAMPLES)} samples, as the proved archive'


def letters_on_windows(room, name):
    """examples/letter.c under wine, over the archive and over the DLL."""
    out, source = room.built(name), [TOP / 'examples/letter.c']
    room.compiled('x86_64-w64-mingw32-gcc', source, [out / 'libodif.a'], out / 'letter.exe')
    room.compiled('x86_64-w64-mingw32-gcc', source, [out / 'libodif.dll.a'], out / 'letter-dll.exe')
    for program in 'letter.exe', 'letter-dll.exe':
        said = same_on_samples(room, lambda file, program=program: shown(*room.wine_words(out / program), file=file, env=room.wine_env()))
    return said


def answers_of_dll(room, name):
    """The digest over odif.dll and pm1.dll, which stand beside the program."""
    out = room.built(name)
    libraries = [out / 'libpm1.dll.a', out / 'libodif.dll.a']
    return room.on_wine(room.compiled('x86_64-w64-mingw32-gcc', HOSTED, libraries, out / 'digest-dll.exe')).splitlines()[0]


def wasm_in_its_room(room, name):
    """odif.wasm: it imports nothing, a stack that is too short traps, and the loader lends nothing twice; and examples/letter.mjs."""
    out, target = room.built(name), TARGETS[name]
    short = out / 'short.wasm'
    room.kit.run('wasm-ld', '--no-entry', '--export-dynamic', '-z', 'stack-size=65536', '--stack-first', '--export=room', '--export=room_size',
                 '--export=odif_check', *room.objects(target, out, [HERE / 'room.c'], '-O2'), out / 'libodif.a', '-o', short)
    run('node', DIGEST / 'lending.mjs', out, short)
    return same_on_samples(room, lambda file: shown('node', TOP / 'examples/letter.mjs', out, file, file=file))


def installed(room, name):
    """`make install-lib TARGET=aarch64-linux` into a folder, and examples/letter.c over the shared library that stands there."""
    at, is_here = room.folder / 'at', TARGETS[name].tested == 'here'
    compiler = 'gcc' if is_here else 'aarch64-linux-gnu-gcc'
    run('make', '-s', '-C', TOP, 'install-lib', 'TARGET=aarch64-linux', f'CC={compiler}', 'PREFIX=/opt/odif', f'DESTDIR={at}', stderr=subprocess.STDOUT)
    lib = at / 'opt/odif/lib'
    here = sorted(str(file.relative_to(at / 'opt/odif')) for file in (at / 'opt/odif').rglob('*') if not file.is_dir())
    if len(here) != 14 or 'lib/libpm1.so' not in here:
        raise Failed(f'there is {", ".join(here)}')
    names = run(room.kit.tool('llvm-nm'), '-D', '--defined-only', '--format=just-symbols', lib / 'libodif.so').decode().split()
    if any(not name.startswith('odif_') for name in names):
        raise Failed(f'libodif.so shows {", ".join(names)}')
    program = room.compiled(compiler, [TOP / 'examples/letter.c'], [lib / 'libodif.so'], room.folder / 'letter-aarch64')
    before = ['env', f'LD_LIBRARY_PATH={lib}'] if is_here else ['qemu-aarch64', '-L', '/usr/aarch64-linux-gnu', '-E', f'LD_LIBRARY_PATH={lib}']
    return same_on_samples(room, lambda file: shown(*before, program, file=file))


def is_here(room, name):
    """The libraries in target/here, which all that is compiled on this machine links: the proved archives, and elsewhere what is tested here."""
    libraries = TOP / 'target/staticlib' if name == PROVED else room.built(name)
    for library in 'libodif.a', 'libpm1.a':
        if (TOP / 'target/here' / library).read_bytes() != (libraries / library).read_bytes():
            raise Failed(f'target/here/{library} is another: packaging/archive makes it')
    return 'octet for octet the proved archives' if name == PROVED else 'octet for octet these'


# Of a machine: what is tested, and the test, which is told the room and the machine's name.
TESTS = {
    'aarch64-linux': [('installed', installed)],
    'x86_64-windows': [('letter.c', letters_on_windows), ('the DLLs', answers_of_dll)],
    'wasm32': [('odif.wasm in its room', wasm_in_its_room)],
    'rv64i': [('no product', box.refers_to_no_product), ('stack', box.stack_taken)],
    'rv32i': [('no product', box.refers_to_no_product)],
    'thumbv6m': [('no product', box.refers_to_no_product)],
}

# On the machine at hand, whichever it is.
TESTS_HERE = [('target/here', is_here), ('copies stand as a strict machine is told', box.copies_stand)]
