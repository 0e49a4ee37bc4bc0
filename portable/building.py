"""The libraries for another machine, from the modules that were captured with the proved archives."""
import hashlib
import pathlib
import shutil
import tempfile

import calls
import retarget
import shifts
from kit import TOP, Kit, stop

HERE = pathlib.Path(__file__).resolve().parent
# What clang is told besides, for the module as rattle tells it and for C.
MODULE = ('-ffunction-sections -fdata-sections -mllvm -trap-unreachable -mllvm -no-trap-after-noreturn -mllvm -no-x86-call-frame-opt'
          ' -mllvm -disable-machine-licm -mllvm -disable-postra-machine-licm -mllvm -sink-common-insts=false').split()
FREE = f'-std=c99 -Wall -Wextra -Werror -ffreestanding -nostdinc -ffunction-sections -fdata-sections -I{HERE}/include -I{TOP}/include'.split()
# The C that stands beside each library (include/): its sentences, and its identity.
BESIDE = {'odif': 'odif_sentence', 'pm1': 'pm1_identity'}
STACK = 512 << 10  # of odif.wasm; ODIF_STACK_TEXTS is the most that a question takes


def text_of(kit, library, room):
    """The captured module as text. It must be the one that was captured with the archive."""
    module, archive_file, note = (TOP / f'target/staticlib/{name}' for name in (f'{library}.bc', f'lib{library}.a', f'lib{library}.made'))
    told = dict(line.split() for line in note.read_text('utf-8').splitlines()) if note.exists() else {}
    for file, what in (module, 'module'), (archive_file, 'archive'):
        if not file.exists() or hashlib.sha256(file.read_bytes()).hexdigest() != told.get(what):
            stop(f'{file.relative_to(TOP)} is not there as it was proved: packaging/archive {library} proves the library and keeps its module')
    kit.clang('--target=x86_64-unknown-linux-gnu', '-x', 'ir', module, '-S', '-emit-llvm', '-O0', '-Xclang', '-disable-llvm-passes', '-o', room / 'module.ll')
    return (room / 'module.ll').read_text('utf-8')


def module_of(kit, target, library, optimise, room, edit):
    """Compiles the module of a library for a target, and writes the C file of its functions. edit: what a test does to the module first."""
    kit.clang(*target.words, '-x', 'c', '/dev/null', '-S', '-emit-llvm', '-o', room / 'empty.ll')
    text = retarget.for_machine(edit(text_of(kit, library, room)), (room / 'empty.ll').read_text('utf-8'), target.probes)
    text = retarget.narrowed(text) if target.bits == 32 else text
    exports = retarget.exports_of(text)
    text = retarget.with_entries(retarget.aligned(text) if target.aligned else text, exports, target.bits)
    source, passes = room / f'{library}.ll', []
    source.write_text(text, 'utf-8')
    if target.shifts:
        kit.clang(*target.words, optimise, '-x', 'ir', source, '-S', '-emit-llvm', '-o', room / 'optimised.ll')
        source.write_text(shifts.shifted((room / 'optimised.ll').read_text('utf-8'), target.shifts), 'utf-8')
        passes = ['-Xclang', '-disable-llvm-passes']
    kit.clang(*target.words, optimise, *MODULE, *passes, '-Werror', '-c', '-x', 'ir', source, '-o', room / f'{library}.o')
    (room / f'{library}_calls.c').write_text(calls.functions(library, exports), 'utf-8')


def objects_of(kit, target, library, optimise, room, edit):
    """The objects of a library's archive: the module, the functions of the header over it, and the C that stands beside it."""
    try:
        module_of(kit, target, library, optimise, room, edit)
    except retarget.NotAsKnown as why:
        stop(f'{why}; this script knows the modules of one kit, and would guess')
    proved = hashlib.sha256((TOP / f'target/staticlib/lib{library}.a').read_bytes()).hexdigest()
    told = f'-D{library.upper()}_ARCHIVE_SHA256="{proved}"'
    for name, source in (f'{library}_calls', room), (BESIDE[library], TOP / 'include'):
        kit.clang(*target.words, optimise, *FREE, told, '-c', source / f'{name}.c', '-o', room / f'{name}.o')
    return [room / f'{name}.o' for name in (library, f'{library}_calls', BESIDE[library])]


def beside(kit, target, name, room, *words):
    """A C file of this folder, compiled for the target."""
    kit.clang(*target.words, '-O2', *FREE, *words, '-c', HERE / f'{name}.c', '-o', room / f'{name}.o')
    return room / f'{name}.o'


def put(file, out):
    """Copies a file, unless it stands there as it is: what is made of it is then not made again."""
    there = out / file.name
    if not there.exists() or there.read_bytes() != file.read_bytes():
        shutil.copy(file, out)


def to_wasm(kit, target, libraries, objects, room, out):
    """odif.wasm: every function of the headers and a room to lend from. The stack is at the low end of the memory: one that is too short traps. Beside it its
    loader, and the package of js/ over that."""
    shown = [f'--export={name}' for library in libraries for name in names_of(library)] + ['--export=room', '--export=room_size']
    kit.run('wasm-ld', '--no-entry', '--gc-sections', '--strip-all', '-z', f'stack-size={STACK}', '--stack-first', *shown,
            beside(kit, target, 'room', room), *objects, '-o', room / 'odif.wasm')
    for file in room / 'odif.wasm', HERE / 'odif.mjs', *(one for one in (TOP / 'js').iterdir() if one.is_file()):
        put(file, out)


def to_dll(kit, target, library, objects, room, out):
    """odif.dll with its import library. It needs no C library, and nothing has to run when it is loaded."""
    shown = [f'/export:{name}' for name in names_of(library)]
    kit.run('lld-link', '/nologo', '/dll', '/noentry', '/machine:x64', '/lldmingw', '/brepro', f'/out:{out}/{library}.dll', f'/implib:{out}/lib{library}.dll.a',
            *shown, *objects, beside(kit, target, 'memory', room, '-fno-builtin'))


def names_of(library):
    """The functions of a header, those in C too."""
    return [*calls.declared_in(library), *calls.strings_of(library)]


def archive(kit, target, library, objects, out):
    """The archive of these objects. Its members have no folder in their names, so that it is the same wherever it is made."""
    room, members = objects[0].parent, [one.name for one in objects]
    if target.name.endswith('-msvc'):
        kit.run('llvm-lib', '/nologo', f'/out:{out.resolve()}/{library}.lib', *members, cwd=room)
        return
    (out / f'lib{library}.a').unlink(missing_ok=True)
    kit.run('llvm-ar', 'rcsD', out.resolve() / f'lib{library}.a', *members, cwd=room)


def build(target, out, optimise='-O3', edit=lambda text: text, libraries=tuple(BESIDE)):
    """The libraries for a machine, in a folder."""
    out.mkdir(parents=True, exist_ok=True)
    kit = Kit()
    with tempfile.TemporaryDirectory() as folder:
        room, all_objects = pathlib.Path(folder), []
        for library in libraries:
            objects = objects_of(kit, target, library, optimise, room, edit)
            all_objects += objects
            archive(kit, target, library, objects, out)
            if target.name == 'x86_64-windows':
                to_dll(kit, target, library, objects, room, out)
            shutil.copy(TOP / f'include/{library}.h', out)
        if target.name == 'wasm32':
            to_wasm(kit, target, libraries, all_objects, room, out)
