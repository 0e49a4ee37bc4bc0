"""How the digest program is made for each machine, and run there."""
import os
import pathlib
import shutil
import subprocess
import sys

from building import build
from calls import assertions
from kit import TOP, Kit
from targets import PROVED, TARGETS

HERE = pathlib.Path(__file__).resolve().parent
DIGEST = HERE / 'digest'
HOSTED = [DIGEST / 'digest.c', DIGEST / 'hosted.c']  # the digest program, where there is a C library


class Failed(Exception):
    """A test that failed, and why."""


def run(*words, **more):
    """What a command writes."""
    try:
        done = subprocess.run([str(word) for word in words], stdout=subprocess.PIPE, check=False, **more)
    except FileNotFoundError as missing:
        raise Failed(f'{words[0]} is not there') from missing
    if done.returncode:
        raise Failed(f'{pathlib.Path(words[0]).name} ended with {done.returncode}')
    return done.stdout


class Room:
    """A folder with the corpus and with what is built for each machine."""

    def __init__(self, folder, count):
        self.folder, self.kit, self.proved, self.samples = pathlib.Path(folder), Kit(), [], {}
        self.corpus = self.folder / 'corpus'
        self.corpus.write_bytes(run(sys.executable, DIGEST / 'corpus.py', count))
        # the structs as the machine's own C compiler has them
        self.sizes = self.folder / 'sizes.h'
        self.sizes.write_text('\n'.join(['#include <stddef.h>', '#include "pm1.h"', *assertions('odif'), *assertions('pm1')]) + '\n', 'utf-8')

    def asked(self, *words, **more):
        """What the digest program prints of the corpus."""
        with self.corpus.open('rb') as corpus:
            return run(*words, stdin=corpus, **more).decode().replace('\r', '')

    def compiled(self, compiler, sources, libraries, program, *words):
        """A program of C files over the libraries in a folder, made by the machine's own compiler."""
        run(compiler, '-std=c11', '-O2', '-Wall', '-Wextra', '-Werror', '-include', self.sizes, f'-I{TOP}/include', f'-I{DIGEST}', *sources, *libraries,
            *words, '-o', program)
        return program

    def on_linux(self, name, sources, libraries, program, *words):
        """Such a program for a Linux machine: the words that run it, by qemu where that is not this machine."""
        target = TARGETS[name]
        if target.tested == 'here':
            return [self.compiled('gcc', sources, libraries, program, *words)]
        return [f'qemu-{target.machine}', self.compiled(f'{target.compiler}-gcc', sources, libraries, program, *words, '-static')]

    def digest(self, name, out, program, *words):
        """The digest program for a Linux machine, over the libraries in a folder: the words that run it."""
        return self.on_linux(name, HOSTED, [out / 'libpm1.a', out / 'libodif.a'], program, *words)

    def own(self):
        """What that prints over the proved archives: a line with the digest, and of each question the numbers that it gave."""
        if not self.proved:
            self.proved = self.asked(*self.digest(PROVED, TOP / 'target/staticlib', self.folder / 'own'), 'numbers').splitlines()
        return self.proved

    def hosted(self, compiler, out, program, *words):
        """The digest program with a C library."""
        return self.compiled(compiler, HOSTED, [out / 'libpm1.a', out / 'libodif.a'], program, *words)

    def objects(self, target, out, sources, *words):
        """C files, compiled with no C library."""
        made = [out / source.with_suffix('.o').name for source in sources]
        for source, object_file in zip(sources, made):
            self.kit.clang(*target.words, '-c', '-std=gnu11', '-ffreestanding', '-nostdinc', f'-I{HERE}/include', '-include', self.sizes,
                           f'-I{TOP}/include', f'-I{DIGEST}', *words, source, '-o', object_file)
        return made

    def bare(self, target, out, *words):
        """The digest program with no C library. No loop of it becomes a call of memcpy, which it has itself."""
        sources = [DIGEST / 'digest.c', DIGEST / 'bare.c', DIGEST / 'routines.c', HERE / 'memory.c']
        objects = self.objects(target, out, sources, '-Os', '-fno-builtin', *words)
        self.kit.run('ld.lld', '--gc-sections', '-e', '_start', '-z', 'stack-size=1048576', *objects, out / 'libpm1.a', out / 'libodif.a', '-o', out / 'digest')
        return out / 'digest'

    def wasm(self, target, out):
        shown = [f'--export={name}' for name in ('digest', 'asked', '__heap_base')]
        self.kit.run('wasm-ld', '--no-entry', *shown, '-z', 'stack-size=524288', '--stack-first', *self.objects(target, out, [DIGEST / 'digest.c'], '-O2'),
                     out / 'libpm1.a', out / 'libodif.a', '-o', out / 'digest.wasm')
        return out / 'digest.wasm'

    def windows(self, out):
        """The digest program for Windows. Microsoft's name of the routine that touches the stack is another than MinGW's."""
        compiler = 'x86_64-w64-mingw32-gcc'
        if (out / 'libodif.a').exists():
            return self.hosted(compiler, out, out / 'digest.exe')
        return self.compiled(compiler, HOSTED, [out / 'pm1.lib', out / 'odif.lib'], out / 'digest.exe', '-Wl,--defsym,__chkstk=___chkstk_ms')

    def wine_env(self):
        """wine makes itself a folder the first time."""
        return dict(os.environ, WINEDEBUG='-all', WINEPREFIX=str(self.folder / 'wine'), DISPLAY='')

    def wine_words(self, program):
        return shutil.which('wine64') or '/usr/lib/wine/wine64', program

    def close(self):
        """Ends wine's server of this folder, which stays for a while after the last program."""
        if (self.folder / 'wine').exists():
            server = shutil.which('wineserver') or '/usr/lib/wine/wineserver'
            subprocess.run([server, '-k', '-w'], env=self.wine_env(), stderr=subprocess.DEVNULL, check=False)

    def on_wine(self, program):
        """What the digest program prints under wine."""
        return self.asked(*self.wine_words(program), env=self.wine_env(), stderr=subprocess.DEVNULL)

    def built(self, name):
        """The folder of a machine's libraries, which are built there the first time."""
        out = self.folder / name
        if not out.exists():
            build(TARGETS[name], out)
        return out

    def answers(self, name):
        """What the digest program prints on a machine."""
        target, out = TARGETS[name], self.built(name)
        if target.tested.startswith('wine'):
            return self.on_wine(self.windows(out))
        if target.tested == 'node':
            return run('node', DIGEST / 'wasm.mjs', self.wasm(target, out), self.corpus).decode()
        if target.compiler:
            return self.asked(*self.digest(name, out, out / 'digest'))
        return self.asked(f'qemu-{target.machine}', self.bare(target, out))
