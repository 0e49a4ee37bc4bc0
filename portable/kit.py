"""The toolchain's kit, whose clang has a back end for every machine here. It is the linkers too, by a link of another name."""
import pathlib
import shutil
import subprocess
import sys
import tempfile

KIT = 'rattle-kit-13f'
TOP = pathlib.Path(__file__).resolve().parent.parent


def stop(why):
    """Ends the program with a sentence."""
    sys.exit(f'{pathlib.Path(sys.argv[0]).name}: {why}')


class Kit:
    """The tools, called by their names."""

    def __init__(self):
        rt = shutil.which('rt') or stop("rt, the program of Rattle's toolchain, is not on the PATH")
        known = subprocess.run([rt, 'version'], stdout=subprocess.PIPE, encoding='utf-8', check=True).stdout.split()[0]
        if known != KIT:
            stop(f'this is {known}, and the forms of its module are known of {KIT}; try portable/test, and name the new kit in portable/kit.py')
        self.bin = pathlib.Path(rt).resolve().parent.parent / 'toolchain/bin'
        self.links = tempfile.TemporaryDirectory()

    def tool(self, name):
        """The path of a tool. The kit has clang, ld.lld and llvm-ar; clang is the others by their names."""
        if (self.bin / name).exists():
            return self.bin / name
        link = pathlib.Path(self.links.name, name)
        if not link.exists():
            link.symlink_to(self.bin / 'clang')
        return link

    def run(self, name, *words, **more):
        """Runs a tool; one that fails ends the program after its own message."""
        done = subprocess.run([self.tool(name), *map(str, words)], check=False, **more)
        if done.returncode:
            stop(f'{name} ended with {done.returncode}')

    def clang(self, *words):
        self.run('clang', '--no-default-config', '-fno-crash-diagnostics', *words)
