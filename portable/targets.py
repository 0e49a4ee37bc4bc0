"""The machines that the library is compiled for: one row each."""
import os
from collections import namedtuple

HERE = os.uname().machine  # this machine
# words: what clang is told. bits: how wide a length is. probes: whether the module's stack probes stay, which need a page that traps below the stack.
# aligned: whether the machine reads no number across its bounds, so that copies have to be told where they stand. shifts: the numbers whose products
# are to be shifts and sums again, since the machine multiplies by a call. tested: how portable/test runs the digest there; '' where it is compiled and
# not run. machine: what qemu calls it. compiler: the words before -gcc of its C compiler; '' where it has no C library. needs: Debian's packages.
Target = namedtuple('Target', 'name words bits probes aligned shifts tested machine compiler needs')


def target(name, words, tested='', needs='', bits=64, probes=True, aligned=False, shifts='', machine='', compiler=''):
    return Target(name, words.split(), bits, probes, aligned, shifts.split(), tested, machine, compiler, needs.split())


def linux(machine, words, compiler, libc, name='', **more):
    needs = f'qemu-user gcc-{compiler.replace("_", "-")} libc6-dev-{libc}-cross'
    how = ('here', 'gcc') if machine == HERE else ('qemu', needs)
    return target(f'{name or machine}-linux', f'--target={words} -fPIC', *how, machine=machine, compiler=compiler, **more)


def bare(name, words, machine, **more):
    return target(name, f'--target={words}', 'qemu, no C library', 'qemu-user', probes=False, machine=machine, **more)


def windows(name, words, how):
    """Windows on x86-64, whose programs wine runs on that processor alone."""
    run = (how, 'gcc-mingw-w64-x86-64-win32 wine64') if HERE == 'x86_64' else ()
    return target(name, f'--target={words} -march=x86-64', *run, probes=False)


PROVED = 'x86_64-linux'  # what the proved archive is for
TARGETS = {row.name: row for row in [
    linux('x86_64', 'x86_64-unknown-linux-gnu -march=x86-64', 'x86_64-linux-gnu', 'amd64'),
    linux('aarch64', 'aarch64-unknown-linux-gnu', 'aarch64-linux-gnu', 'arm64'),
    linux('riscv64', 'riscv64-unknown-linux-gnu -march=rv64gc -mabi=lp64d', 'riscv64-linux-gnu', 'riscv64'),
    linux('s390x', 's390x-unknown-linux-gnu -march=z13', 's390x-linux-gnu', 's390x'),
    linux('arm', 'armv7-unknown-linux-gnueabihf', 'arm-linux-gnueabihf', 'armhf', name='armv7', bits=32, probes=False),
    windows('x86_64-windows', 'x86_64-w64-windows-gnu', 'wine'),
    windows('x86_64-msvc', 'x86_64-pc-windows-msvc', 'wine, linked by MinGW'),
    target('aarch64-windows', '--target=aarch64-w64-windows-gnu', probes=False),
    target('aarch64-macos', '--target=arm64-apple-macos11 -fPIC'),
    target('wasm32', '--target=wasm32-unknown-unknown -mbulk-memory', 'node', 'nodejs', bits=32, probes=False),
    bare('rv64i', 'riscv64-unknown-elf -march=rv64i -mabi=lp64 -mcmodel=medany', 'riscv64', aligned=True),
    bare('rv32i', 'riscv32-unknown-elf -march=rv32i -mabi=ilp32', 'riscv32', bits=32, aligned=True, shifts='i32 i64'),
    bare('thumbv6m', 'thumbv6m-none-eabi -mfloat-abi=soft', 'arm', bits=32, aligned=True, shifts='i64'),
    bare('thumbv7m', 'thumbv7m-none-eabi -mfloat-abi=soft', 'arm', bits=32),
]}

# Machines that one may ask for and that are not to be had, with the reason.
REFUSED = {name: "a number of 64 bits stands at a multiple of 4 octets in a struct there, and at one of 8 in the module, so odif_taken would not be the library's"
           for name in ('i386-linux', 'i686-linux')}


def listed():
    """A line for each target: how it is tested, and what that needs."""
    for row in TARGETS.values():
        how = f'tested: {row.tested}' if row.tested else 'compiled, not run'
        yield f'{row.name:16} {how:30} {" ".join(row.needs)}'.rstrip()
    for name, why in REFUSED.items():
        yield f'{name:16} refused: {why}'
