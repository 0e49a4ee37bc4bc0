"""The mailroom's box, rv64i: a processor with no multiplier (W-205) and little memory. What its archive refers to, and how much code and stack it takes."""
import re
import sys

import retarget
from building import build
from kit import TOP
from machines import DIGEST, Failed, run
from targets import TARGETS

BOXES = 'rv64i', 'rv32i', 'thumbv6m'  # machines that multiply by a call

# The questions of the box.
MAILROOM = {'normal_short': ['odif_normal_short'], 'normal_short_lent': ['odif_normal_short_lent'], 'the block engine': ['odif_blocks_start', 'odif_blocks_take', 'odif_blocks_close']}
ASKED = 'normal_short', 'normal_short_lent', 'blocks_start', 'blocks_take', 'blocks_close'
PRODUCTS = re.compile(r'__mul|__aeabi_l?mul')
QUOTIENTS = re.compile(r'__u?(div|mod)|__aeabi_u')


def wanted(room, archive):
    """The names that an archive leaves to others."""
    tool = room.kit.tool('llvm-nm')
    defined = set(run(tool, '--defined-only', '--format=just-symbols', archive).decode().split())
    return set(run(tool, '--undefined-only', '--format=just-symbols', archive).decode().split()) - defined


def reached(room, out, roots):
    """A program that asks these questions alone, linked with --gc-sections: its octets of code, and the names of others' routines that it has in it."""
    program = out / 'alone'
    kept = [word for root in roots for word in ('-u', root)]
    room.kit.run('ld.lld', '--gc-sections', '--unresolved-symbols=ignore-all', '-e', roots[0], *kept, out / 'libodif.a', '-o', program)
    sections = run(room.kit.tool('llvm-readelf'), '-S', '--wide', program).decode()
    sizes = {name: int(size, 16) for name, size in re.findall(r'\] (\.\w+)\s+\w+\s+[0-9a-f]+ [0-9a-f]+ ([0-9a-f]+)', sections)}
    return sizes, wanted(room, program)


def refers_to_no_product(room, name):
    """The archives refer to no routine that multiplies, and what the block engine reaches to none that divides (what normal_short reaches has the
    table's quotients in it, and runs none: ran_no_product). It says how much code the mailroom's questions take."""
    out = room.built(name)
    for library in 'odif', 'pm1':
        if bad := [one for one in wanted(room, out / f'lib{library}.a') if PRODUCTS.match(one)]:
            raise Failed(f"lib{library}.a refers to {', '.join(bad)}")
    said = []
    for question, roots in MAILROOM.items():
        sizes, others = reached(room, out, roots)
        if question == 'the block engine' and (bad := [one for one in others if QUOTIENTS.match(one)]):
            raise Failed(f"what {question} reaches refers to {', '.join(bad)}")
        said.append(f"{question} {sizes['.text']} octets of code, {sizes.get('.rodata', 0)} of constants, {sizes.get('.data', 0) + sizes.get('.bss', 0)} of data")
    return '; '.join(said)


def counts_of(lines):
    """Of each question what the digest program counted: products, quotients, and stack where it was measured."""
    found = (re.match(r'(\w+): products by call (\d+), quotients by call (\d+)(?:, stack (\d+))?', line) for line in lines)
    return {one[1]: (int(one[2]), int(one[3]), int(one[4] or 0)) for one in found}


def ran_no_product(name, lines):
    """Over the whole corpus no question called for a product on rv64i, and the mailroom's for neither product nor quotient on any box."""
    for question, (products, quotients, _) in counts_of(lines).items():
        if question in ASKED and (products or quotients):
            raise Failed(f'{question} called for {products} products and {quotients} quotients')
        if name == 'rv64i' and products:
            raise Failed(f'{question} called for {products} products')


def limits():
    """How much stack the header says a question takes at most, of small streams and of any."""
    said = {name: int(size) for name, size in re.findall(r'^#define ODIF_(STACK\w*) +(\d+)', (TOP / 'include/odif.h').read_text('utf-8'), re.M)}
    most = {False: dict(list='STACK_LISTS', sources='STACK_LISTS', text='STACK_TEXTS'),
            True: dict(list='STACK_SMALL_LISTS', sources='STACK_SMALL_LISTS', text='STACK_SMALL_TEXTS')}
    for question, limit in ('pages', said['STACK'] + 32768), ('make', said['STACK_MAKE']), ('normal_short_lent', said['STACK_LENT']), *((f'blocks_{part}', 2048) for part in ('start', 'take', 'close')):
        said[question] = limit
    return lambda question, small: said.get(question) or said[most[small].get(question, 'STACK_SMALL' if small else 'STACK')]


def stack_taken(room, name):
    """Each question takes no more stack than the header says, of letters that take the most. It says what the mailroom's take."""
    out, limit, said = room.built(name), limits(), []
    program = room.bare(TARGETS[name], out, '-DMEASURE_STACK')
    for small in True, False:
        letters = run(sys.executable, DIGEST / 'corpus.py', 'small' if small else 'large')
        counts = counts_of(run(f'qemu-{TARGETS[name].machine}', program, input=letters).decode().splitlines()[1:])
        if over := [f'{question} takes {stack}' for question, (_, _, stack) in counts.items() if stack > limit(question, small)]:
            raise Failed(', '.join(over))
        said.append(f"of {'small streams' if small else 'any'} " + ', '.join(f'{question} {counts[question][2]}' for question in ASKED))
    return '; '.join(said)


def copies_stand(room, name):
    """What strict machines are told of where copies stand holds: on this machine each is looked at before it is made, over the whole corpus."""
    out = room.folder / 'checked'
    build(TARGETS[name], out, '-O1', lambda text: retarget.aligned(text, checked=True))
    return room.asked(*room.digest(name, out, out / 'digest', DIGEST / 'stands.c')).splitlines()[0]
