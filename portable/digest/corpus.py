#!/usr/bin/env python3
"""Writes the streams of the digest to standard output, each with its length before it in four octets, little end first: the project's vectors and
samples, letters at the limits, letters made at random, and damaged ones.

usage: corpus.py COUNT     with so many damaged letters
       corpus.py small     letters that take the most stack, of small streams; large: of any"""
import itertools
import pathlib
import random
import re
import struct
import sys

TOP = pathlib.Path(__file__).resolve().parent.parent.parent
LIMIT = 1_048_576
MOST_THINGS = 4094  # with the profile and a text unit as many elements as there may be
rng = random.Random(19880605)

# How an item's length is written: short where it can be, in one octet more than needed, in up to four, or by a closing mark.
SHORT, LONG, LOOSE, MARKED = range(4)


def any_form():
    return rng.choice([SHORT, SHORT, LONG, LOOSE, MARKED])


def length(n, form):
    if form == SHORT and n < 128:
        return bytes([n])
    size = max(1, (n.bit_length() + 7) // 8)
    size = min(4, size + rng.randrange(2)) if form == LOOSE else size
    return bytes([0x80 + size]) + n.to_bytes(size, 'big')


def item(octet, value=b'', form=SHORT):
    if form == MARKED and octet & 0x20:
        return bytes([octet, 0x80]) + value + b'\0\0'
    return bytes([octet]) + length(len(value), SHORT if form == MARKED else form) + value


def items(octet, values, form=SHORT):
    return item(octet, b''.join(values), form)


def portions(names, form=SHORT):
    return items(0xA1, [item(0x12, name) for name in names], form)


def dimensions(form):
    """The A4 of a page, and often no A4 as it should be."""
    numbers = [rng.choice([1, 0, -1, 9240, 9241, 9920, 12400, 12401, 13200, 14030, 14031, 19840, 19841]) for _ in range(rng.choice([2, 2, 2, 1, 3]))]
    return items(0xA4, [item(0x80, n.to_bytes(rng.choice([2, 3]), 'big', signed=True)) for n in numbers], form)


def thing(octet, identifier, names, kind, form=SHORT, more=b''):
    """A class or an object."""
    return item(octet, item(2, bytes([kind])) + items(0x31, [item(0x41, identifier), portions(names, form), more], form), form)


def string(octet, text, form):
    """A string in pieces, some of them in pieces again."""
    parts = [text[i:i + 3] for i in range(0, len(text), 3)]
    return items(octet | 0x20, [string(octet, part, form) if rng.random() < 0.1 and len(part) > 1 else item(octet, part) for part in parts], form)


def content(text, form):
    way = rng.random()
    if way < 0.6:
        return item(4, text)
    return string(4, text, form) if way < 0.9 else items(0x30, [item(4, text[:2]), string(4, text[2:], form)], form)


def unit(identifier, text, form=SHORT, tag=0x40):
    return item(0xA3, item(0x31, item(tag, identifier), form) + content(text, form), form)


def protected(form):
    """A protected part of 1993."""
    bits, octet = rng.random() < 0.25, rng.choice([0xAA, 0xAB, 0xAC])
    text = rng.randbytes(rng.randrange(1, 7))
    held = (string(3, b'\0' + text, form) if rng.random() < 0.5 else item(3, b'\0' + text)) if bits else content(text, form)
    return item(0xA9 if bits else octet, item(0x47, rng.choice([b'1', b'3', b'0 1'])) + held, form)


def style(number, form):
    return item(rng.choice([0xA7, 0xA8]), item(0x45, b'5 %d' % number) + item(0x80, b'x'), form)


def profile(form=SHORT):
    date = rng.choice([None, b'1988-06-05', b'1900-02-29', b'2000-02-29T12:00', b'198', b'0000-01-01', b'1988-13-01', b'1988-06-31'])
    return item(0xA0, items(0xA3, [items(0xA0, [item(0x80, date)])], form) if date else b'', form)


def names_of(count, deep):
    """Identifiers of so many groups."""
    return [' '.join(['1'] + [str(k // 16 ** d % 16) for d in reversed(range(deep))]).encode() for k in range(count)]


def letter(blocks, form=lambda: SHORT, logical=False, deep=1, year=1988):
    """The elements of a letter: things with their units, pages with dimensions, styles, and of 1993 protected parts."""
    out = [profile(form())]
    for number, name in enumerate(names_of(blocks, deep)):
        listed = [str(i).encode() for i in range(rng.choice([1, 1, 1, 2, 3]))]
        octet = rng.choice([0xA5, 0xA6, 0xA6] if logical else [0xA1, 0xA2, 0xA2])
        kind = rng.choice([0, 1, 2] if logical else [2, 4, 4])
        out.append(thing(octet, name, listed, kind, form(), dimensions(form()) if kind == 2 and rng.random() < 0.6 else b''))
        out += [unit(name + b' ' + one, rng.randbytes(rng.randrange(20)), form(), 0x84 if logical else 0x40) for one in listed if rng.random() < 0.9]
        if rng.random() < 0.1:
            out.append(style(number, form()))
        if year == 1993 and rng.random() < 0.2:
            out.append(rng.choice([protected(form()), item(0xA3, b'', form())]))
    return out


def octets(text):
    return bytes.fromhex(re.sub(r'\s', '', text))


def printed():
    """The vectors and the samples."""
    for file in sorted((TOP / 'vectors').glob('*.txt')):
        yield from (octets(line.split(';')[1]) for line in file.read_text('utf-8').splitlines() if line and line[0] != '#')
    yield from (octets(file.read_text('utf-8')) for file in sorted((TOP / 'vectors').glob('*.hex')))
    yield from (file.read_bytes() for file in sorted((TOP / 'samples/letters').glob('*.odif')))


def small():
    """Letters of a few blocks in all ways of writing."""
    for count in [*range(12), 30, 60]:
        for logical in False, True:
            yield b''.join(letter(count, any_form, logical, 2))


def many_elements():
    """The small scratch and the large one, the most elements, names in order and backwards, the most portions."""
    for count in 254, 255, 256, 300, 1000, 2047:
        whole = letter(count, any_form, deep=3)
        yield b''.join(whole)
        yield whole[0] + b''.join(reversed(whole[1:]))
    flat = [profile()] + [thing(0xA2, b'1 %d' % k, [b'0'], 4) for k in range(5000)]
    for count in 511, 512, 513, 4095, 4096, 4097:
        yield b''.join(flat[:count])
    yield b''.join(flat[:4096] + [flat[7]])
    for count in 64, 65:
        yield profile() + thing(0xA2, b'1 0', [b'%d' % k for k in range(count)], 4)
    for size in 64, 65:
        yield profile() + thing(0xA2, (b'1 ' * 40)[:size - 1] + b'1', [b'0'], 4)


def many_octets():
    """The longest streams, of the short question and of all; the most items; the deepest; a normal form over the limit."""
    for count in 8191, 8192, 8193, 30000:
        yield item(0xA0, b'\5\0' * count)
    base = item(0xA0) + thing(0xA2, b'1 0', [b'0'], 4)
    for size in 65530, 65535, 65536, LIMIT - 6, LIMIT, LIMIT + 1:
        head = len(base + item(0xA3, item(0x31, item(0x40, b'1 0 0')) + item(4, b'x' * (size - 60)))) - size
        yield base + item(0xA3, item(0x31, item(0x40, b'1 0 0')) + item(4, b'x' * (size - 60 - head)))
    for depth in 16, 17:
        yield b'\xA0\x80' * depth + b'\0\0' * depth
    wide = b''
    for _ in range(14):
        wide = item(0xA0, wide + item(0xA0, b'', MARKED) * 40, MARKED)
    yield wide
    yield item(0xA0, b'\xA1\x80\0\0' * 200_000)
    for fewer in 0, 15:  # fifteen indefinite items whose definite lengths take four octets
        size = LIMIT - 15 * 4 - 5 - fewer
        yield b'\xA0\x80' * 15 + b'\x04\x83' + size.to_bytes(3, 'big') + b'y' * size + b'\0\0' * 15


def many_names():
    """Names of four octets in a row, of which digest.c makes letters; and 4,097 elements in a stream that the short question takes."""
    yield b''.join(b'%d' % name for name in range(1000, 3060))
    for count in 4095, 4096:
        yield profile() + b''.join(item(0xA8, item(0x45, b'%d' % name)) for name in range(1000, 1000 + count))


def bucket(name, buckets):
    """The bucket of a name in the library's index (crates/names)."""
    found = 0
    for octet in name:
        found += octet
        found = (found << 6) + found + (found >> 9) & 0xFFFFFFFF
    return found & buckets - 1


def colliding(buckets, count):
    """Names that fall into one bucket: a chain has eight rows, and then all rows stand in order."""
    names = (b'1 %d' % number for number in range(9_000_000))
    return list(itertools.islice((name for name in names if bucket(name, buckets) == 0), count))


def many_in_a_bucket():
    """Objects whose names collide, with units whose names collide, in the small scratch and in the large one; one twice; in order and backwards."""
    for buckets, count, others in (1024, 40, 20), (8192, 20, 500):
        names = colliding(buckets, count)
        for chosen in names, names[::-1], names[:8], names[:9], [*names, names[3]]:
            things = [thing(0xA2, name, [b'0', b'1'], 4) for name in chosen]
            units = [unit(name, name, tag=rng.choice([0x40, 0x84])) for name in chosen]
            plain = [thing(0xA1, b'2 %d' % number, [b'0'], 4) + unit(b'2 %d 0' % number, b'x') for number in range(others)]
            yield b''.join([profile(), *things, *plain, *(unit(name + b' 0', b'y') for name in chosen)])
            yield b''.join([profile(), *things[:3], *units, *plain])


def many_dates():
    """Profiles with none, one or more dates in each A0 of each A3; one that is constructed; days that are and are not, spelt well and badly."""
    day, other = item(0x80, b'1988-06-05'), item(0x80, b'1999-12-31 ')
    for a, b, c in itertools.product([b'', day, item(0x81, b'x') + other, day + other, item(0xA0, day)], repeat=3):
        yield item(0xA0, item(0xA3, item(0xA0, a) + item(0xA1) + item(0xA0, b)) + item(0xA3, item(0xA0, c), MARKED) + item(0xA4))
    days = [f'{year:04}-{month:02}-{last:02}' for year in (0, 1, 1900, 1988, 2000, 9999) for month in range(14) for last in (0, 1, 28, 29, 30, 31, 32)]
    badly = ['1988-6-05', '1988/06-05', '1988-06/05', '19:8-06-05', '1988-0:-05', '1988-06-0/', '1988-06-0', '']
    for spelt in days + badly:
        yield item(0xA0, item(0xA3, item(0xA0, item(0x80, spelt.encode()))))


def shortest():
    """No octet, every octet alone, and every octet in a profile, with a length or without."""
    yield b''
    for octet in range(256):
        yield bytes([octet])
        yield bytes([0xA0, 4, octet, 2, 0, 0])
        yield bytes([0xA0, 0x80, octet, 0x80, 0, 0, 0, 0])


def type_fields():
    """Numbers of types in several octets, at each bound, in items of each form; spelt with too few and too many octets."""
    fields = ['1E', '1F', '7F', '8100', '817F', 'FF7F', '808000', '818000', '8001', 'FF', '']
    for first, field, rest in itertools.product([0x1F, 0x3F, 0x5F, 0x9F, 0xBF], fields, ['00', '80', '800000', '0101', '810101', '85']):
        one = bytes([first]) + octets(field + rest)
        yield item(0xA0, one)
        yield item(0xA0, one + b'\5\0' * 5, MARKED)
        yield one


def portion_numbers():
    """Portion numbers as long as they may be, and longer; of one tag, twice and all apart."""
    for size in 15, 16, 17:
        yield profile() + thing(0xA2, b'1 0', [b'1' * size], 4) + unit(b'1 0 ' + b'1' * size, b'x')
    for names in [b'0', b'64', b'128'], [b'0', b'64', b'0'], [b'7', b'71', b'135'], [b'0', b'00', b'64', b'64']:
        yield profile() + thing(0xA2, b'1 0', names, 4) + b''.join(unit(b'1 0 ' + name, name) for name in names)


def at_random(count):
    """Letters of both editions, some in disorder, some with an element twice."""
    for _ in range(count):
        whole = letter(rng.randrange(1, 14), any_form, rng.random() < 0.3, rng.choice([1, 2, 3]), rng.choice([1988, 1993]))
        if rng.random() < 0.4:
            rest = whole[1:]
            rng.shuffle(rest)
            whole = whole[:1] + rest
        if rng.random() < 0.1:
            whole.append(rng.choice(whole[1:]))
        yield b''.join(whole)


def damage_once(s, others):
    at, kind = rng.randrange(len(s)), rng.randrange(9)
    if kind == 0:
        s[at] ^= 1 << rng.randrange(8)
    elif kind == 1:
        s[at] = rng.choice([0, 1, 2, 4, 0x7F, 0x80, 0x81, 0x82, 0x84, 0x85, 0xFF, 0x1F, 0x3F, 0x24, 0x30, 0x31, 0xA0, 0xA2, 0xA3])
    elif kind == 2:
        del s[at:at + rng.choice([1, 1, 2, 5])]
    elif kind == 3:
        s[at:at] = rng.randbytes(rng.choice([1, 1, 2, 4]))
    elif kind == 4:
        del s[at:]
    elif kind == 5:
        s += rng.choice([b'\0', b'\0\0', b'\xA0\0', rng.randbytes(3)])
    elif kind == 6:
        s[at] = (s[at] + rng.choice([1, -1])) % 256
    elif kind == 7:
        s[at:at] = s[at:min(len(s), at + rng.randrange(1, 40))]
    else:
        other = rng.choice(others)
        s[at:] = other[rng.randrange(len(other)):]


def damaged(count, bases):
    for _ in range(count):
        s = bytearray(rng.choice(bases))
        for _ in range(rng.choice([1, 1, 1, 2, 3, 6])):
            if s:
                damage_once(s, bases)
        yield bytes(s)


def for_stack(large):
    """Letters that take the most stack: of small streams, up to 512 elements, or of any; contents in pieces down to the deepest level."""
    pieces = item(4, b'x')
    for _ in range(13):
        pieces = item(0x24, pieces + item(4, b'y'), MARKED)
    deep = item(0xA3, item(0x31, item(0x40, b'1 7 0')) + pieces)
    flat = [thing(0xA2, b'1 %d' % k, [b'0'], 2, MARKED, dimensions(SHORT)) for k in range(MOST_THINGS)]
    for count in (512, MOST_THINGS) if large else (20, 510):
        yield b''.join([profile(), *flat[:count], deep])
    yield b'\xA0\x80' * 16 + b'\0\0' * 16
    yield b''.join(b'%d' % name for name in range(1000, 3060))


def main(word):
    if word in ('small', 'large'):
        streams = [*for_stack(word == 'large'), *printed()]
    else:
        bases = [*printed(), *small()]
        streams = [*bases, *many_elements(), *many_octets(), *many_names(), *many_in_a_bucket(), *many_dates(), *shortest(), *type_fields(), *portion_numbers(), *at_random(1200)]
        streams += damaged(int(word), [s for s in [*bases, *streams[-300:]] if len(s) > 1])
    sys.stdout.buffer.write(b''.join(struct.pack('<I', len(s)) + s for s in streams))


if __name__ == '__main__':
    main(sys.argv[1])
