"""Writes products with a fixed number as shifts and sums, in a module that LLVM has optimised already: it makes products of the source's shifts again,
and a machine without a multiplier calls a routine for each (W-205)."""
import re

MOST_TERMS = 4


def terms(number):
    """The number as powers of two with signs, no two next to each other: (exponent, 1 or -1)."""
    found, exponent = [], 0
    while number:
        if number & 1:
            sign = 2 - (number & 3)
            found.append((exponent, sign))
            number -= sign
        number >>= 1
        exponent += 1
    return sorted(found, key=lambda term: -term[1])


def written(line, count):
    """The lines in place of `name = mul kind x, number`, or that line itself where they would be too many."""
    name, kind, factor, number = line.groups()
    parts = terms(int(number))
    if not parts or len(parts) > MOST_TERMS:
        return line[0]
    lines, sum_so_far = [], None
    for exponent, sign in parts:
        part = f'%shifted.{count}.{exponent}' if exponent else factor
        if exponent:
            lines.append(f'  {part} = shl {kind} {factor}, {exponent}')
        if sum_so_far is None:
            sum_so_far = part
            continue
        sum_now = f'%sum.{count}.{exponent}'
        lines.append(f"  {sum_now} = {'add' if sign > 0 else 'sub'} {kind} {sum_so_far}, {part}")
        sum_so_far = sum_now
    lines[-1] = re.sub(r'^  %\S+ =', f'  {name} =', lines[-1])
    return '\n'.join(lines)


def shifted(text, kinds):
    """The module with the products of these kinds (i32, i64) written so."""
    product = re.compile(rf"^  (%\S+) = mul (?:nuw |nsw )*({'|'.join(kinds)}) (%[^\s,]+), (\d+)$", re.M)
    count = iter(range(len(text)))
    return product.sub(lambda line: written(line, next(count)), text)
