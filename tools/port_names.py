#!/usr/bin/env python3
"""Brings this repository's own names in antt to the spelling of today's Rattle, once, after the kit's port.py: words in snake case where they were
in camel case, as `isDigit`, which becomes `is_digit`; underscores in place of the dashes of definitions, constructors and fields, which are no
lemmas, as `first-inside`, which becomes `first_inside`. A lemma keeps the dashes between its parts. It goes by whole words, through proofs, specs,
clauses, wrong programs and the pages of docs/ that name definitions. Comments go with it. Functions of src/, exported names, strings, inputs and
outputs keep their names: none of them is in camel case.

usage: tools/port_names.py           rewrites the files below crates/ and docs/, and says which words fall together in a file
       tools/port_names.py --list    prints the words that change, and rewrites nothing
"""
import collections
import pathlib
import re
import sys

TOP = pathlib.Path(__file__).resolve().parent.parent
# A word of antt: a run of letters, digits, underscores, primes and dashes between them; the part before a dot is another word.
WORD = re.compile(r"(?<![\w'₀-₉])[^\W\d](?:[\w'₀-₉]|-(?=[\w]))*")
CAMEL = re.compile(r'[a-z][a-z0-9]*(?:[A-Z][a-z0-9]*)+')
PAGES = ['docs/READING.md', 'docs/PROMISES.md', 'docs/ARCHITECTURE.md', 'docs/DECISIONS.md', 'docs/EXCEPTIONS.md', 'docs/CONTRIBUTING.md',
         'docs/PROVING.md', 'docs/ORDER.md', 'docs/DATES.md', 'docs/EDITIONS.md', 'docs/EVIDENCE.md', 'docs/PM1.md', 'docs/CHARACTERS.md']
# A string of a line, which keeps its words.
STRING = r'"(?:[^"\\\n]|\\.)*"'
# Words of the library that a definition here must not take: the prover's own names of goals and places.
KEPT = re.compile(r'(?:invariant|decreases|goal|tie|Need|loop|returns)-')

# Words that would fall together with another of their file: each becomes a word of its own first.
APART = [
    (r'crates/(order|answers|promises)/.*', 'outOfOrder', 'outOfOrderNumber'),
    (r'crates/order/.*|crates/promises.*', 'in_step', 'all_in_step'),
    (r'crates/parents/.*|crates/promises.*', 'all_digits', 'only_digits'),
    (r'crates/letters/proofs/Fetching.antt', 'held_by', 'held-by'),
    (r'crates/letters/proofs/Standing.antt', 'rest_from', 'rest-from'),
    (r'crates/promises/(specs|proofs)/Editions.antt', 'text-lines', 'text_lines_alike'),
    (r'crates/promises/(specs|proofs)/Editions.antt', 'text-output', 'text_output_alike'),
]
# Lemmas that share their word with a field elsewhere, and keep its dash.
LEMMAS = {'no-day', 'run-at', 'in-row', 'pre-below', 'item-calls', 'item-below', 'item-at', 'run-calls', 'run-below', 'marked-calls', 'marked-below', 'marked-at'}


def snake(word):
    return re.sub(r'(?<=[a-z0-9])([A-Z])', lambda found: '_' + found[1].lower(), word)


def turned_camel(word):
    return '-'.join(snake(part) if CAMEL.fullmatch(re.sub(r"['₀-₉_].*", '', part)) else part for part in word.split('-'))


def declared(text):
    """The words with dashes that a file declares as definitions, fields or constructors."""
    inside = None
    for line in text.split('\n'):
        head = re.match(r'\s*(?:abbrev |unfoldable )?(?:pub )?(record|data)\s+(\S+)', line)
        if head:
            inside = (head[1], len(line) - len(line.lstrip()))
            continue
        if line.strip() and len(line) - len(line.lstrip()) <= (inside[1] if inside else -1):
            inside = None
        if inside and inside[0] == 'record':
            found = re.match(r'\s+(?:pub )?([^\s():]+(?: [^\s():]+)*) :', line)
            if found and not line.strip().startswith('--'):
                yield from found[1].replace('pub ', '').split()
        elif inside:
            found = re.match(r'\s+(?!pub |--)\|?\s*([^\s():]+(?: [^\s():]+)*) :', line)
            if found:
                yield from found[1].split()
        else:
            found = re.match(r'\s*(?:abbrev|unfoldable)\s+(?:pub )?(\S+)\s+:', line)
            if found:
                yield found[1]


def words_of(text):
    return set(WORD.findall(re.sub(STRING, '""', text)))


def respelt(text, table):
    """The text with its words by the table, but for what stands in strings."""
    return ''.join(part if part.startswith('"') else WORD.sub(lambda found: table.get(found[0], found[0]), part) for part in re.split(f'({STRING})', text))


def main():
    files = sorted(path for path in (TOP / 'crates').rglob('*') if path.suffix in ('.rt', '.antt', '.edit') and 'out' not in path.parts)
    texts = {path: path.read_text('utf-8') for path in files}
    for path, text in texts.items():
        for where, word, other in APART:
            if re.fullmatch(where, str(path.relative_to(TOP))):
                texts[path] = text = WORD.sub(lambda found: other if found[0] == word else found[0], text)
    before = {path: path.read_text('utf-8') for path in files}
    antt = {path: text for path, text in texts.items() if path.suffix == '.antt'}
    table = {}
    for text in antt.values():
        for word in declared(text):
            if '-' in word and word not in LEMMAS and not KEPT.match(word):
                table[word] = word.replace('-', '_')
    for text in texts.values():
        for word in words_of(text):
            to = turned_camel(table.get(word, word))
            if to != word:
                table[word] = to
    if '--list' in sys.argv:
        for word, to in sorted(table.items()):
            print(word, to)
        return
    together = collections.Counter()
    for path, text in texts.items():
        words = words_of(text)
        for word in words:
            to = table.get(word)
            if to and (to in words or any(other != word and table.get(other) == to for other in words)):
                together[word, to, str(path.relative_to(TOP))] += 1
        new = respelt(text, table)
        if new != before[path]:
            path.write_text(new, 'utf-8')
    for page in PAGES:
        path = TOP / page
        if path.exists():
            text = path.read_text('utf-8')
            new = re.sub(r'`[^`\n]+`', lambda found: WORD.sub(lambda word: table.get(word[0], word[0]) if CAMEL.search(word[0]) or word[0] in table else word[0], found[0]), text)
            if new != text:
                path.write_text(new, 'utf-8')
    for (word, to, path) in sorted(together):
        print(f'{path}: {word} and {to}')


if __name__ == '__main__':
    main()
