#!/usr/bin/env python3
"""Lists the pages of a letter with what the PM1 desk says of each: pages.py FILE. It ends with status 1 if the letter is refused or a page is
not within PM1, and with 2 if it cannot be read.

It is written over the package odif, which `pip install ./python` installs."""
import sys

import odif

OUTSIDE = odif.Verdict.OUTSIDE, odif.Verdict.NOT_FIXED


def main():
    try:
        letter = odif.read(sys.argv[1] if len(sys.argv) > 1 else "/dev/stdin")
        pages = letter.pages()
        for page in pages:
            identifier = (letter.identifier(page.element) or b"").decode()
            sys.stdout.write(f"{identifier}: {page.verdict.name.lower().replace('_', '-')}\n")
        sys.stdout.flush()
        return 1 if any(page.verdict in OUTSIDE for page in pages) else 0
    except odif.Refusal as refusal:
        print(refusal, file=sys.stderr)
        return 1
    except OSError as error:
        print(error, file=sys.stderr)
        return 2


if __name__ == "__main__":
    sys.exit(main())
