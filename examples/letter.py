#!/usr/bin/env python3
"""Shows the text of a letter in reading order: letter.py FILE. It ends with status 1 if the letter is refused, and with 2
if it cannot be read.

It is written over the package odif, which `pip install ./python` installs."""
import sys

import odif


def main():
    try:
        if len(sys.argv) > 1:
            letter = odif.read(sys.argv[1])
        else:
            letter = odif.Letter(sys.stdin.buffer.read(odif.STREAM_LIMIT + 1))
        for line in letter.lines():
            sys.stdout.buffer.write(line.octets if line.octets.endswith(b"\n") else line.octets + b"\n")
        sys.stdout.buffer.flush()
    except odif.Refusal as refusal:
        print(refusal, file=sys.stderr)
        return 1
    except OSError as error:
        print(error, file=sys.stderr)
        return 2
    return 0


if __name__ == "__main__":
    sys.exit(main())
