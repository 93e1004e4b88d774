#!/usr/bin/env python3
"""Turns over each bit of an image of 200 bytes, one at a time, and compares with the plain model.

    tools/check_bits.py crates/rooms_program/out/rooms_program

Each of the 1,600 images that come so is given to `compact`, to `compact --workers 2`, to `mark` and to
`check`, and status, output and note have to be those of `tools/model.py`. It prints how many of the
images are refused and how, a line for each disagreement, and ends with 1 where there is one.
"""
import argparse
import collections
import sys

from model import answer, image_bytes
from runs import ran, told

COMMANDS = (["compact"], ["compact", "--workers", "2"], ["mark"], ["check"])


def header(references, data, tag):
    """The header of an object."""
    return references | data << 16 | tag << 32


# seven objects, of which three are dead: with places 0, 4, 5, 9, 13, 15 and 17
WORDS = [
    header(2, 1, 7), 6, 16, 99,
    header(0, 0, 8),
    header(3, 0, 9), 0, 1, 18,
    header(1, 2, 10), 5, 2**63, 1,
    header(0, 1, 11), 6,
    header(1, 0, 2**32 - 1), 16,
    header(0, 0, 0),
]
ROOTS = [1, 0, 16, 1]


def main():
    """Tries all bits, and answers how many went wrong."""
    options = argparse.ArgumentParser(description="Turns over each bit of an image.")
    options.add_argument("program", help="the built rooms_program")
    given = options.parse_args()
    image = image_bytes(WORDS, ROOTS)
    kinds = collections.Counter()
    wrong = 0
    for bit in range(-1, 8 * len(image)):
        data = bytearray(image)
        if bit >= 0:
            data[bit // 8] ^= 1 << bit % 8
        for words in COMMANDS:
            wanted = answer(words[0], bytes(data))
            found = ran(given.program, words, bytes(data))
            if found != wanted:
                wrong += 1
                print(f"bit {bit} of {' '.join(words)}: {told(found)}; wanted {told(wanted)}", flush=True)
        kinds[wanted[2].split(b" ")[1].decode() if wanted[2] else "accepted"] += 1
    print(f"{len(image)} bytes, {sum(kinds.values()) - 1} bits, {len(COMMANDS)} runs each:", end=" ")
    print(", ".join(f"{kind} {count}" for kind, count in sorted(kinds.items())))
    print(f"{wrong} wrong")
    return 1 if wrong else 0


if __name__ == "__main__":
    sys.exit(main())
