#!/usr/bin/env python3
"""Prints the text of a trial: callers with scripts of calls by chance.

The numbers of callers and of lines for each come first, and the seed last, by which the same text
comes again. With --layout split each list has 32 cells for each of --blocks blocks; with paged both share
as many blocks of 64 cells, at least 2. So some items find no cell. The calls are pushes, pops, enqueues
and dequeues; with --looks also peeks and looks at both lengths, in a text of the second form.
"""
import argparse
import random


def main():
    """Reads the numbers and prints the text."""
    options = argparse.ArgumentParser(description="Prints the text of a trial.")
    options.add_argument("callers", type=int)
    options.add_argument("lines", type=int)
    options.add_argument("seed", type=int)
    options.add_argument("--layout", choices=["split", "paged"], default="split")
    options.add_argument("--blocks", type=int)
    options.add_argument("--draws", type=int, default=2**48)
    options.add_argument("--looks", action="store_true")
    given = options.parse_args()
    chance = random.Random(given.seed)
    blocks = given.blocks or {"split": 1, "paged": 2}[given.layout]
    form, looks = (2, ["peek", "sizes"]) if given.looks else (1, [])
    print(f"trial {form}", f"layout {given.layout}", f"blocks {blocks}", f"draws {given.draws}", sep="\n")
    for caller in range(given.callers):
        print("caller")
        for line in range(given.lines):
            item = caller * given.lines + line
            print(chance.choice([f"push {item}", "pop", f"enq {item}", "deq", *looks]))


if __name__ == "__main__":
    main()
