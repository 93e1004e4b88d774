#!/usr/bin/env python3
"""Runs trials of 64 callers and compactions by 16 workers on two processors, and sees that none hangs.

    tools/check_crowds.py crates/rooms_program/out/rooms_program
    tools/check_crowds.py crates/rooms_program/out/rooms_program --times 5 --first 101 --processors 2,3

Each of a hundred rounds is a trial of 64 callers with 100 calls each over one block, one over 2 blocks
that change hands, and `compact --workers 16` over 1 block and over 2 blocks that change hands, of an
image of 20,000 objects. The round's number is the seed of its texts and of its image. A trial's
output has to pass `tools/check_history.py --trial`, and a slide has to be that of `tools/model.py`. It
prints how long the runs of each kind took, a line for each run that hangs or disagrees, and ends with
1 where there is one.
"""
import argparse
import os
import pathlib
import subprocess
import sys
import time

from check_random import is_trial
from model import image_bytes, make, slide
from runs import ran, told

MAKER = pathlib.Path(__file__).with_name("make_trial.py")
TRIALS = {"64 callers, split": ["--layout", "split", "--blocks", "1"],
          "64 callers, paged": ["--layout", "paged", "--blocks", "2"]}
CREWS = {"16 workers, split": ["--workers", "16", "--blocks", "1"],
         "16 workers, paged": ["--workers", "16", "--blocks", "2", "--layout", "paged"]}


def numbers(text):
    """The numbers of a word, with commas between them."""
    return [int(part) for part in text.split(",")]


class Tally:
    """How long the runs of each kind took, and how many went wrong."""

    def __init__(self, program):
        self.program = program
        self.took = {}
        self.wrong = 0

    def run(self, kind, seed, words, data, is_right):
        """Runs the program once."""
        start = time.monotonic()
        found = ran(self.program, words, data)
        self.took.setdefault(kind, []).append(time.monotonic() - start)
        if not is_right(found):
            self.wrong += 1
            print(f"{kind}, seed {seed}: {told(found)}", flush=True)


def main():
    """Makes all rounds, and answers whether something went wrong."""
    options = argparse.ArgumentParser(description="Runs many callers and workers on few processors.")
    options.add_argument("program", help="the built rooms_program")
    options.add_argument("--times", type=int, default=100)
    options.add_argument("--first", type=int, default=1, help="the first seed")
    options.add_argument("--processors", type=numbers, default=[0, 1], help="those that may be used")
    given = options.parse_args()
    os.sched_setaffinity(0, given.processors)
    tally = Tally(given.program)
    for seed in range(given.first, given.first + given.times):
        for kind, layout in TRIALS.items():
            words = [sys.executable, MAKER, "64", "100", str(seed), *layout]
            text = subprocess.run(words, capture_output=True, check=True).stdout
            tally.run(kind, seed, ["trial"], text, lambda found, text=text: is_trial(found, text))
        image = make(20000, seed)
        wanted = (0, image_bytes(*slide(*image)), b"")
        for kind, crew in CREWS.items():
            tally.run(kind, seed, ["compact", *crew], image_bytes(*image), lambda found, wanted=wanted: found == wanted)
    for kind, took in tally.took.items():
        print(f"{kind}: {len(took)} runs, {sum(took) / len(took):.3f} s each, {max(took):.3f} s the longest")
    print(f"seeds {given.first} to {given.first + given.times - 1}, {tally.wrong} wrong")
    return 1 if tally.wrong else 0


if __name__ == "__main__":
    sys.exit(main())
