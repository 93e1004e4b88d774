#!/usr/bin/env python3
"""Compacts images with crews of several sizes, and compares what each writes with what one worker does.

    tools/check_workers.py crates/rooms_program/out/rooms_program

The first word is the built program. It prints a line for each case, and ends with 1 where a run failed
or wrote something else than one worker, or where the slide is not the one that this script makes.
The images are made up by rule, as the crate image_reader makes them.
"""
import argparse
import os
import subprocess
import sys
import time

from model import image_bytes, make, slide


def compact(program, options, image):
    """The status and the output of one run."""
    ran = subprocess.run([program, "compact", *options], input=image, capture_output=True, check=False)
    return ran.returncode, ran.stdout


def numbers(text):
    """The numbers of a word, with commas between them."""
    return [int(part) for part in text.split(",")]


def main():
    """Tries all cases, and answers how many went wrong."""
    options = argparse.ArgumentParser(description="Compares what crews of several sizes write.")
    options.add_argument("program", help="the built rooms_program")
    options.add_argument("--objects", type=numbers, default=[10, 1000, 100000])
    options.add_argument("--workers", type=numbers, default=[1, 2, 4, 16])
    options.add_argument("--blocks", type=numbers, default=[1, 2, 64])
    options.add_argument("--times", type=int, default=10, help="how often each case runs")
    options.add_argument("--seed", type=int, default=1)
    options.add_argument("--processors", type=numbers, default=[0, 1], help="those that may be used")
    given = options.parse_args()
    os.sched_setaffinity(0, given.processors)
    wrong = 0
    for objects in given.objects:
        words, roots = make(objects, given.seed)
        image = image_bytes(words, roots)
        status, expected = compact(given.program, [], image)
        if status != 0 or expected != image_bytes(*slide(words, roots)):
            print(f"objects {objects} one worker: status {status}, or another slide")
            wrong += 1
        for workers in given.workers:
            for blocks in given.blocks:
                crew = ["--workers", str(workers), "--blocks", str(blocks)]
                start = time.monotonic()
                ran = [compact(given.program, crew, image) for _ in range(given.times)]
                each = (time.monotonic() - start) / given.times
                same = sum(run == (0, expected) for run in ran)
                wrong += given.times - same
                print(f"objects {objects} workers {workers} blocks {blocks} same {same} of {given.times}, {each:.3f} s each", flush=True)
    print(f"{wrong} wrong")
    return 1 if wrong else 0


if __name__ == "__main__":
    sys.exit(main())
