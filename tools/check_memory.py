#!/usr/bin/env python3
"""Refuses the program's requests for memory, one after another, and sees how it ends.

    tools/check_memory.py crates/rooms_program/out/rooms_program
    tools/check_memory.py crates/rooms_program/out/rooms_program --only trial --times 20

It builds a small library with the C compiler `cc` (or $CC), which is loaded before the program and
refuses request N for memory, once or with all after it, for N from 0 up to the first run in which
nothing was refused. It does so for `compact`, `compact --workers 2`, `mark`, `check`, `schedule` and
`trial`, and for a command line that names no command. Each run has to end with status 0 and its whole
output, as without refusals (of a trial, one of its histories), or with 9, the note `out of memory`
and nothing written. Where the command line itself finds no memory that is so too. The library then
refuses to start each thread in turn, once and with all after it: the output has to be whole.

Where several threads ask at once the order of requests differs from run to run: --times says how often
each N is tried (else 3 where there are threads, and 1 where there are none). It prints a line of counts
for each command, a line for each run that ended otherwise, and ends with 1 where there is one.
"""
import argparse
import collections
import os
import pathlib
import subprocess
import sys
import tempfile

from check_random import is_trial
from model import image_bytes, make
from runs import ran, told

LIBRARY = r"""
#define _GNU_SOURCE
#include <dlfcn.h>
#include <errno.h>
#include <pthread.h>
#include <stdatomic.h>
#include <stddef.h>
#include <stdlib.h>
#include <unistd.h>

void *__libc_malloc(size_t);
void *__libc_calloc(size_t, size_t);
void *__libc_realloc(void *, size_t);
void *__libc_memalign(size_t, size_t);

static atomic_long requests, threads;
static atomic_int refused, is_started;
static long first = -1, first_thread = -1;
static int all_after;

static long number_of(const char *name) {
    const char *text = getenv(name);
    return text ? atol(text) : -1;
}

/* to the file with the number that is told */
static void tell(char what) {
    long file = number_of("REFUSE_TELL");
    if (file >= 0 && write((int)file, &what, 1) != 1) _exit(99);
}

/* what comes before main is the loader's and the C library's own; 0 tells that the library is there */
__attribute__((constructor)) static void start(void) {
    first = number_of("REFUSE_REQUEST");
    first_thread = number_of("REFUSE_THREAD");
    all_after = number_of("REFUSE_ALL") == 1;
    tell('0');
    is_started = 1;
}

/* 1 tells of the first refusal */
static int is_chosen(long at, long chosen) {
    if (chosen < 0 || (all_after ? at < chosen : at != chosen)) return 0;
    if (!atomic_exchange(&refused, 1)) tell('1');
    return 1;
}

static int is_refused(void) {
    if (!is_started || !is_chosen(atomic_fetch_add(&requests, 1), first)) return 0;
    errno = ENOMEM;
    return 1;
}

void *malloc(size_t n) { return is_refused() ? NULL : __libc_malloc(n); }
void *calloc(size_t k, size_t n) { return is_refused() ? NULL : __libc_calloc(k, n); }
void *realloc(void *p, size_t n) { return is_refused() ? NULL : __libc_realloc(p, n); }
void *memalign(size_t a, size_t n) { return is_refused() ? NULL : __libc_memalign(a, n); }
void *aligned_alloc(size_t a, size_t n) { return is_refused() ? NULL : __libc_memalign(a, n); }

int posix_memalign(void **p, size_t a, size_t n) {
    if (is_refused()) return ENOMEM;
    void *found = __libc_memalign(a, n);
    if (!found) return ENOMEM;
    *p = found;
    return 0;
}

typedef int starter(pthread_t *, const pthread_attr_t *, void *(*)(void *), void *);

int pthread_create(pthread_t *t, const pthread_attr_t *a, void *(*f)(void *), void *x) {
    if (is_chosen(atomic_fetch_add(&threads, 1), first_thread)) return EAGAIN;
    return ((starter *)dlsym(RTLD_NEXT, "pthread_create"))(t, a, f, x);
}
"""

IMAGE = image_bytes(*make(600, 1))
SCHEDULE = b"schedule 1\nrooms 2\ncallers 2\n" + 20 * (
    b"draw 0 0\n" + 5 * b"step 0\n" + b"draw 1 0\nstep 1\nstep 1\nleave 0\n" + 7 * b"step 0\n" + b"step 1\nstep 1\nleave 1\n" + 5 * b"step 1\n")
TRIAL = b"trial 1\nlayout paged\nblocks 2\ndraws 1000\n" + 3 * (b"caller\n" + 5 * b"push 5\npop\nenq 6\ndeq\npush 7\n")
# the words, the input, and whether there are threads
CASES = {
    "compact": (["compact"], IMAGE, False),
    "compact --workers 2": (["compact", "--workers", "2"], IMAGE, True),
    "mark": (["mark"], IMAGE, False),
    "check": (["check"], IMAGE, False),
    "schedule": (["schedule"], SCHEDULE, False),
    "trial": (["trial"], TRIAL, True),
    "no command": (["no", "command"], b"", False),
}


def built(room):
    """The library, built in this folder."""
    source, library = pathlib.Path(room, "refuse.c"), pathlib.Path(room, "refuse.so")
    source.write_text(LIBRARY)
    words = [os.environ.get("CC", "cc"), "-O1", "-shared", "-fPIC", "-o", library, source, "-ldl", "-lpthread"]
    subprocess.run(words, check=True)
    return library


def refusing(program, library, words, data, **choice):
    """One run with what is refused, and whether something was."""
    reader, writer = os.pipe()
    chosen = {f"REFUSE_{name.upper()}": str(value) for name, value in choice.items()}
    env = {**os.environ, "LD_PRELOAD": str(library), "REFUSE_TELL": str(writer), **chosen}
    try:
        found = ran(program, words, data, env=env, pass_fds=[writer])
        os.close(writer)
        return found, os.read(reader, 2)
    finally:
        os.close(reader)


class Case:
    """One command with its input, and how its runs ended."""

    def __init__(self, program, library, name):
        self.program, self.library, self.name = program, library, name
        self.words, self.data, self.has_threads = CASES[name]
        self.whole, told_by = refusing(program, library, self.words, self.data)
        if told_by != b"0":
            sys.exit("the library is not loaded")
        self.ends = collections.Counter()
        self.wrong = 0

    def is_whole(self, found):
        """Whether the run ended as one without refusals."""
        return is_trial(found, self.data) if self.name == "trial" else found == self.whole

    def run(self, may_want, **choice):
        """Runs once; whether something was refused."""
        found, refused = refusing(self.program, self.library, self.words, self.data, **choice)
        self.ends[found[0]] += 1
        wants = may_want and refused != b"0" and found == (9, b"", b"out of memory\n")
        if not (self.is_whole(found) or wants):
            self.wrong += 1
            print(f"{self.name}, {choice}: {told(found)}", flush=True)
        return refused != b"0"

    def refuse(self, what, times):
        """Refuses each request or thread in turn, and answers how many there were at the most."""
        most = 0
        for all_after in (0, 1):
            at = 0
            while any([self.run(what == "request", all=all_after, **{what: at}) for _ in range(times)]):
                at += 1
            most = max(most, at)
        return most


def main():
    """Tries all cases, and answers how many went wrong."""
    options = argparse.ArgumentParser(description="Refuses the program's requests for memory.")
    options.add_argument("program", help="the built rooms_program")
    options.add_argument("--only", choices=CASES, help="this command alone")
    options.add_argument("--times", type=int, help="how often each request is refused")
    given = options.parse_args()
    wrong = 0
    with tempfile.TemporaryDirectory() as room:
        library = built(room)
        for name in [given.only] if given.only else CASES:
            case = Case(given.program, library, name)
            times = given.times or (3 if case.has_threads else 1)
            requests, threads = case.refuse("request", times), case.refuse("thread", times)
            ends = ", ".join(f"status {status}: {count}" for status, count in sorted(case.ends.items(), key=str))
            print(f"{name}: {requests} requests, {threads} threads, {times} times each; {ends}; {case.wrong} wrong", flush=True)
            wrong += case.wrong
    print(f"{wrong} wrong")
    return 1 if wrong else 0


if __name__ == "__main__":
    sys.exit(main())
