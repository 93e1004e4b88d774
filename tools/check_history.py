#!/usr/bin/env python3
"""Checks the printed history of a bay against a plain stack and a plain queue.

It reads the text from standard input, or from the file that is named: a line for each entry, `TURN
RANK WHO OP ARG REPLY`, then lines `caller C answered K of L` if there are any, then a line `stack`
and a line `queue` with the items of the lists at the end, and any lines `live N`. It prints
`ok N entries`, or the first fault, with status 1. A turn is of one room: peeks and looks at both lengths,
`sizes`, share one, and each may see only what the entries before it leave. --layout and --blocks say what bay it is of. With split
each list has 32 cells for each block, and a put is answered full exactly where its list has as many
items. With paged both lists share the blocks, of 64 cells each: a put is answered ok only where the
blocks that the items need, this one among them, are there, and full only where the list's last
block has no cell left and no more than one block could be free. A put in between may have either
answer. Turns without an entry are allowed.

With --trial it also reads the text of the trial whose output the history is. The layout and the number
of blocks are the trial's then, and each caller's entries must be the first lines of its script, in
order, each once: with split as many as it has lines, or draws if those are fewer. With paged a caller
with D draws may have answered K lines, fewer than all, where K is at most D, and K and 2 and a 64th of
all puts that were answered ok, rounded down, make at least D.
"""
import argparse
import sys

FIRST_OF_STACK = 2**32
BLOCK = 64
PUTS = ("push", "enq")
# the room of each operation
ROOMS = {"push": 0, "pop": 1, "enq": 2, "deq": 3, "peek": 4, "sizes": 4}
LOOKS = ("peek", "sizes")
TITLES = ("trial 1", "trial 2")


class Fault(Exception):
    """What is wrong with a text."""


class Bay:
    """A plain stack and a plain queue."""

    def __init__(self, layout, blocks):
        self.paged = layout == "paged"
        self.blocks = blocks
        self.stack = []
        self.queue = []
        self.taken = 0

    def span(self, items):
        """The blocks over which a queue of so many items reaches from its first."""
        return -(-(self.taken + items) // BLOCK) - self.taken // BLOCK

    def has_room(self, operation):
        """Whether one item more has a cell, however blocks changed hands."""
        stack, queue = len(self.stack), len(self.queue)
        if not self.paged:
            return (stack if operation == "push" else queue) < BLOCK // 2 * self.blocks
        if operation == "push":
            return -(-(stack + 1) // BLOCK) + self.span(queue) <= self.blocks
        return self.span(queue + 1) + -(-stack // BLOCK) <= self.blocks

    def is_tight(self, operation):
        """Whether one item more may be refused."""
        stack, queue = len(self.stack), len(self.queue)
        if not self.paged:
            return not self.has_room(operation)
        if operation == "push":
            return stack % BLOCK == 0 and self.blocks <= stack // BLOCK + self.span(queue) + 1
        ends = (self.taken + queue) % BLOCK == 0
        return ends and self.blocks <= self.span(queue) + -(-stack // BLOCK) + 1

    def first_rank(self, operation):
        """The rank of the first call of a turn."""
        return {
            "push": FIRST_OF_STACK + len(self.stack),
            "pop": FIRST_OF_STACK - len(self.stack),
            "enq": self.taken + len(self.queue),
            "deq": self.taken,
            "peek": 0,
            "sizes": 0,
        }[operation]

    def reply(self, operation, item, answered):
        """What the call answers, where it was answered so if it may be, and what it leaves."""
        if operation in PUTS:
            if answered == "full" and self.is_tight(operation):
                return "full"
            if not self.has_room(operation):
                return "full"
            items = self.stack if operation == "push" else self.queue
            items.append(item)
            return "ok"
        if operation == "peek":
            return str(self.stack[-1]) if self.stack else "empty"
        if operation == "sizes":
            return f"{len(self.stack)}/{len(self.queue)}"
        items = self.stack if operation == "pop" else self.queue
        if not items:
            return "empty"
        if operation == "pop":
            return str(items.pop())
        self.taken += 1
        return str(items.pop(0))


def number(word):
    """The number that a word spells in digits."""
    if not (word.isascii() and word.isdigit()) or (len(word) > 1 and word[0] == "0"):
        raise Fault(f"{word!r} is no number")
    value = int(word)
    if value >= 2**64:
        raise Fault(f"{word} has more than 64 bits")
    return value


def check_entry(bay, words, before, calls):
    """Checks one entry after those before it, and gives its turn, rank and operation."""
    if len(words) != 6:
        raise Fault("an entry has six words")
    turn, rank, who = number(words[0]), number(words[1]), number(words[2])
    operation, argument, reply = words[3:]
    if operation not in ROOMS:
        raise Fault(f"no operation {operation!r}")
    if (operation in PUTS) == (argument == "-"):
        raise Fault(f"argument {argument!r} of {operation}")
    if turn == 0:
        raise Fault("turn 0")
    if before is not None and (turn, rank) <= before[:2]:
        raise Fault("turn and rank do not rise")
    if before is not None and turn == before[0]:
        if ROOMS[operation] != ROOMS[before[2]]:
            raise Fault("two rooms in one turn")
        if rank != before[1] + 1:
            raise Fault(f"rank {rank} after {before[1]} in one turn")
    elif rank != bay.first_rank(operation):
        raise Fault(f"first rank {rank}, not {bay.first_rank(operation)}")
    item = number(argument) if operation in PUTS else 0
    lawful = bay.reply(operation, item, reply)
    if reply != lawful:
        raise Fault(f"reply {reply}, not {lawful}")
    calls[who] = calls.get(who, 0) + 1
    return turn, rank, operation


def check_answered(words, calls, answered):
    """Checks a line that says how many calls of a caller were answered."""
    if len(words) != 6 or words[2] != "answered" or words[4] != "of":
        raise Fault("no line 'caller C answered K of L'")
    who, made, asked = number(words[1]), number(words[3]), number(words[5])
    if who in answered:
        raise Fault(f"caller {who} twice")
    if made > asked:
        raise Fault("more calls answered than made")
    if made != calls.get(who, 0):
        raise Fault(f"{calls.get(who, 0)} entries of caller {who}, not {made}")
    answered.add(who)


class Trial:
    """The text of a trial: its layout and blocks, the draws of each caller, and the callers' scripts."""

    def __init__(self, text):
        lines = text.removesuffix("\n").split("\n")
        layouts = {"layout split": "split", "layout paged": "paged"}
        if lines[0] not in TITLES or lines[1] not in layouts or lines[4:5] != ["caller"]:
            raise Fault("no trial")
        self.layout = layouts[lines[1]]
        self.blocks, self.draws = (number(line.split(" ")[1]) for line in lines[2:4])
        self.scripts = []
        for line in lines[4:]:
            if line == "caller":
                self.scripts.append([])
            elif line in LOOKS and lines[0] == TITLES[0]:
                raise Fault(f"a line {line} in a text of the first form")
            else:
                self.scripts[-1].append(line)

    def may_end(self, made, stored):
        """Whether a caller may end after so many lines before its last, by its draws."""
        if self.layout == "split":
            return made == self.draws
        return made <= self.draws <= made + 2 + stored // BLOCK

    def check(self, entries):
        """Checks that the entries, as callers, what they called and the replies, are of the scripts."""
        told = [[] for _ in self.scripts]
        for who, call, _ in entries:
            if who >= len(told):
                raise Fault(f"an entry of caller {who}")
            told[who].append(call)
        stored = sum(reply == "ok" for _, _, reply in entries)
        for who, script in enumerate(self.scripts):
            made = len(told[who])
            if told[who] != script[:made] or made > self.draws:
                raise Fault(f"the entries of caller {who} are not its lines")
            if made < len(script) and not self.may_end(made, stored):
                raise Fault(f"caller {who} answered {made} of {len(script)} lines with draws left")


def check_list(words, items):
    """Checks the line of a list at the end."""
    if [number(word) for word in words[1:]] != items:
        raise Fault(f"the {words[0]} holds other items than the entries leave")


def check(lines, layout, blocks):
    """The entries, as callers, calls and replies, where all lines are as they should be."""
    bay, before, calls, answered, stage = Bay(layout, blocks), None, {}, set(), 0
    stages = {"caller": 1, "stack": 2, "queue": 3, "live": 4}
    entries = []
    for place, line in enumerate(lines, 1):
        words = line.split(" ")
        now = stages.get(words[0], 0)
        try:
            if now < stage or (now == stage and now >= 2) or (now >= 3 and stage < now - 1):
                raise Fault("a line out of its place")
            stage = now
            if now == 0:
                before = check_entry(bay, words, before, calls)
                call = words[3] if words[4] == "-" else " ".join(words[3:5])
                entries.append((number(words[2]), call, words[5]))
            elif now == 1:
                check_answered(words, calls, answered)
            elif now == 2:
                check_list(words, bay.stack)
            elif now == 3:
                check_list(words, bay.queue)
            elif len(words) != 2 or number(words[1]) < len(bay.stack) + len(bay.queue):
                raise Fault("live is less than the items")
        except Fault as fault:
            raise Fault(f"line {place}: {fault}: {line[:120]}") from None
    if stage < 3:
        raise Fault("the lines of the stack and the queue are wanting")
    if answered and set(calls) - answered:
        raise Fault(f"no line for caller {min(set(calls) - answered)}")
    return entries


def main():
    """Reads, checks and prints."""
    options = argparse.ArgumentParser(description="Checks the printed history of a bay.")
    options.add_argument("--layout", choices=["split", "paged"], default="split")
    options.add_argument("--blocks", type=int, default=64)
    options.add_argument("--trial", metavar="SCRIPT", help="the text of the trial")
    options.add_argument("file", nargs="?")
    given = options.parse_args()
    if given.file:
        with open(given.file, encoding="ascii") as file:
            text = file.read()
    else:
        text = sys.stdin.read()
    try:
        if not text.endswith("\n"):
            raise Fault("the last line has no end")
        trial = None
        if given.trial:
            with open(given.trial, encoding="ascii") as file:
                trial = Trial(file.read())
        bay = trial or given
        entries = check(text[:-1].split("\n"), bay.layout, bay.blocks)
        if trial:
            trial.check(entries)
        print(f"ok {len(entries)} entries")
    except Fault as fault:
        print(fault)
        sys.exit(1)


if __name__ == "__main__":
    main()
