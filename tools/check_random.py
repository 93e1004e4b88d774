#!/usr/bin/env python3
"""Gives the program texts and images by chance, and compares with the plain model.

    tools/check_random.py crates/rooms_program/out/rooms_program --count 1000000 --jobs 4
    tools/check_random.py crates/rooms_program/out/rooms_program --first 250001 --count 250000
    tools/check_random.py --show 17 > INPUT

Case N is made from the seed N alone, so that a part goes on where the last one ended, which its last line
tells. Cases take turns: images for `compact`, for `check` and for `mark`, schedules, and trials. Images
and texts are right ones, right ones in which something was changed, and bytes by chance. Status,
output and note have to be those of `tools/model.py`; the output of an accepted trial has to pass
`tools/check_history.py --trial`. It prints a line for each disagreement, a line of counts for each
10,000 cases, and ends with 1 where something disagreed.
"""
import argparse
import collections
import multiprocessing
import random
import struct
import sys

import check_history
from model import MAGIC, Core, answer, image_bytes, size_of
from runs import ran, told

COMMANDS = ("compact", "check", "schedule", "trial", "mark")
EDGES = [0, 1, 2, 7, 8, 63, 64, 65, 255, 2**14, 2**14 + 1, 2**16 - 1, 2**16, 2**16 + 1, 2**20, 2**22, 2**22 + 1,
         2**32, 2**48, 2**48 + 1, 2**63, 2**64 - 1]


# Images


def sized(chance):
    """How many objects an image has: mostly few, now and then several pieces of 256."""
    return chance.choice([0, 1, 2, 3, 5, 8, 13, 40]) if chance.random() < 0.97 else chance.randrange(200, 1200)


def right_image(chance):
    """The words and the roots of an image."""
    shapes = [(chance.choice([0, 1, 1, 2, 3, 7]), chance.choice([0, 0, 1, 2])) for _ in range(sized(chance))]
    places = [0]
    for references, data in shapes:
        places.append(places[-1] + 1 + references + data)
    names = [0, *(1 + place for place in places[:-1])]
    words = []
    for references, data in shapes:
        words.append(references | data << 16 | chance.randrange(2**32) << 32)
        words.extend(chance.choice(names) for _ in range(references))
        words.extend(chance.choice([chance.randrange(2**64), *EDGES]) for _ in range(data))
    return words, [chance.choice(names) for _ in range(chance.choice([0, 1, 1, 2, 5]))]


def changed_image(chance):
    """An image in which a word or a root is another."""
    words, roots = right_image(chance)
    numbers = chance.choice([words, words, roots])
    for _ in range(chance.choice([1, 1, 2])):
        if numbers:
            near = chance.randrange(len(words) + 3)
            numbers[chance.randrange(len(numbers))] = chance.choice([*EDGES, near, near, near, 65536 * near])
    return image_bytes(words, roots)


def changed_bytes(chance, data):
    """Bytes of which some are other ones, or are missing, or are too many."""
    data = bytearray(data)
    for _ in range(chance.choice([1, 1, 1, 2, 4])):
        at = chance.randrange(len(data) + 1)
        kind = chance.randrange(5)
        if kind == 0:
            data[at:] = b""
        elif kind == 1:
            data[at:at] = bytes([chance.choice([0, 9, 10, 32, 48, 49, chance.randrange(256)])])
        elif kind == 2:
            data[at:at + chance.choice([1, 1, 8])] = b""
        elif at < len(data):
            data[at] = data[at] ^ 1 << chance.randrange(8) if kind == 3 else chance.randrange(256)
    return bytes(data)


def changed_counts(chance):
    """An image whose counts are other ones."""
    data = bytearray(image_bytes(*right_image(chance)))
    at = chance.choice([8, 16])
    count, = struct.unpack_from("<Q", data, at)
    struct.pack_into("<Q", data, at, chance.choice([*EDGES, count + 1, max(count, 1) - 1]))
    return bytes(data)


def image(chance):
    """The bytes of a case."""
    kind = chance.randrange(10)
    if kind < 4:
        return image_bytes(*right_image(chance))
    if kind < 7:
        return changed_image(chance)
    if kind == 7:
        return changed_bytes(chance, image_bytes(*right_image(chance)))
    if kind == 8:
        return changed_counts(chance)
    return chance.choice([b"", MAGIC]) + chance.randbytes(chance.randrange(120))


def crew(chance):
    """The words that say which crew does it."""
    if chance.random() < 0.6:
        return []
    layout = chance.choice(["split", "paged"])
    blocks = chance.choice([1, 2, 3, 64] if layout == "split" else [2, 3, 64])
    return ["--workers", str(chance.choice([1, 2, 3, 4])), f"--blocks={blocks}", "--layout", layout]


# Texts


def spelled(chance, value):
    """A number in digits, or now and then something else."""
    if chance.random() < 0.995:
        return str(value)
    return chance.choice(["", "-", "+1", "00", f"0{value}", f"{value} ", "1e3", str(2**64), str(10**30), *map(str, EDGES)])


def schedule(chance):
    """The text of a schedule, most of whose acts the core accepts."""
    rooms, callers = chance.randint(1, 7), chance.choice([1, 2, 3, 4, 8, 64])
    core = Core(rooms, callers)
    lines = ["schedule 1", f"rooms {spelled(chance, rooms)}", f"callers {spelled(chance, callers)}"]
    busy = min(callers, chance.choice([1, 2, 3, 64]))
    wrong = chance.choice([0, 0, 0, 0.01, 0.1])
    for _ in range(chance.choice([0, 3, 10, 40, 150])):
        caller = chance.randrange(busy)
        kind = {"Out": "draw", "Inside": "leave"}.get(core.phases[caller][0], "step")
        if chance.random() < wrong:
            kind = chance.choice(["draw", "step", "leave"])
            caller = chance.choice([caller, callers, *EDGES])
        room = chance.randrange(rooms) if chance.random() >= wrong else chance.choice([rooms, *EDGES])
        numbers = [caller, room] if kind == "draw" else [caller]
        lines.append(" ".join([kind, *(spelled(chance, value) for value in numbers)]))
        core.act(caller, kind, room)
    return text(chance, lines)


def trial(chance):
    """The text of a trial."""
    layout = chance.choice(["split", "split", "paged"])
    blocks = chance.choice([2, 3, 5]) if layout == "paged" else chance.choice([1, 1, 2])
    limit = chance.choice([1, 2, 5, 20, 1000, 2**48])
    if chance.random() < 0.1:
        blocks, limit = chance.choice(EDGES), chance.choice(EDGES)
    form = chance.choice([1, 2])
    looks = ["peek", "sizes"] if form == 2 or chance.random() < 0.05 else []
    lines = [f"trial {form}", f"layout {layout}", f"blocks {spelled(chance, min(blocks, 20000))}", f"draws {spelled(chance, limit)}"]
    long = chance.choice([0, 1, 3, 8, 40])
    for _ in range(chance.choice([1, 1, 2, 3, 4]) if chance.random() < 0.98 else chance.choice([63, 64, 65])):
        lines.append("caller")
        for _ in range(chance.randint(0, long)):
            item = spelled(chance, chance.choice([chance.randrange(100), *EDGES]))
            lines.append(chance.choice([f"push {item}", f"push {item}", "pop", f"enq {item}", f"enq {item}", "deq", *looks]))
    return text(chance, lines)


def text(chance, lines):
    """Lines as bytes, in which now and then something is changed."""
    kind = chance.randrange(10)
    if kind == 0 and lines:
        del lines[chance.randrange(len(lines))]
    elif kind == 1:
        lines.insert(chance.randrange(len(lines) + 1), chance.choice(["", " ", "caller", "pop", "peek", "step 0", *lines[:5]]))
    data = "".join(f"{line}\n" for line in lines).encode()
    if kind == 2:
        data = changed_bytes(chance, data)
    elif kind == 3:
        data = data[:-1]
    elif kind == 4:
        data = data.replace(b"\n", chance.choice([b"\r\n", b" \n", b"\n\n"]), 1)
    return data


# Cases


def case(seed):
    """The words and the input of a case."""
    chance = random.Random(seed)
    command = COMMANDS[seed % len(COMMANDS)]
    if command in ("schedule", "trial"):
        return [command], (schedule if command == "schedule" else trial)(chance)
    data = image(chance)
    return [command, *(crew(chance) if command in ("compact", "mark") else [])], data


def is_trial(found, data):
    """Whether a run printed a history of the trial."""
    status, output, note = found
    if status != 0 or note or not output.endswith(b"\n"):
        return False
    try:
        it = check_history.Trial(data.decode())
        it.check(check_history.check(output.decode()[:-1].split("\n"), it.layout, it.blocks))
    except (check_history.Fault, ValueError, IndexError):
        return False
    return True


PROGRAM = ""


def start(program):
    """Names the program to a process that tries cases."""
    global PROGRAM
    PROGRAM = program


def tried(seed):
    """The kind of a case, and what is wrong with it."""
    words, data = case(seed)
    wanted = answer(words[0], data)
    found = ran(PROGRAM, words, data)
    right = is_trial(found, data) if words[0] == "trial" and wanted[0] == 0 else found == wanted
    kind = f"{words[0]} {wanted[2].split(b' ')[1].decode() if wanted[0] == 3 else wanted[0]}"
    return kind, None if right else f"case {seed} {' '.join(words)}: {told(found)}; wanted {told(wanted)}"


def counted(kinds):
    """The counts in print."""
    return ", ".join(f"{kind}: {count}" for kind, count in sorted(kinds.items()))


def main():
    """Tries the cases, and answers whether all agreed."""
    options = argparse.ArgumentParser(description="Compares the program with a plain model.")
    options.add_argument("program", nargs="?", help="the built rooms_program")
    options.add_argument("--first", type=int, default=1, help="the seed of the first case")
    options.add_argument("--count", type=int, default=10000)
    options.add_argument("--jobs", type=int, default=1, help="how many runs are under way at a time")
    options.add_argument("--show", type=int, help="write the input of this case, and its words as a note")
    given = options.parse_args()
    if given.show is not None:
        words, data = case(given.show)
        sys.stdout.buffer.write(data)
        print(" ".join(words), file=sys.stderr)
        return 0
    if given.program is None:
        options.error("name the built program")
    kinds = collections.Counter()
    wrong = 0
    end = given.first + given.count
    with multiprocessing.Pool(given.jobs, start, (given.program,)) as pool:
        for done, (kind, fault) in enumerate(pool.imap(tried, range(given.first, end), chunksize=50), 1):
            kinds[kind] += 1
            if fault:
                wrong += 1
                print(fault, flush=True)
            if done % 10000 == 0:
                print(f"{done} cases, {wrong} wrong", flush=True)
    print(counted(kinds))
    print(f"cases {given.first} to {end - 1}, {wrong} wrong; the next part has --first {end}")
    return 1 if wrong else 0


if __name__ == "__main__":
    sys.exit(main())
