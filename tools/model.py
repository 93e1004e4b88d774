#!/usr/bin/env python3
"""A plain model of the program, written from the formats and the protocol's table alone.

    tools/model.py compact < IMAGE > SLIDE
    tools/model.py check < IMAGE
    tools/model.py mark < IMAGE
    tools/model.py schedule < TEXT
    tools/model.py trial < TEXT

It ends with the status that the program has to end with, and writes the output and the note. Of a trial it
knows alone whether the text is accepted, and writes nothing. The other tools use it as a module.
"""
import struct
import sys

NAME = b"ROOMIMG"
MAGIC = NAME + b"1"
MOST_WORDS, MOST_ROOTS, MOST_OBJECTS = 2**22, 2**16, 2**20
MOST_TEXT = 2**20


class Refusal(Exception):
    """A status other than 0, with its note."""

    def __init__(self, status, note):
        super().__init__(note)
        self.answer = (status, b"", note.encode() + b"\n")


# Images


def draws(seed):
    """The numbers that a seed gives, one after the other."""
    x = seed % 2**31
    while True:
        x = (1103515245 * x + 12345) % 2**31
        yield x // 256


def make(objects, seed):
    """The words and the roots of the image that a seed makes up."""
    drawn = draws(seed)
    shapes = []
    for _ in range(objects):
        v = next(drawn)
        references = v % 4
        shapes.append((references, 0 if references == 3 else v // 4 % 2))
    places = []
    place = 0
    for references, data in shapes:
        places.append(place)
        place += 1 + references + data
    words = []
    for tag, (references, data) in enumerate(shapes):
        words.append(references | data << 16 | tag << 32)
        for _ in range(references):
            k = next(drawn) % (objects + 1)
            words.append(0 if k == objects else 1 + places[k])
        for _ in range(data):
            words.append(next(drawn))
    roots = [1 + places[next(drawn) % objects] for _ in range(min(objects, 16))]
    return words, roots


def image_bytes(words, roots, form=1):
    """The bytes of an image of a format."""
    numbers = [len(words), len(roots), *words, *roots]
    return NAME + b"%d" % form + struct.pack(f"<{len(numbers)}Q", *numbers)


def weak_of(header, form):
    """How many weak words an object has: none in format 1."""
    return header >> 32 & 0xFFFF if form == 2 else 0


def size_of(header, form=1):
    """How many words an object has."""
    return 1 + (header & 0xFFFF) + weak_of(header, form) + (header >> 16 & 0xFFFF)


def references_of(words, head):
    """The reference words of the object with this header's place."""
    return words[head + 1 : head + 1 + (words[head] & 0xFFFF)]


def weak_words_of(words, head, form):
    """Its weak words, which follow those."""
    at = head + 1 + (words[head] & 0xFFFF)
    return words[at : at + weak_of(words[head], form)]


def refuse_image(kind, place, value):
    """Refuses bytes as an image."""
    raise Refusal(3, f"image {kind} place {place} value {value}")


def counts_of(data):
    """The numbers of words and roots that the bytes tell, where they have the length of such an image."""
    if len(data) < 24:
        refuse_image("Short", len(data), 24)
    for place in range(8):
        if data[place] not in (b"12" if place == 7 else NAME[place : place + 1]):
            refuse_image("Magic", place, data[place])
    count, roots = struct.unpack_from("<2Q", data, 8)
    if count > MOST_WORDS:
        refuse_image("TooManyWords", 8, count)
    if roots > MOST_ROOTS:
        refuse_image("TooManyRoots", 16, roots)
    whole = 24 + 8 * (count + roots)
    if len(data) < whole:
        refuse_image("Short", len(data), whole)
    if len(data) > whole:
        refuse_image("Long", whole, data[whole])
    return count, roots


def read_image(data):
    """The words, the roots, the places of the headers and the format."""
    count, _ = counts_of(data)
    form = data[7] - ord("0")
    numbers = struct.unpack_from(f"<{len(data) // 8 - 3}Q", data, 24)
    words, roots = numbers[:count], numbers[count:]
    heads = []
    at = 0
    while at < count:
        if at + size_of(words[at], form) > count:
            refuse_image("Overrun", at, words[at])
        heads.append(at)
        at += size_of(words[at], form)
    if len(heads) > MOST_OBJECTS:
        refuse_image("TooManyObjects", heads[MOST_OBJECTS], words[heads[MOST_OBJECTS]])
    names = {0, *(1 + head for head in heads)}
    for head in heads:
        for at, word in enumerate([*references_of(words, head), *weak_words_of(words, head, form)], head + 1):
            if word not in names:
                refuse_image("BadRef", at, word)
    for at, word in enumerate(roots):
        if word not in names:
            refuse_image("BadRoot", at, word)
    return words, roots, heads, form


def live_of(words, roots):
    """The places of the headers of the live objects, in order."""
    live = set()
    waiting = [root - 1 for root in roots if root]
    while waiting:
        head = waiting.pop()
        if head not in live:
            live.add(head)
            waiting.extend(word - 1 for word in references_of(words, head) if word)
    return sorted(live)


def slide(words, roots, form=1):
    """The words and the roots of the image with its live objects alone, in order and without gaps. A weak word
    becomes 0 where its object is not live."""
    live = live_of(words, roots)
    new = {0: 0}
    place = 0
    for head in live:
        new[head + 1] = 1 + place
        place += size_of(words[head], form)
    slid = []
    for head in live:
        references, weak = references_of(words, head), weak_words_of(words, head, form)
        slid.append(words[head])
        slid.extend(new[word] for word in references)
        slid.extend(new.get(word, 0) for word in weak)
        slid.extend(words[head + 1 + len(references) + len(weak) : head + size_of(words[head], form)])
    return slid, [new[root] for root in roots]


def fold(words, roots):
    """The one number of an image."""
    number = 0
    for word in [*words, *roots]:
        number = (31 * number + word) % 2**64
    return number


def compact(data):
    """The bytes of the slide of an image."""
    words, roots, _, form = read_image(data)
    return image_bytes(*slide(words, roots, form), form)


def check(data):
    """How large an image is, in print."""
    words, roots, heads, _ = read_image(data)
    return b"ok words %d roots %d objects %d\n" % (len(words), len(roots), len(heads))


def mark(data):
    """The six lines on an image."""
    words, roots, heads, form = read_image(data)
    slid, moved = slide(words, roots, form)
    return b"objects %d\nlive %d\nwords %d\nkept %d\nroots %d\nfold %d\n" % (
        len(heads), len(live_of(words, roots)), len(words), len(slid), len(roots), fold(slid, moved))


# Texts


def number(part, least=0, most=2**64 - 1):
    """The number that a part of a line spells, or None."""
    if not 1 <= len(part) <= 20 or any(byte not in b"0123456789" for byte in part):
        return None
    if part[:1] == b"0" and part != b"0":
        return None
    value = int(part)
    return value if least <= value <= most else None


def lines_of(text):
    """The lines of a text that is not too long."""
    if len(text) > MOST_TEXT:
        raise Refusal(8, "text too long")
    lines = text.split(b"\n")
    return lines if lines[-1] else lines[:-1]


def named(line, name, least, most):
    """The number behind the name that a line has, or None."""
    parts = line.split(b" ")
    return number(parts[1], least, most) if len(parts) == 2 and parts[0] == name else None


def heading(lines, readers):
    """What the first lines tell, each to its reader."""
    told = []
    for place, reader in enumerate(readers):
        value = reader(lines[place]) if place < len(lines) else None
        if value is None:
            raise Refusal(6, f"script line {place + 1}")
        told.append(value)
    return told


def read_act(line):
    """The caller and the act of a line, or None."""
    parts = line.split(b" ")
    numbers = [number(part) for part in parts[1:]]
    if None in numbers or (parts[0], len(parts)) not in ((b"draw", 3), (b"step", 2), (b"leave", 2)):
        return None
    return numbers[0], parts[0].decode(), *numbers[1:]


def read_schedule(text):
    """The numbers of rooms and callers, and the acts."""
    lines = lines_of(text)
    _, rooms, callers = heading(lines, [
        lambda line: True if line == b"schedule 1" else None,
        lambda line: named(line, b"rooms", 1, 7),
        lambda line: named(line, b"callers", 1, 64)])
    acts = []
    for place, line in enumerate(lines[3:], 4):
        act = read_act(line)
        if act is None:
            raise Refusal(6, f"script line {place}")
        acts.append(act)
    return rooms, callers, acts


def read_trial(text):
    """The layout, the blocks, the draws and the scripts, which are lists of lines."""
    lines = lines_of(text)
    layouts = {b"layout split": "split", b"layout paged": "paged"}
    layout = layouts.get(lines[1]) if len(lines) > 1 else None
    form, layout, blocks, limit, _ = heading(lines, [
        lambda line: named(line, b"trial", 1, 2),
        layouts.get,
        lambda line: named(line, b"blocks", 2 if layout == "paged" else 1, 2**14),
        lambda line: named(line, b"draws", 1, 2**48),
        lambda line: True if line == b"caller" else None])
    bare = (b"pop", b"deq") if form == 1 else (b"pop", b"deq", b"peek", b"sizes")
    scripts = []
    for place, line in enumerate(lines[4:], 5):
        parts = line.split(b" ")
        if line == b"caller" and len(scripts) < 64:
            scripts.append([])
        elif line in bare or named(line, parts[0], 0, 2**64 - 1) is not None and parts[0] in (b"push", b"enq"):
            scripts[-1].append(line)
        else:
            raise Refusal(6, f"script line {place}")
    return layout, blocks, limit, scripts


# The protocol


class Core:
    """The words of the rooms and the phases of the callers, by the table of the protocol."""

    def __init__(self, rooms, callers):
        self.rooms = rooms
        self.active = 0
        self.wait = [0] * rooms
        self.grant = [0] * rooms
        self.done = [0] * rooms
        # a phase is its name, the room, and what else it knows
        self.phases = [("Out",)] * callers
        self.trace = []

    def act(self, caller, kind, room=None):
        """Makes an act, or answers why it is refused."""
        if caller >= len(self.phases):
            return "NoCaller"
        phase = self.phases[caller]
        if kind == "draw":
            if room >= self.rooms:
                return "NoRoom"
            if phase[0] != "Out":
                return "NotFree"
            self.wait[room] += 1
            self.phases[caller] = ("Looking", room, self.wait[room])
        elif kind == "leave":
            if phase[0] != "Inside":
                return "NotIn"
            self.phases[caller] = self.leave(caller, *phase[1:])
        else:
            if phase[0] in ("Out", "Inside"):
                return "Stuck"
            self.phases[caller] = getattr(self, phase[0].lower())(caller, *phase[1:])
        return None

    def looking(self, _, room, ticket):
        """Loads the grant of the room."""
        if self.grant[room] >= ticket:
            return "Turning", room, ticket, self.grant[room]
        return "Glancing", room, ticket

    def glancing(self, _, room, ticket):
        """Loads the active word."""
        if self.active % 8 == 0:
            return "Seizing", room, ticket, self.active
        return "Looking", room, ticket

    def seizing(self, _, room, ticket, idle):
        """Exchanges the idle word for an open one."""
        if self.active != idle:
            return "Looking", room, ticket
        self.active = idle // 8 * 8 + 8 + room + 1
        return "Counting", room, ticket, self.active // 8

    def counting(self, _, room, ticket, turn):
        """Loads how many wait."""
        return "Admitting", room, ticket, turn, self.wait[room]

    def admitting(self, caller, room, ticket, turn, to):
        """Stores the grant."""
        self.trace.append(f"open {turn} {room} {self.grant[room]} {to}")
        self.grant[room] = to
        if ticket == 0:
            return ("Out",)
        self.trace.append(f"enter {caller} {room}")
        return "Inside", room, ticket, turn, to

    def turning(self, caller, room, ticket, to):
        """Loads the active word and is inside."""
        self.trace.append(f"enter {caller} {room}")
        return "Inside", room, ticket, self.active // 8, to

    def leave(self, caller, room, _, turn, to):
        """Counts who left; the last one has the exit code to run."""
        self.done[room] += 1
        self.trace.append(f"leave {caller}")
        if self.done[room] != to:
            return ("Out",)
        self.trace.append(f"exit {room} begin")
        return "Exiting", room, turn

    def exiting(self, _, room, turn):
        """Ends the exit code and loads how many wait for the next room."""
        self.trace.append(f"exit {room} end")
        k = (room + 1) % self.rooms
        return "Peering", room, turn, k, self.wait[k]

    def peering(self, _, room, turn, k, waiting):
        """Loads that room's grant."""
        if waiting > self.grant[k]:
            return "Passing", turn, k
        if k == room:
            return "Passing", turn, None
        return "Scanning", room, turn, (k + 1) % self.rooms

    def scanning(self, _, room, turn, k):
        """Loads how many wait for the room."""
        return "Peering", room, turn, k, self.wait[k]

    def passing(self, _, turn, k):
        """Opens the next room, or goes idle."""
        if k is None:
            self.active = 8 * turn
            return ("Out",)
        self.active = 8 * (turn + 1) + k + 1
        return "Counting", k, 0, turn + 1


def schedule(text):
    """The run of a schedule, in print."""
    rooms, callers, acts = read_schedule(text)
    core = Core(rooms, callers)
    for place, act in enumerate(acts, 1):
        why = core.act(*act)
        if why:
            raise Refusal(7, f"act {place} {why}")
    ends = [f"caller {caller} {phase[0]}" for caller, phase in enumerate(core.phases)]
    return "".join(f"{line}\n" for line in [*core.trace, f"active {core.active}", *ends]).encode()


def trial(text):
    """Reads a trial."""
    read_trial(text)
    return b""


COMMANDS = {"compact": compact, "mark": mark, "check": check, "schedule": schedule, "trial": trial}


def answer(command, data):
    """The status, the output and the note of a command on its input."""
    try:
        return 0, COMMANDS[command](data), b""
    except Refusal as refusal:
        return refusal.answer


def main():
    """Answers as the program does."""
    if len(sys.argv) != 2 or sys.argv[1] not in COMMANDS:
        sys.exit(__doc__)
    status, output, note = answer(sys.argv[1], sys.stdin.buffer.read())
    sys.stdout.buffer.write(output)
    sys.stderr.buffer.write(note)
    return status


if __name__ == "__main__":
    sys.exit(main())
