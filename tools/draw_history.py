#!/usr/bin/env python3
"""Draws what threads did, as an SVG on standard output, from a text that the program printed.

    tools/draw_history.py HISTORY > picture.svg
    tools/draw_history.py RUN [--schedule SCHEDULE] > picture.svg

HISTORY is what `trial` prints: callers are rows and turns are columns, a turn has the colour of its
room, a cell has a call with its reply and its place in the turn, and the dark bars between turns are exit
codes. RUN is what `schedule` prints: callers are rows, and time goes from left to right, a column for each
line of the trace. With the text of the schedule itself there is a column for each act, and a ticket is
drawn from its draw on; without it, from the opening that lets it in. Which text it is shows in its first
line. A text that is neither, or a schedule whose acts do not lead to the run, is refused with status 1.
"""
import argparse
import sys
from html import escape

ROOMS = {"push": 0, "pop": 1, "enq": 2, "deq": 3, "peek": 4, "sizes": 4}
NAMES = ["push", "pop", "enq", "deq", "looks"]
COLOURS = ["#2f6f9f", "#c2571a", "#3b7d3b", "#7a4b94", "#9c7a12", "#197878", "#a03050"]
PALE = ["#d5e6f2", "#f8e0d0", "#d9ecd9", "#e8dcef", "#f3ead0", "#d2ebeb", "#f3d8de"]
INK, EXIT, GRID = "#222222", "#333333", "#bbbbbb"
LEFT, TOP, ROW, HEAD = 90, 34, 46, 40


class Fault(Exception):
    """What is wrong with a text."""


class Picture:
    """Shapes, in the order in which they are drawn."""

    def __init__(self):
        self.shapes, self.width, self.height = [], 0, 0

    def reach(self, x, y):
        """Makes the picture as large as this point needs."""
        self.width, self.height = max(self.width, x), max(self.height, y)

    def box(self, x, y, wide, high, fill, edge="none", dash=False):
        """A rectangle."""
        dashes = ' stroke-dasharray="4 3"' if dash else ""
        place = f'x="{x}" y="{y}" width="{wide}" height="{high}"'
        self.shapes.append(f'<rect {place} fill="{fill}" stroke="{edge}"{dashes}/>')
        self.reach(x + wide, y + high)

    def line(self, x, y, to_x, to_y):
        """A thin line."""
        self.shapes.append(f'<line x1="{x}" y1="{y}" x2="{to_x}" y2="{to_y}" stroke="{GRID}"/>')
        self.reach(max(x, to_x), max(y, to_y))

    def text(self, x, y, words, size=12, at="middle", fill=INK, bold=False):
        """One line of text, whose middle, start or end is at x."""
        weight = ' font-weight="bold"' if bold else ""
        place = f'x="{x}" y="{y}" font-size="{size}" text-anchor="{at}"'
        self.shapes.append(f'<text {place} fill="{fill}"{weight}>{escape(words)}</text>')
        wide = len(words) * size * 0.62
        self.reach(x + {"start": wide, "middle": wide / 2, "end": 0}[at], y + 4)

    def legend(self, y, entries):
        """A row of small boxes with their meanings."""
        x = LEFT
        for fill, edge, dash, words in entries:
            self.box(x, y, 14, 14, fill, edge, dash)
            self.text(x + 20, y + 11, words, 11, "start")
            x += 34 + len(words) * 7

    def svg(self):
        """The whole text."""
        wide, high = int(self.width) + 16, int(self.height) + 16
        size = f'width="{wide}" height="{high}"'
        fonts = "DejaVu Sans, Helvetica, Arial, sans-serif"
        head = f'<svg xmlns="http://www.w3.org/2000/svg" {size} viewBox="0 0 {wide} {high}" font-family="{fonts}">'
        return "\n".join([head, f'<rect {size} fill="#ffffff"/>', *self.shapes, "</svg>", ""])


def rows(picture, callers, first, right):
    """The names of the callers, and a line under each row."""
    for caller in range(callers):
        y = first + caller * ROW
        picture.text(LEFT - 10, y + ROW / 2 + 4, f"caller {caller}", 12, "end")
        picture.line(LEFT - 80, y + ROW, right, y + ROW)


def read_history(lines):
    """The entries of a history, by turn, the number of callers, and the lists at the end."""
    turns, callers, lists = {}, 0, []
    for line in lines:
        words = line.split(" ")
        if len(words) == 6 and words[3] in ROOMS:
            turn, rank, who = (int(word) for word in words[:3])
            call = words[3] if words[4] == "-" else f"{words[3]} {words[4]}"
            turns.setdefault(turn, []).append((rank, who, words[3], call, words[5]))
            callers = max(callers, who + 1)
        elif words[0] == "caller":
            callers = max(callers, int(words[1]) + 1)
        elif words[0] in ("stack", "queue"):
            lists.append(line if len(words) > 1 else f"{line}: nothing")
        else:
            raise Fault(f"neither an entry nor a list: {line}")
    if not turns:
        raise Fault("no entries")
    return turns, callers, lists


def draw_history(lines):
    """The picture of a history."""
    turns, callers, lists = read_history(lines)
    picture, wide, gap = Picture(), 96, 16
    first, last = TOP + HEAD, max(turns)
    bottom = first + callers * ROW
    picture.text(LEFT, 20, "One history: a column for each turn, of one room", 14, "start", bold=True)
    for turn in range(1, last + 1):
        entries = sorted(turns.get(turn, []))
        x = LEFT + (turn - 1) * (wide + gap)
        room = ROOMS[entries[0][2]] if entries else None
        pale, strong = ("#eeeeee", GRID) if room is None else (PALE[room], COLOURS[room])
        picture.box(x, TOP, wide, bottom - TOP, pale)
        picture.box(x, TOP, wide, HEAD - 8, strong)
        name = NAMES[room] if entries else "no entry"
        picture.text(x + wide / 2, TOP + 20, f"turn {turn}: {name}", 12, fill="#ffffff", bold=True)
        if turn < last:
            picture.box(x + wide + 5, TOP, gap - 10, bottom - TOP, EXIT)
        for place, (_, who, _, call, reply) in enumerate(entries, 1):
            y = first + who * ROW
            picture.box(x + 4, y + 4, wide - 8, ROW - 8, "#ffffff", strong)
            picture.text(x + wide / 2, y + 20, call, 12)
            picture.text(x + wide / 2, y + 36, reply, 12, fill=strong, bold=True)
            picture.text(x + wide - 9, y + 16, str(place), 9, "end", "#777777")
    rows(picture, callers, first, LEFT + last * (wide + gap) - gap)
    for at, words in enumerate(lists):
        picture.text(LEFT, bottom + 24 + 18 * at, f"left at the close: {words}", 12, "start")
    looks = any(entry[2] in ("peek", "sizes") for entries in turns.values() for entry in entries)
    named = NAMES if looks else NAMES[:-1]
    kinds = [(PALE[at], COLOURS[at], False, f"turn of {name}") for at, name in enumerate(named)]
    picture.legend(bottom + 32 + 18 * len(lists), [*kinds, (EXIT, "none", False, "exit code")])
    return picture


class Protocol:
    """The rooms' protocol, one step at a time; what a step adds to the trace comes as lines."""

    def __init__(self, rooms, callers):
        self.rooms, self.turn, self.open = rooms, 0, None
        self.wait, self.grant, self.done = [0] * rooms, [0] * rooms, [0] * rooms
        self.at = [("out",)] * callers

    def act(self, who, words):
        """The lines that this caller's act adds."""
        if words[0] == "draw":
            if self.at[who] != ("out",):
                raise Fault(f"caller {who} draws and is not out")
            room = int(words[1])
            self.wait[room] += 1
            self.at[who] = ("looking", room, self.wait[room])
            return []
        if words[0] == "leave":
            return self.leave(who)
        return self.step(who, *self.at[who])

    def leave(self, who):
        """The caller leaves, and gets the key if it is the last."""
        phase, room, last = self.at[who]
        if phase != "inside":
            raise Fault(f"caller {who} leaves and is not inside")
        self.done[room] += 1
        is_last = self.done[room] == last
        self.at[who] = ("exiting", room) if is_last else ("out",)
        return [f"leave {who}"] + ([f"exit {room} begin"] if is_last else [])

    def step(self, who, phase, room=None, more=None, extra=None):
        """The step of a phase; `more` is the ticket, the last ticket let in, or the room looked at."""
        lines = []
        if phase == "looking":
            granted = self.grant[room]
            self.at[who] = ("turning", room, granted) if more <= granted else ("glancing", room, more)
        elif phase == "glancing":
            self.at[who] = ("looking", room, more) if self.open is not None else ("seizing", room, more, self.turn)
        elif phase == "seizing":
            won = self.open is None and self.turn == extra
            if won:
                self.turn, self.open = self.turn + 1, room
            self.at[who] = ("counting" if won else "looking", room, more)
        elif phase == "counting":
            self.at[who] = ("admitting", room, more, self.wait[room])
        elif phase == "admitting":
            lines = [f"open {self.turn} {room} {self.grant[room]} {extra}"]
            self.grant[room] = extra
            self.at[who] = ("inside", room, extra) if more else ("out",)
            lines += [f"enter {who} {room}"] if more else []
        elif phase == "turning":
            self.at[who] = ("inside", room, more)
            lines = [f"enter {who} {room}"]
        elif phase == "exiting":
            after = (room + 1) % self.rooms
            self.at[who] = ("peering", room, after, self.wait[after])
            lines = [f"exit {room} end"]
        elif phase == "peering":
            found = extra > self.grant[more]
            after = ("passing", more) if found else ("passing", None)
            self.at[who] = after if found or more == room else ("scanning", room, (more + 1) % self.rooms)
        elif phase == "scanning":
            self.at[who] = ("peering", room, more, self.wait[more])
        elif phase == "passing":
            self.turn, self.open = self.turn + (room is not None), room
            self.at[who] = ("out",) if room is None else ("counting", room, 0)
        else:
            raise Fault(f"caller {who} has no step")
        return lines


def trace_of(lines):
    """The lines of a run's trace, and how many callers it has."""
    trace = [line for line in lines if line.split(" ")[0] in ("open", "enter", "leave", "exit")]
    callers = sum(line.startswith("caller ") for line in lines)
    if len(trace) + callers + 1 != len(lines):
        raise Fault("a run has its trace, a line of the active word, and a line for each caller")
    return trace, callers


def columns_of(trace, schedule):
    """For each column, the draw there, as a caller and a room, and the lines of the trace there."""
    if schedule is None:
        return [(None, [line]) for line in trace]
    head, acts = schedule[:3], [line.split(" ") for line in schedule[3:]]
    if head[0] != "schedule 1":
        raise Fault("no schedule")
    protocol = Protocol(int(head[1].split(" ")[1]), int(head[2].split(" ")[1]))
    columns = []
    for words in acts:
        who = int(words[1])
        draw = (who, int(words[2])) if words[0] == "draw" else None
        columns.append((draw, protocol.act(who, [words[0], *words[2:]])))
    if [line for _, lines in columns for line in lines] != trace:
        raise Fault("the acts of the schedule do not lead to this run")
    return columns


class Stays:
    """What stands where: spans of columns, as kind, row, from, to, room and words."""

    def __init__(self):
        self.spans, self.begun, self.leaver, self.ticket = [], {}, None, {}

    def start(self, kind, row, at, room, words):
        """A span begins."""
        self.begun[kind, row] = (at, room, words)

    def end(self, kind, row, at):
        """It ends, if there is one."""
        if (kind, row) in self.begun:
            self.spans.append((kind, row, self.begun[kind, row][0], at, *self.begun.pop((kind, row))[1:]))

    def draw(self, at, who, room):
        """A ticket is drawn."""
        self.ticket[room] = self.ticket.get(room, 0) + 1
        self.start("waits", who, at, room, f"ticket {self.ticket[room]}")

    def take(self, at, line, opened):
        """One line of the trace; `opened` is the column of the latest opening."""
        words = line.split(" ")
        numbers = [int(word) for word in words[1:] if word.isdigit()]
        if words[0] == "open":
            turn, room, after, last = numbers
            self.start("open", -1, at, room, f"turn {turn}: room {room}, tickets {after + 1} to {last}")
        elif words[0] == "enter":
            if ("waits", numbers[0]) not in self.begun and opened < at:
                self.start("waits", numbers[0], opened, numbers[1], "")
            self.end("waits", numbers[0], at)
            self.start("inside", numbers[0], at, numbers[1], "inside")
        elif words[0] == "leave":
            self.leaver = numbers[0]
            self.end("inside", numbers[0], at)
        elif words[2] == "begin":
            self.end("open", -1, at)
            self.start("exit", self.leaver, at, numbers[0], "exit")
        else:
            self.end("exit", self.leaver, at)


def stays_of(columns):
    """Who waits, is inside and runs exit code, from column to column."""
    stays, opened = Stays(), 0
    for at, (draw, added) in enumerate(columns):
        if draw:
            stays.draw(at, *draw)
        for line in added:
            opened = at if line.startswith("open") else opened
            stays.take(at, line, opened)
    for kind, row in list(stays.begun):
        stays.end(kind, row, len(columns))
    return stays.spans


def draw_span(picture, span, wide):
    """One span: its box, and its words if they fit."""
    kind, row, start, end, room, words = span
    strong, pale = COLOURS[room], PALE[room]
    colours = {"waits": ("#ffffff", strong), "inside": (pale, strong), "exit": (EXIT, "none"), "open": (strong, "none")}
    x, long = LEFT + start * wide, max(end - start, 0.3) * wide
    y, high = (TOP, HEAD - 8) if kind == "open" else (TOP + HEAD + row * ROW + 6, ROW - 12)
    picture.box(x, y, long, high, *colours[kind], kind == "waits")
    shown = next((part for part in (words, words.split(":")[0], words[:4]) if len(part) * 6.6 <= long), "")
    ink = "#ffffff" if kind in ("open", "exit") else INK
    picture.text(x + long / 2, y + (20 if kind == "open" else 22), shown, 11, fill=ink)


def draw_run(lines, schedule):
    """The picture of a run."""
    trace, callers = trace_of(lines)
    columns = columns_of(trace, schedule)
    spans, wide = stays_of(columns), 26 if schedule else 44
    picture, first = Picture(), TOP + HEAD
    bottom, right = first + callers * ROW, LEFT + len(columns) * wide
    title = "One run: who waits, which room is open, who is inside, and whose exit code"
    picture.text(LEFT, 20, title, 14, "start", bold=True)
    picture.text(LEFT - 10, TOP + 20, "open", 12, "end")
    rows(picture, callers, first, right)
    for span in sorted(spans):
        draw_span(picture, span, wide)
    used = sorted({room for *_, room, _ in spans})
    entries = [(COLOURS[room], "none", False, f"room {room}") for room in used]
    entries += [("#ffffff", INK, True, "waits with its ticket"), ("#eeeeee", INK, False, "is inside")]
    picture.legend(bottom + 14, [*entries, (EXIT, "none", False, "runs the exit code")])
    each = "a column for each act" if schedule else "a column for each line of the trace"
    picture.text(right, bottom + 48, each, 11, "end", "#777777")
    return picture


def lines_of(path):
    """The lines of a text."""
    with open(path, encoding="ascii") as file:
        return file.read().removesuffix("\n").split("\n")


def main():
    """Reads, draws and prints."""
    options = argparse.ArgumentParser(description="Draws a printed trial or a printed schedule as an SVG.")
    options.add_argument("text", help="what `trial` or `schedule` printed")
    options.add_argument("--schedule", metavar="FILE", help="the text of the schedule whose run it is")
    given = options.parse_args()
    try:
        lines = lines_of(given.text)
        if lines[0].split(" ")[0].isdigit():
            picture = draw_history(lines)
        else:
            picture = draw_run(lines, lines_of(given.schedule) if given.schedule else None)
    except (Fault, ValueError, IndexError) as fault:
        print(f"{given.text}: {fault}", file=sys.stderr)
        sys.exit(1)
    sys.stdout.write(picture.svg())


if __name__ == "__main__":
    main()
