#!/usr/bin/env python3
"""Draws the pictures of docs/ORDER.md and the pages after it from schedules that kfifo replays.

    docs/pictures/order.py                           writes the pictures
    docs/pictures/order.py --check [--program PATH]  says whether the pictures and the schedules are as they should be

The schedules are in order.json beside this file: for each its name, the arguments of kfifo, and the lines that kfifo
prints. The script reads off each trace where every call has its point, by the rules of docs/ORDER.md. It refuses a
trace for which kfifo printed other points.

`--check` runs the program, crates/kfifo/out/kfifo where PATH is left out. It counts each picture and each schedule once
and ends with 'N passed, M failed'.
"""
import argparse
import dataclasses
import json
import pathlib
import re
import subprocess
import sys
from xml.sax.saxutils import escape

HERE = pathlib.Path(__file__).resolve().parent
ROOT = HERE.parent.parent
SCHEDULES = HERE / "order.json"
LINE = re.compile(
    r" *(?P<number>\d+) thread (?P<thread>\d+) +(?P<op>\w+) (?P<place>\w+) +(?P<kind>reads|exchanges) "
    r"(?P<word>ends|slot (?P<slot>\d+\.\d+)) \((?P<old>[\d,]+)\)(?: to \((?P<new>[\d,]+)\))?"
    r"(?P<lost> lost to \((?P<other>[\d,]+)\))?(?: won)?(?: and returns (?P<answer>\w+)(?: \d+)?)?$"
)
WIDTH = 720
REFUSALS = ("full", "busy", "worn")
NAMES = ("tape", "staircases", "hold_first", "advance_first", "late_take", "before_the_take", "after_the_take",
         "undone", "held_again")


@dataclasses.dataclass
class Step:
    """One event, as a line of a trace tells it. A word is a tuple: (value, version) or (head, tail, version)."""

    number: int
    thread: int
    op: str
    place: str
    slot: str
    old: tuple
    new: tuple
    won: bool
    lost_to: tuple
    answer: str


@dataclasses.dataclass
class Call:
    """A call of a schedule. Its visit, its slot and its point are None as long as it has none."""

    op: str
    thread: int
    item: int = 0
    answer: str = ""
    visit: int = None
    slot: str = None
    point: int = None
    put: int = None
    take: int = None
    source: "Call" = None


def word(text):
    return tuple(int(it) for it in text.split(",")) if text else ()


def step_of(line):
    """Returns the step that a line of a trace tells."""
    found = LINE.match(line)
    if not found:
        raise ValueError(f"no line of a trace: {line}")
    it = found.groupdict()
    won = it["kind"] == "exchanges" and not it["lost"]
    return Step(int(it["number"]), int(it["thread"]), it["op"], it["place"], it["slot"], word(it["old"]),
                word(it["new"]), won, word(it["other"]), it["answer"] or "")


class Schedule:
    """A schedule: its steps, its calls with their visits and points, and the steps at which the ends left visits."""

    def __init__(self, row):
        lines = row["stdout"]
        end = next((at for at, line in enumerate(lines) if line.startswith("steps ")), None)
        if end is None:
            raise ValueError("no line of steps")
        self.steps = [step_of(line) for line in lines[:end]]
        found = re.search(r"--segments (\d+)", row["args"])
        self.segments = int(found[1]) if found else 2
        found = re.search(r"-k (\d+)|--k (\d+)", row["args"])
        self.k = int(found[1] or found[2]) if found else 2
        self.calls, self.heads, self.tails, self.slots = [], [], [], {}
        self.owners, self.current, self.head_seen = {}, {}, {}
        for step in self.steps:
            self.follow(step)
        self.compare(lines[end:])

    def follow(self, step):
        """Takes a step into account, as the ledger of crates/kfifo_linear/specs/Ledger.antt does."""
        thread, now = step.thread, step.number
        if thread not in self.current:
            self.current[thread] = Call(step.op, thread)
            self.calls.append(self.current[thread])
        call = self.current[thread]
        if step.place == "LoadEnds":
            self.head_seen[thread] = len(self.heads)
        if step.won and step.place == "MoveHead":
            self.heads.append(now)
        if step.won and step.place == "MoveTail":
            self.tails.append(now)
        if step.won and step.slot:
            self.slots[step.slot] = step.new
        if step.won and step.place == "Put":
            call.item, call.put, call.slot, self.owners[step.slot] = step.new[0], now, step.slot, call
        if step.won and step.place == "Undo":
            call.put = call.slot = None
        if step.won and step.place == "Take":
            self.take(call, step)
        self.settle(call, step)
        if step.answer:
            self.end(self.current.pop(thread), step)

    def take(self, call, step):
        """Gives a Got and the enqueue of its item their visit and their points."""
        visit, source = self.head_seen[step.thread], self.owners[step.slot]
        left = self.tails[visit]
        source.point = left if source.point is None else min(source.point, left)
        source.visit, source.take = visit, step.number
        call.source, call.item, call.visit, call.slot = source, step.old[0], visit, step.slot
        call.point = self.heads[visit] if visit < len(self.heads) else step.number

    def settle(self, call, step):
        """Gives an enqueue whose item is settled by this step its visit and its point."""
        settles = step.place == "HoldHead" and step.won
        if not (settles or (step.place == "ReloadEnds" and step.answer == "done")) or call.take is not None:
            return
        if call.slot is None:
            raise ValueError(f"event {step.number} settles an item that was not put")
        head = step.old[0]
        call.visit = len(self.heads) + (int(call.slot.split(".")[0]) - head) % self.segments
        call.point = self.tails[call.visit] if call.visit < len(self.tails) else step.number

    def end(self, call, step):
        """Notes what a call returned, and the point of an Empty or of a refused call."""
        call.answer = step.answer
        if step.answer == "empty":
            call.point, call.visit = step.number, len(self.heads)
        if step.answer in REFUSALS:
            call.point = step.number

    def compare(self, report):
        """Refuses a report with another order, or with other points, than the calls have here."""
        told = dict(line.split(" ", 1) for line in report)
        mine = sorted((call.point, number) for number, call in enumerate(self.calls) if call.point is not None)
        for name, own in (("points", [it[0] for it in mine]), ("order", [it[1] for it in mine])):
            if told[name] != (",".join(str(it) for it in own) or "none"):
                raise ValueError(f"kfifo says {name} {told[name]}, the trace {own}")


class Drawing:
    """The parts of an SVG picture."""

    def __init__(self, height, title):
        self.height = height
        size = f'width="{WIDTH}" height="{height}" viewBox="0 0 {WIDTH} {height}" font-family="sans-serif"'
        self.parts = [f'<svg xmlns="http://www.w3.org/2000/svg" {size}>', f"<title>{escape(title)}</title>"]
        self.box(0, 0, WIDTH, height, stroke="none")

    def add(self, tag, **given):
        names = " ".join(f'{name.replace("_", "-")}="{value}"' for name, value in given.items())
        self.parts.append(f"<{tag} {names}/>")

    def box(self, x, y, width, height, fill="white", stroke="black", **more):
        self.add("rect", x=x, y=y, width=width, height=height, fill=fill, stroke=stroke, **more)

    def line(self, *points, width=1, stroke="black", **more):
        path = " ".join(f"{x},{y}" for x, y in points)
        self.add("polyline", points=path, fill="none", stroke=stroke, stroke_width=width, **more)

    def text(self, x, y, text, size=12, anchor="middle", weight="normal", fill="black"):
        style = f'font-size="{size}" text-anchor="{anchor}" font-weight="{weight}" fill="{fill}"'
        self.parts.append(f'<text x="{x}" y="{y}" {style}>{escape(str(text))}</text>')

    def arrow(self, x, y, to, dashed=True):
        """Draws a level arrow."""
        self.line((x, y), (to, y), stroke_dasharray="3,3" if dashed else "none")
        back = 6 if to < x else -6
        self.line((to + back, y - 4), (to, y), (to + back, y + 4))

    def svg(self):
        return "\n".join([*self.parts, "</svg>", ""])


class Tape:
    """The ring of segments, and the same unrolled into visits."""

    BOX, STEP, LEFT, TOP = 72, 84, 24, 152

    def __init__(self, schedule, title):
        self.of, self.drawing = schedule, Drawing(322, title)
        self.head, self.tail = len(schedule.heads), len(schedule.tails)

    def draw(self):
        self.ring()
        for visit in range(self.tail + 3):
            self.visit(visit)
        self.spans()
        return self.drawing.svg()

    def slots(self, x, y, items):
        """Draws the slots of a segment: each an item, whether it was taken, or nothing."""
        width = self.BOX / self.of.k
        for at, (item, is_taken) in enumerate(items):
            left = x + at * width
            self.drawing.box(left, y, width, 30, fill="#e8e8e8" if is_taken else "white")
            if item:
                self.drawing.text(left + width / 2, y + 20, item, 14, fill="#555" if is_taken else "black",
                                  weight="normal" if is_taken else "bold")
            if is_taken:
                self.drawing.line((left + 7, y + 24), (left + width - 7, y + 6))

    def ring(self):
        """Draws the segments as the table has them."""
        drawing, first = self.drawing, self.LEFT + 2 * self.STEP
        drawing.text(self.LEFT, 62, "The ring", 14, "start", "bold")
        drawing.text(self.LEFT, 80, f"n = {self.of.segments} segments", 12, "start")
        drawing.text(self.LEFT, 96, f"k = {self.of.k} slots each", 12, "start")
        for segment in range(self.of.segments):
            x = first + segment * self.STEP
            words = [self.of.slots.get(f"{segment}.{at}", (0, 0)) for at in range(self.of.k)]
            self.slots(x, 58, [(value, False) for value, _version in words])
            drawing.text(x + self.BOX / 2, 104, f"segment {segment}", 12)
            self.ends(x, 54, segment == self.head % self.of.segments, segment == self.tail % self.of.segments)
        last = first + self.of.segments * self.STEP - self.STEP + self.BOX
        # The way back from the last segment to the first.
        drawing.line((last, 73), (last + 14, 73), (last + 14, 22), (first - 14, 22), (first - 14, 73), (first, 73))
        drawing.line((first - 6, 69), (first, 73), (first - 6, 77))

    def ends(self, x, y, is_head, is_tail):
        for is_here, at, name in ((is_head, 1, "head"), (is_tail, 3, "tail")):
            if is_here:
                middle = x + at * self.BOX / 4
                self.drawing.text(middle, y - 13, name, 12, weight="bold")
                self.drawing.line((middle, y - 9), (middle, y), width=2)

    def visit(self, visit):
        """Draws a visit with the items that were put in it."""
        x, segment = self.LEFT + visit * self.STEP, visit % self.of.segments
        here = {call.slot: (call.item, call.take is not None) for call in self.of.calls
                if call.op == "enqueue" and call.visit == visit}
        self.slots(x, self.TOP + 40, [here.get(f"{segment}.{at}", ("", False)) for at in range(self.of.k)])
        self.drawing.text(x + self.BOX / 2, self.TOP + 86, f"visit {visit}", 13, weight="bold")
        self.drawing.text(x + self.BOX / 2, self.TOP + 102, f"segment {segment}", 12)
        self.ends(x, self.TOP + 36, visit == self.head, visit == self.tail)

    def spans(self):
        """Draws which visits the head has left, which are from head to tail, and which are still to come."""
        self.drawing.text(self.LEFT, self.TOP + 8, "The tape", 14, "start", "bold")
        spans = [(0, self.head, "the head has left: all emptied"), (self.head, self.tail + 1, "from head to tail"),
                 (self.tail + 1, self.tail + 3, "still to come")]
        y = self.TOP + 116
        for first, end, text in spans:
            left, right = self.LEFT + first * self.STEP, self.LEFT + end * self.STEP - self.STEP + self.BOX
            self.drawing.line((left, y), (left, y + 8), (right, y + 8), (right, y))
            self.drawing.text((left + right) / 2, y + 25, text)
        self.drawing.text(self.LEFT, y + 46, "struck out: a taken item", 12, "start", fill="#333")


class Staircases:
    """Head and tail against time, with each item a row in the band of its visit."""

    ROW, EDGE, LEFT, TOP, AXIS, LEGEND = 34, 13, 92, 24, 50, 56

    def __init__(self, schedule, drawing, top, length):
        self.of, self.drawing = schedule, drawing
        self.visits = len(schedule.tails) + 1
        self.band = schedule.k * self.ROW + 2 * self.EDGE
        self.foot = top + self.TOP + self.visits * self.band
        self.scale = (WIDTH - self.LEFT - 30) / length

    @classmethod
    def stacked(cls, schedules, title, captions=("",)):
        """Draws schedules with their captions, on one scale of time, and the legend."""
        heights = [cls(it, None, 0, 1).foot + cls.AXIS for it in schedules]
        drawing = Drawing(sum(heights) + cls.LEGEND, title)
        length = max(len(it.steps) for it in schedules)
        for number, (schedule, caption) in enumerate(zip(schedules, captions)):
            top = sum(heights[:number])
            if caption:
                drawing.text(14, top + 16, caption, 13, "start", "bold")
            cls(schedule, drawing, top, length).draw()
        cls.legend(drawing, sum(heights) + 16)
        return drawing.svg()

    def x(self, step):
        return round(self.LEFT + (step + 0.5) * self.scale, 1)

    def low(self, visit):
        """Returns where the band of a visit ends. Later visits are further up."""
        return self.foot - visit * self.band

    def draw(self):
        for visit in range(self.visits):
            y = self.low(visit)
            self.drawing.box(self.LEFT, y - self.band, WIDTH - self.LEFT - 30, self.band, stroke="none",
                             fill="#f3f3f3" if visit % 2 else "white")
            self.drawing.text(14, y - self.band / 2 + 4, f"visit {visit}", 13, "start", "bold")
        self.stairs()
        for call in self.of.calls:
            if call.op == "enqueue" and call.visit is not None:
                self.item(call)
            elif call.answer == "empty":
                self.empty(call)
            elif call.answer in REFUSALS:
                self.refused(call)
        self.axis()

    def stairs(self):
        """Draws the tail along the upper edges of the bands, and the head along the lower ones."""
        right = WIDTH - 30
        for name, steps, edge, style in (
            ("tail", self.of.tails, self.band - 5, {"stroke_dasharray": "7,4"}),
            ("head", self.of.heads, 5, {}),
        ):
            points = [(self.LEFT, self.low(0) - edge)]
            for visit, step in enumerate(steps):
                points += [(self.x(step), self.low(visit) - edge), (self.x(step), self.low(visit + 1) - edge)]
                if name == "tail":
                    # Down to the items of the visit that the tail leaves.
                    self.drawing.line((self.x(step), self.low(visit)), points[-2], stroke="#555",
                                      stroke_dasharray="1,3")
            points.append((right, self.low(len(steps)) - edge))
            self.drawing.line(*points, width=2.5, **style)
            self.drawing.text(self.LEFT - 5, self.low(0) - edge + 4, name, 12, "end", "bold")

    def item(self, call):
        """Draws an item's row: its put and its take hollow, the points of its enqueue and its Got filled."""
        drawing, slot = self.drawing, int(call.slot.split(".")[1])
        y = self.low(call.visit) - self.EDGE - slot * self.ROW - self.ROW / 2
        got = next((it for it in self.of.calls if it.source is call), None)
        begin, end = self.x(call.point), self.x(got.point) if got else min(self.x(len(self.of.steps)), WIDTH - 30)
        drawing.line((begin, y), (end, y), width=4, stroke="#999")
        self.moved(call.put, call.point, y, lambda x: drawing.add("circle", cx=x, cy=y, r=4, fill="white",
                                                                   stroke="black"))
        drawing.add("circle", cx=begin, cy=y, r=5)
        self.by(call, call.put, y)
        if got:
            self.by(got, call.take, y)
            self.moved(call.take, got.point, y, lambda x: drawing.box(x - 4, y - 4, 8, 8))
            drawing.box(end - 5, y - 5, 10, 10, fill="black")
        drawing.text((begin + end) / 2, y - 7, call.item, 13, weight="bold")

    def by(self, call, step, y):
        """Writes below a put or a take which thread made it."""
        self.drawing.text(self.x(step), y + 16, f"T{call.thread}", 10, fill="#333")

    def moved(self, step, point, y, mark):
        """Draws a put or a take that is not at its call's point, with an arrow to that point."""
        if step == point:
            return
        x, to = self.x(step), self.x(point)
        away = 6 if to < x else -6
        self.drawing.arrow(x, y, to + away)
        mark(x)

    def empty(self, call):
        x, y = self.x(call.point), self.low(call.visit) - self.band / 2
        self.drawing.add("polygon", points=f"{x},{y - 7} {x + 7},{y} {x},{y + 7} {x - 7},{y}", fill="black")
        self.drawing.text(x - 11, y + 4, f"T{call.thread} Empty", 12, "end")

    def refused(self, call):
        """Draws a refused call as a cross below the bands."""
        x, y = self.x(call.point), self.foot + 11
        self.drawing.line((x - 4, y - 4), (x + 4, y + 4), width=1.5)
        self.drawing.line((x - 4, y + 4), (x + 4, y - 4), width=1.5)
        self.drawing.text(x + 9, y + 4, f"T{call.thread} {call.answer.capitalize()}", 12, "start")

    def axis(self):
        y = self.foot + 22
        self.drawing.line((self.LEFT, y), (WIDTH - 30, y))
        for step in range(0, len(self.of.steps), 5):
            self.drawing.line((self.x(step), y), (self.x(step), y + 5))
            self.drawing.text(self.x(step), y + 18, step, 12)
        self.drawing.text(self.LEFT - 8, y + 18, "event", 12, "end")

    @staticmethod
    def legend(drawing, y):
        drawing.add("circle", cx=20, cy=y - 4, r=5)
        drawing.text(31, y, "point of an enqueue", 12, "start")
        drawing.box(161, y - 9, 10, 10, fill="black")
        drawing.text(177, y, "point of a Got", 12, "start")
        drawing.add("circle", cx=281, cy=y - 4, r=4, fill="white", stroke="black")
        drawing.text(291, y, "put", 12, "start")
        drawing.box(327, y - 8, 8, 8)
        drawing.text(341, y, "take, where it is not the point", 12, "start")
        drawing.line((536, y - 4), (566, y - 4), width=4, stroke="#999")
        drawing.text(572, y, "the item is in the list", 12, "start")
        drawing.line((14, y + 20), (50, y + 20), width=2.5, stroke_dasharray="7,4")
        drawing.text(56, y + 24, "tail", 12, "start")
        drawing.line((100, y + 20), (136, y + 20), width=2.5)
        drawing.text(142, y + 24, "head", 12, "start")
        drawing.text(190, y + 24, "T0: thread 0", 12, "start")


class Race:
    """Schedules that begin alike, each as a row of events for two threads and one for the ends word."""

    COLUMN, LEFT, BOX, HEIGHT, PANEL = 63, 84, 58, 62, 246
    LANES = {1: 32, 0: 160}
    BAND = 118

    def __init__(self, schedules, captions, first, title):
        self.schedules, self.captions, self.first = schedules, captions, first
        self.drawing = Drawing(len(schedules) * self.PANEL, title)

    def draw(self):
        for number, schedule in enumerate(self.schedules):
            self.panel(schedule, self.captions[number], 4 + number * self.PANEL)
        return self.drawing.svg()

    def panel(self, schedule, caption, top):
        drawing = self.drawing
        drawing.text(14, top + 16, caption, 13, "start", "bold")
        for thread, what in ((1, "dequeue"), (0, "enqueue")):
            drawing.text(14, top + self.LANES[thread] + 26, f"thread {thread}", 12, "start", "bold")
            drawing.text(14, top + self.LANES[thread] + 42, what, 12, "start")
        drawing.text(10, top + self.BAND + 14, "ends word", 11, "start", "bold")
        shown = [step for step in schedule.steps if step.number >= self.first]
        self.ends(shown, top + self.BAND)
        for column, step in enumerate(shown):
            self.event(step, self.LEFT + column * self.COLUMN, top)

    def event(self, step, x, top):
        """Draws an event: its number, its step, the word, and what it found there or came to."""
        y, middle = top + self.LANES[step.thread], x + self.BOX / 2
        style = {} if not step.new or step.won else {"stroke_dasharray": "4,3"}
        if step.new and not step.slot:
            to = (y + self.HEIGHT, top + self.BAND) if step.thread else (y, top + self.BAND + 20)
            self.drawing.line((middle, to[0]), (middle, to[1]), **style)
        self.drawing.box(x, y, self.BOX, self.HEIGHT, fill="#dddddd" if step.new else "white", **style)
        what = f"slot {step.slot}" if step.slot else "ends"
        outcome = ("won" if step.won else "lost") if step.new else self.found(step)
        for at, line in enumerate((step.number, step.place, what, outcome)):
            weight = "bold" if line in ("won", "lost") else "normal"
            self.drawing.text(middle, y + 13 + at * 14, line, 9.5, weight=weight)
        if step.answer:
            # Beside the line to the ends word, which leaves the lower edge of thread 1's boxes alone.
            place = (middle + 5, "start") if step.thread else (middle, "middle")
            self.drawing.text(place[0], y + self.HEIGHT + 14, step.answer.capitalize(), 12, place[1], "bold")

    @staticmethod
    def found(step):
        if not step.slot:
            return "(" + ",".join(str(it) for it in step.old) + ")"
        return f"has {step.old[0]}" if step.old[0] else "empty"

    def ends(self, steps, y):
        """Draws the ends word as a band that begins anew at each won exchange of it."""
        begin, now = self.LEFT, next(step.old for step in steps if step.slot is None)
        right = self.LEFT + len(steps) * self.COLUMN - self.COLUMN + self.BOX
        changes = [(self.LEFT + at * self.COLUMN + self.BOX / 2, step.new) for at, step in enumerate(steps)
                   if step.won and step.slot is None]
        for x, after in [*changes, (right, None)]:
            self.drawing.box(begin, y, x - begin, 20)
            self.drawing.text((begin + x) / 2, y + 14, "(" + ",".join(str(it) for it in now) + ")", 12)
            begin, now = x, after


def pictures(rows):
    """Returns each picture's file name with its SVG."""
    made = {}
    for row in rows:
        try:
            made[row["name"]] = Schedule(row)
        except (LookupError, ValueError) as fault:
            raise ValueError(f"{row.get('name')}: {fault}") from fault
    absent = [name for name in NAMES if name not in made]
    if absent:
        raise ValueError(f"there is no schedule {', '.join(absent)}")
    captions = ("The hold comes first: the advance is lost, and 5 is settled in visit 0.",
                "The advance comes first: the hold is lost, and 5 is taken back.")
    race = Race([made["hold_first"], made["advance_first"]], captions, 16, "An enqueue's hold races with an advance")
    captions = ("Hold once: the tail moves, so the hold is lost, and 5 is taken back. All begins again.",
                "Hold again: the enqueue looks once more, and holds the head, which has not moved.")
    again = Race([made["undone"], made["held_again"]], captions, 8, "A hold that is lost to a move of the tail")
    late = Staircases.stacked([made["late_take"]], "An item taken after the head has left its visit")
    captions = ("Before the take: the enqueue of 5 has returned. 5 is of visit 2, and the point is event 45.",
                "After the take: 5 is of visit 0, and the point of its enqueue is event 14.")
    moved = Staircases.stacked([made["before_the_take"], made["after_the_take"]],
                               "The point of a finished enqueue moves", captions)
    return {
        "tape.svg": Tape(made["tape"], "The ring, unrolled into a tape of visits").draw(),
        "staircases.svg": Staircases.stacked([made["staircases"]], "Head and tail against time, and the items"),
        "hold.svg": race.draw(),
        "hold_again.svg": again.draw(),
        "late_take.svg": late,
        "moved_point.svg": moved,
    }


def prints_otherwise(row, program):
    """Returns what is wrong with the lines of a schedule, or None."""
    try:
        ran = subprocess.run([program, *row["args"].split()], capture_output=True, text=True, timeout=60)
    except OSError as fault:
        return f"{row['name']}: {program} cannot be run: {fault}"
    is_same = ran.stdout.splitlines() == row["stdout"]
    return None if is_same else f"{row['name']}: kfifo {row['args']} prints other lines"


def main():
    given = argparse.ArgumentParser(description=__doc__, formatter_class=argparse.RawDescriptionHelpFormatter)
    given.add_argument("--check", action="store_true")
    given.add_argument("--program", type=pathlib.Path, default=ROOT / "crates/kfifo/out/kfifo")
    options = given.parse_args()
    try:
        rows = json.loads(SCHEDULES.read_text())
        drawn = pictures(rows)
    except ValueError as fault:
        sys.exit(f"docs/pictures/order.py: order.json: {fault}")
    if not options.check:
        for name, svg in drawn.items():
            (HERE / name).write_text(svg)
        return 0
    results = [prints_otherwise(row, options.program.resolve()) for row in rows]
    for name, svg in drawn.items():
        path = HERE / name
        is_current = path.exists() and path.read_text() == svg
        results.append(None if is_current else f"{name} is not the picture of order.json: run docs/pictures/order.py")
    failures = [it for it in results if it]
    print("\n".join([*failures, f"{len(results) - len(failures)} passed, {len(failures)} failed"]))
    return len(failures) > 0


if __name__ == "__main__":
    sys.exit(main())
