"""Where the counts and the ties of a picture go.

The joins of a group make a tree. It is laid out as an outline: a row for each count, below the count that joins it, and a level further
in; but of each count's subtrees the largest comes last and stays on its level, so that there are few levels and a chain is straight.
A long outline is broken into columns, and the lines to rows of a later column run through the space between. Rings leave the boxes
sideways: beside their column, or through the spaces between columns and rows. So no line runs through a box. A tie that fixes one count
is a pin at the right of its box, above the rings that leave it there.
"""

import math
from typing import NamedTuple

BOX = 38  # the height of a count's box
GAP = 28  # between rows: a tie's equation, and above it room for lines
PITCH = BOX + GAP
INDENT = 26  # of a level
TRUNK = 12  # where a line goes down, from the left edge of its box
LANE = 6  # between lines side by side
PAD = 16  # inside a frame
PIN = 14  # how far a pin stands out
PIN_HEIGHT = 7  # of its head
PIN_PITCH = 13  # between pins that have their equations beside them
WIDEST_PIN = 180  # of these equations
SPACE = 22  # between frames
SMALL = 10  # letters of equations
MANY_RINGS = 40  # in a group: from here on they are thin, and have no equations beside them
WIDEST_LABEL = 270
WIDEST = 2400  # of frames side by side
SHAPE = 1.5  # of a picture: its width, over its height
FEW_ROWS = 10  # in a column: no more columns for less


# ---- letters


def letter_width(letter):
    """In units of the letters' size: not less than in DejaVu Sans, one of the widest."""
    for letters, width in (("ijl .,:;'!|·", 0.36), ("frt()-/", 0.44), ("+=≤≥", 0.84), ("mwMW…%@", 1.0)):
        if letter in letters:
            return width
    if ord(letter) > 0x2E80:
        return 1.05
    return 0.79 if letter.isupper() or ord(letter) > 127 else 0.64


def text_width(text, size, bold=False):
    return sum(map(letter_width, text)) * size * (1.12 if bold else 1)


def cut(text, size, bold, room):
    """The text, or as much of it as there is room for, with dots."""
    if text_width(text, size, bold) <= room:
        return text
    while text and text_width(text + "…", size, bold) > room:
        text = text[:-1]
    return text.rstrip() + "…"


def fitting(texts, room):
    """The first of the texts that there is room for; the last may be left out too."""
    return next((text for text in texts if text_width(text, SMALL) <= room), "")


# ---- the outline of a group


class Row:
    """A count in the outline: its level, the count above that joins it, and by which tie; its column and its place there."""

    def __init__(self, count, level, parent, tie):
        self.count, self.level, self.parent, self.tie = count, level, parent, tie
        self.column = self.place = 0


def outline(job, members, joins):
    """The rows of a group, the lowest count first."""
    near = {i: [] for i in members}
    for k in joins:
        near[job.ties[k].left].append((job.ties[k].right, k))
        near[job.ties[k].right].append((job.ties[k].left, k))
    order, above = [members[0]], {members[0]: (None, None)}
    for here in order:
        for there, k in near[here]:
            if there not in above:
                above[there] = (here, k)
                order.append(there)
    size = dict.fromkeys(order, 1)
    below = {i: [] for i in order}
    for here in reversed(order[1:]):
        size[above[here][0]] += size[here]
        below[above[here][0]].append(here)
    rows, waiting = [], [(members[0], 0)]
    while waiting:
        here, level = waiting.pop()
        rows.append(Row(here, level, *above[here]))
        others = sorted(below[here], reverse=True)
        if others:
            largest = max(others, key=lambda i: (size[i], i))
            others.remove(largest)
            waiting += [(largest, level), *((i, level + 1) for i in others)]
    return rows


def open_levels(rows, at):
    """The levels on which lines run from the rows before a place to rows behind it; there is at most one on each."""
    before = {row.count: row.level for row in rows[:at]}
    return sorted({before[row.parent] for row in rows[at:] if row.parent in before})


def columns(rows, column_width):
    """Break the rows into columns of about the same height, where few lines run on; of each break the open levels."""
    many = len(rows)
    most = max(math.sqrt(many * column_width / (SHAPE * PITCH)), FEW_ROWS)
    starts, breaks = [0], []
    for left in range(math.ceil(many / most), 1, -1):
        height = (many - starts[-1]) / left
        tried = range(starts[-1] + math.ceil(height * 0.85), starts[-1] + math.floor(height * 1.15) + 1)
        levels = {at: open_levels(rows, at) for at in tried}
        at = min(tried, key=lambda at: (len(levels[at]), abs(at - starts[-1] - height)))
        starts.append(at)
        breaks.append(levels[at])
    for place, row in enumerate(rows):
        row.column = max(j for j, start in enumerate(starts) if start <= place)
        row.place = place - starts[row.column]
    return breaks


# ---- a group of tied counts


class Label(NamedTuple):
    """A text with its left end and its base line."""

    tie: int
    text: str
    x: float
    y: float


class Tree:
    """A group's frame: its size, the boxes by count, the lines by tie and the equations, measured from the frame's corner. labels has the
    texts that can stand at a tie, the first that fits is taken; head is the room for the frame's title."""

    def __init__(self, job, the_map, group, box_width, labels, head):
        of_kind = {kind: [k for k in the_map.ties(group) if the_map.kinds[k] == kind] for kind in ("joins", "ring", "fixes")}
        self.job, self.box_width, self.texts, self.head = job, box_width, labels, head
        self.rings = of_kind["ring"]
        self.has_many = len(self.rings) > MANY_RINGS
        self.pins = Pins(job, of_kind["fixes"], {i for k in self.rings for i in job.ties[k].counts()}, labels)
        self.rows = outline(job, the_map.members(group), of_kind["joins"])
        self.row = {row.count: row for row in self.rows}
        self.measure()
        self.boxes = {row.count: (self.x(row), self.y(row)) for row in self.rows}
        self.labels = []
        self.lines = {row.tie: self.join(row) for row in self.rows if row.tie is not None}
        self.lines |= {k: self.pin(row, k) for row in self.rows for k in self.pins.at(row.count)}
        self.lines |= Rings(self).lines() if self.rings else {}

    def measure(self):
        """The widths of the columns and of the spaces beside them, and the size of the frame."""
        needs = {k: text_width(fitting(texts, WIDEST_LABEL), SMALL) for k, texts in self.texts.items()}
        below = [(row, TRUNK + 7 + needs[row.tie] if row.tie is not None else 0) for row in self.rows]
        self.column_width = max(row.level * INDENT + max(self.box_width + self.pins.width(row.count), need) for row, need in below)
        rings = max((needs[k] for k in self.rings), default=0)
        self.ring_width = 0 if not self.rings else 80 if self.has_many else max(64, rings + 12)
        self.breaks = columns(self.rows, self.column_width + self.ring_width + 30)
        lanes = max(map(len, self.breaks), default=0)
        self.space = max(self.ring_width, 12) + (lanes + 2) * LANE
        self.top = self.head + (20 + LANE * (lanes + 1) if self.breaks else 4)
        last = len(self.breaks)
        self.width = self.right(last) + (self.ring_width if self.has_rings_beside(last) else 0) + PAD
        self.lowest = [max(row.place for row in self.rows if row.column == column) for column in range(last + 1)]
        self.height = self.top + max(self.lowest) * PITCH + BOX + (LANE * (lanes + 1) if self.breaks else 0) + PAD

    def has_rings_beside(self, column):
        """Whether there are rings between two rows of this column."""
        ends = [(self.row[self.job.ties[k].left], self.row[self.job.ties[k].right]) for k in self.rings]
        return any(one.column == other.column == column for one, other in ends)

    def left(self, column):
        return PAD + column * (self.column_width + self.space)

    def right(self, column):
        return self.left(column) + self.column_width

    def x(self, row):
        return self.left(row.column) + row.level * INDENT

    def y(self, row):
        return self.top + row.place * PITCH

    def join(self, row):
        """The line from a count's box down to that of a row which it joins; and the equation above that one."""
        parent = self.row[row.parent]
        x, path = self.x(parent) + TRUNK, f"M{self.x(parent) + TRUNK:g} {self.y(parent) + BOX:g}"
        for column in range(parent.column, row.column):
            levels = self.breaks[column]
            lane = levels.index(parent.level)
            # the outer lines go below and around the inner ones, so that none cross
            down = self.top + self.lowest[column] * PITCH + BOX + LANE * (len(levels) - lane)
            x = self.left(column + 1) + parent.level * INDENT + TRUNK
            path += f"V{down:g}H{self.left(column + 1) - LANE * (lane + 1):g}V{self.top - 18 - LANE * lane:g}H{x:g}"
        straight = row.level == parent.level
        path += f"V{self.y(row):g}" if straight else f"V{self.y(row) + BOX / 2:g}H{self.x(row):g}"
        start = self.x(row) + (TRUNK + 6 if straight else 2)
        text = fitting(self.texts[row.tie], self.right(row.column) - start)
        if text:
            self.labels.append(Label(row.tie, text, start, self.y(row) - 5))
        return path

    def pin(self, row, k):
        """The line to the head of a pin, and around it; and the equation behind it."""
        x, y = self.x(row) + self.box_width, self.y(row) + self.pins.down(row.count, k)
        half = min(PIN_HEIGHT, self.pins.pitch(row.count)) / 2
        text = self.pins.text(row.count, k)
        if text:
            self.labels.append(Label(k, text, x + PIN + 4, y + 3.5))
        head = x + PIN - PIN_HEIGHT
        return f"M{x:g} {y:.2f}H{head:g}V{y - half:.2f}H{x + PIN:g}V{y + half:.2f}H{head:g}V{y:.2f}"


class Pins:
    """The ties that fix one count, down the right edge of its box. ringed: the counts that have rings, which need some of the edge."""

    def __init__(self, job, ties, ringed, texts):
        self.ringed, self.texts, self.ties = ringed, texts, {}
        for k in ties:
            self.ties.setdefault(job.ties[k].counts()[0], []).append(k)

    def at(self, count):
        return self.ties.get(count, [])

    def pitch(self, count):
        """From one pin of a count to the next."""
        return min(PIN_PITCH, (BOX - 12 if count in self.ringed else BOX) / max(1, len(self.at(count))))

    def height(self, count):
        """How much of the edge they take."""
        return self.pitch(count) * len(self.at(count))

    def down(self, count, k):
        """How far down the box a pin is: at the top where there are rings, else in the middle."""
        top = 0 if count in self.ringed else (BOX - self.height(count)) / 2
        return top + self.pitch(count) * (self.at(count).index(k) + 0.5)

    def text(self, count, k):
        """The equation, where there is room between pins; or else nothing."""
        return fitting(self.texts[k], WIDEST_PIN) if self.pitch(count) > SMALL + 2 else ""

    def width(self, count):
        """How far they stand out, with their equations."""
        texts = [self.text(count, k) for k in self.at(count)]
        return max((PIN + (6 + text_width(text, SMALL) if text else 0) for text in texts), default=0)


# ---- rings


def on_curve(ends, t):
    """A point of a cubic curve."""
    shares = ((1 - t) ** 3, 3 * t * (1 - t) ** 2, 3 * t * t * (1 - t), t**3)
    return tuple(sum(share * point[axis] for share, point in zip(shares, ends)) for axis in (0, 1))


def curve(ends):
    return "C" + " ".join(f"{x:.1f} {y:.1f}" for x, y in ends[1:])


def sideways(x, y, to_x, to_y):
    """A curve that leaves and arrives level."""
    middle = (x + to_x) / 2
    return (x, y), (middle, y), (middle, to_y), (to_x, to_y)


class Rings:
    """The lines of the ties that close rings in a tree, and their equations where there is room."""

    def __init__(self, tree):
        self.tree = tree
        self.ends = {k: self.in_order(tree.job.ties[k]) for k in tree.rings}
        self.depth = self.depths()
        self.touch = self.touching_points()
        self.curves = {}  # of each ring the one beside its first column
        self.taken = []  # by equations: x, y, width

    def in_order(self, tie):
        return sorted((self.tree.row[tie.left], self.tree.row[tie.right]), key=lambda row: (row.column, row.place))

    def touching_points(self):
        """How far down a box each ring touches it: by (tie, end). Those on one side are spread so that few cross: first those that go up
        beside the column, then those to other columns, then those that go down."""
        sides = {}
        for k, (first, second) in self.ends.items():
            if first.column == second.column:
                sides.setdefault((first.count, "right"), []).append((2, -self.depth[k], k, 0))
                sides.setdefault((second.count, "right"), []).append((0, self.depth[k], k, 1))
            else:
                sides.setdefault((first.count, "right"), []).append((1, self.tree.y(second), k, 0))
                sides.setdefault((second.count, "left"), []).append((1, self.tree.y(first), k, 1))
        points = {}
        for (count, side), touching in sides.items():
            top = self.tree.pins.height(count) if side == "right" else BOX / 2  # a join arrives on the left, half-way down
            begin, room = top + 4, BOX - top - 8
            for place, (_, _, k, end) in enumerate(sorted(touching)):
                points[k, end] = begin + room * (place + 1) / (len(touching) + 1)
        return points

    def depths(self):
        """How far the rings beside a column stand out: the shorter ones less, and no two alike that overlap."""
        lanes, found = {}, {}
        beside = [(second.place - first.place, k) for k, (first, second) in self.ends.items() if first.column == second.column]
        for _, k in sorted(beside):
            first, second = self.ends[k]
            within = lanes.setdefault(first.column, [])
            lane = 1 + max((lane for low, high, lane in within if low < second.place and first.place < high), default=0)
            within.append((first.place, second.place, lane))
            found[k] = lane
        most = max(found.values(), default=1)
        step = min(16, (self.tree.ring_width - 20) / most)
        return {k: 12 + step * lane for k, lane in found.items()}

    def lines(self):
        found = {k: self.line(k) for k in self.tree.rings}
        if not self.tree.has_many:
            self.points = {k: [on_curve(ends, step / 40) for step in range(41)] for k, ends in self.curves.items()}
            for k in self.tree.rings:
                self.label(k, self.tree.right(self.ends[k][0].column))
        return found

    def line(self, k):
        tree, (first, second) = self.tree, self.ends[k]
        x, y = tree.right(first.column), tree.y(first) + self.touch[k, 0]
        to_y = tree.y(second) + self.touch[k, 1]
        path = f"M{tree.x(first) + tree.box_width:g} {y:.1f}H{x:g}"
        if first.column == second.column:
            out = x + self.depth[k] * 4 / 3
            self.curves[k] = (x, y), (out, y), (out, to_y), (x, to_y)
            return path + curve(self.curves[k]) + f"H{tree.x(second) + tree.box_width:g}"
        if first.column + 1 < second.column:  # through the space between two rows of the columns on the way
            way = tree.top + max(1, (first.place + second.place + 1) // 2) * PITCH - GAP + 4 + k % 4 * 2
            self.curves[k] = sideways(x, y, tree.left(first.column + 1), way)
            x, y = tree.right(second.column - 1), way
            path += curve(self.curves[k]) + f"H{x:g}"
        arrives = sideways(x, y, tree.left(second.column), to_y)
        self.curves.setdefault(k, arrives)
        return path + curve(arrives) + f"H{tree.x(second):g}"

    def label(self, k, left):
        """Put the equation on the line beside the column: where no other one stands, and fewest lines run; or else leave it out."""
        for text in self.tree.texts[k]:
            width, free = text_width(text, SMALL), []
            for x, y in self.points[k][4:37]:
                x = min(max(x - width / 2, left + 3), left + self.tree.ring_width - 3 - width)
                if x >= left + 3 and all(abs(y - v) > 15 or x > u + w + 4 or u > x + width + 4 for u, v, w in self.taken):
                    free.append((self.crossings(k, x, y, width), len(free), x, y))
            if free:
                _, _, x, y = min(free, key=lambda place: (place[0], abs(place[1] - len(free) // 2)))
                self.taken.append((x, y, width))
                self.tree.labels.append(Label(k, text, x, y + 3.5))
                return

    def crossings(self, k, x, y, width):
        """How many other rings run through a text."""
        others = (points for other, points in self.points.items() if other != k)
        return sum(any(x - 2 < u < x + width + 2 and abs(v - y) < 8 for u, v in points) for points in others)


# ---- untied counts, and all frames together


class Grid:
    """The frame of the untied counts: boxes in rows and columns, each with a caption above it."""

    def __init__(self, members, box_width, captions, head):
        cell = max([box_width, *(text_width(text, SMALL) + 4 for text in captions.values())]) + 14
        across = math.ceil(math.sqrt(len(members) * PITCH * SHAPE / cell))
        self.boxes, self.captions = {}, {}
        for place, i in enumerate(members):
            x, y = PAD + place % across * cell, head + 10 + place // across * PITCH
            self.boxes[i] = (x, y)
            self.captions[i] = (x + 2, y - 5)
        self.width = 2 * PAD + min(across, len(members)) * cell - 14
        self.height = head + 10 + math.ceil(len(members) / across) * PITCH - GAP + PAD


def packed(sizes, least):
    """Places for frames of these sizes (width, height), and the width that they take: each as high up as it goes, then as far left."""
    area = sum((width + SPACE) * (height + SPACE) for width, height in sizes)
    widest = max([least, min(math.sqrt(area * SHAPE), WIDEST), *(width for width, _ in sizes)])
    edge = [(0, 0)]  # from each x on, how far down frames reach
    places = []
    for width, height in sizes:
        tried = []
        for x, _ in edge:
            if x + width <= widest:
                tried.append((max(y for place, (u, y) in enumerate(edge) if u < x + width + SPACE and reach(edge, place) > x), x))
        y, x = min(tried)
        places.append((x, y))
        end = x + width + SPACE
        behind = [y for u, y in edge if u <= end][-1]
        edge = sorted([(u, v) for u, v in edge if u < x or u > end] + [(x, y + height + SPACE), (end, behind)])
    return places, max([least, *(x + width for (x, _), (width, _) in zip(places, sizes))])


def reach(edge, place):
    return edge[place + 1][0] if place + 1 < len(edge) else math.inf
