"""A picture of tools/draw, read back: boxes, lines and texts where they stand."""

import re
import xml.etree.ElementTree as xml
from typing import NamedTuple

from fitout.layout import text_width

SPACE = "{http://www.w3.org/2000/svg}"
STEP = 5  # between the points of a line


class Rect(NamedTuple):
    x: float
    y: float
    width: float
    height: float

    def overlaps(self, other, slack=0.0):
        return (
            self.x + slack < other.x + other.width
            and other.x + slack < self.x + self.width
            and self.y + slack < other.y + other.height
            and other.y + slack < self.y + self.height
        )

    def is_within(self, other):
        return (
            other.x <= self.x
            and other.y <= self.y
            and self.x + self.width <= other.x + other.width
            and self.y + self.height <= other.y + other.height
        )

    def touches(self, point, slack=0.11):
        """Whether a point stands on the edge."""
        x, y = point
        inside = self.x - slack <= x <= self.x + self.width + slack and self.y - slack <= y <= self.y + self.height + slack
        deep = self.x + slack < x < self.x + self.width - slack and self.y + slack < y < self.y + self.height - slack
        return inside and not deep


def overlapping(rects, slack=0.0):
    """The first two of the rectangles that overlap by more than the slack, as their places, or None."""
    order = sorted(range(len(rects)), key=lambda place: rects[place].y)
    for at, one in enumerate(order):
        for other in order[at + 1 :]:
            if rects[other].y + slack >= rects[one].y + rects[one].height:
                break
            if rects[one].overlaps(rects[other], slack):
                return one, other
    return None


def cubic(corners, t):
    """Along a cubic curve, from 0 to 1."""
    a, b, c, d = corners
    return (1 - t) ** 3 * a + 3 * (1 - t) ** 2 * t * b + 3 * (1 - t) * t * t * c + t**3 * d


def line_points(path, dx, dy):
    """Points along a path of M, H, V and C, and its two ends."""
    points = []
    for letter, numbers in re.findall(r"([MHVC])([-\d. ]+)", path):
        values = [float(number) for number in numbers.split()]
        x, y = points[-1] if points else (0.0, 0.0)
        if letter == "C":
            corners = ((x, *values[::2]), (y, *values[1::2]))
            points += [tuple(cubic(axis, step / 40) for axis in corners) for step in range(1, 41)]
            continue
        to = {"M": values, "H": [values[0], y], "V": [x, values[0]]}[letter]
        steps = 1 if letter == "M" else max(1, round((abs(to[0] - x) + abs(to[1] - y)) / STEP))
        points += [(x + (to[0] - x) * step / steps, y + (to[1] - y) * step / steps) for step in range(1, steps + 1)]
    assert points and re.fullmatch(r"([MHVC][-\d. ]+)+", path), f"not a path: {path}"
    return [(x + dx, y + dy) for x, y in points]


class Picture:
    """An SVG file: the view, frames by id, boxes by count, ties by number, texts with the place they take."""

    def __init__(self, svg):
        self.root = xml.fromstring(svg)
        assert self.root.tag == SPACE + "svg"
        self.view = Rect(*map(float, self.root.get("viewBox").split()))
        self.counts, self.ties, self.frames, self.texts, self.group_of = {}, {}, {}, [], {}
        self.heading = [node.text for node in self.root.findall(SPACE + "text")]
        self.walk(self.root, 0.0, 0.0, None, False)

    def walk(self, node, dx, dy, frame, bold):
        """Take in a node and what is in it; dx and dy: where its frame stands."""
        classes = (node.get("class") or "").split()
        moved = re.fullmatch(r"translate\(([-\d.]+) ([-\d.]+)\)", node.get("transform", ""))
        if moved:
            dx, dy = dx + float(moved[1]), dy + float(moved[2])
        if "group" in classes:
            frame = node.get("id")
        if "frame" in classes:
            self.frames[frame] = self.rect(node, dx, dy)
        heavy = ("name", "number", "title", "heading") if node.tag == SPACE + "text" else ("binding", "conflict")
        bold = bold or any(word in classes for word in heavy)
        if "count" in classes:
            assert node.get("id") == f"count-{node.get('data-count')}" and int(node.get("data-count")) not in self.counts
            self.counts[int(node.get("data-count"))] = Count(node, dx, dy)
            self.group_of[int(node.get("data-count"))] = frame
        if "tie" in classes and node.get("id"):
            number = int(node.get("id").removeprefix("tie-"))
            assert number not in self.ties, f"tie {number} is drawn twice"
            self.ties[number] = Tie(node, frame, line_points(node.find(SPACE + "path").get("d"), dx, dy))
        if node.tag == SPACE + "text":
            self.texts.append((node.text, self.text_rect(node, dx, dy, bold), node))
        for child in node:
            self.walk(child, dx, dy, frame, bold)

    def rect(self, node, dx, dy):
        return Rect(float(node.get("x", 0)) + dx, float(node.get("y", 0)) + dy, float(node.get("width")), float(node.get("height")))

    def text_rect(self, node, dx, dy, bold):
        size = float(node.get("font-size"))
        width = text_width(node.text, size, bold)
        x = float(node.get("x")) + dx - {None: 0, "middle": width / 2, "end": width}[node.get("text-anchor")]
        return Rect(x, float(node.get("y")) + dy - size * 0.8, width, size)


class Count:
    """A count's box and words."""

    def __init__(self, node, dx, dy):
        self.title = node.find(SPACE + "title").text
        (box,) = [rect for rect in node.findall(SPACE + "rect") if rect.get("class") == "box"]
        self.box = Rect(float(box.get("x")) + dx, float(box.get("y")) + dy, float(box.get("width")), float(box.get("height")))
        words = {text.get("class"): text.text for text in node.findall(SPACE + "text")}
        self.name, self.number = words["name"], words["number"]
        self.bounds, self.marked = {}, {}
        for bound in node.findall(SPACE + "g"):
            side, *marks = bound.get("class").split()[1:]
            assert side not in self.bounds
            self.bounds[side], self.marked[side] = bound.find(SPACE + "text").text, marks


class Tie:
    """A tie's line and words."""

    def __init__(self, node, frame, points):
        self.title, self.frame, self.points = node.find(SPACE + "title").text, frame, points
        self.kinds = node.get("class").split()[1:]
        self.ends = int(node.get("data-left")), int(node.get("data-right"))
