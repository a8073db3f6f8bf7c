"""A picture of how a job hangs together, as SVG: counts by group, ties between them, and the bounds that bind or contradict each other.

Every count is a <g class="count" id="count-3">, every tie a <g class="tie joins" id="tie-5">, with its kind on the map; bounds that are
marked have the class binding or conflict. What there is no room for stands in a <title>, which a viewer shows at the pointer.
"""

from xml.sax.saxutils import escape, quoteattr

from . import conflict, groups
from .layout import BOX, PAD, SMALL, Grid, Tree, cut, packed, text_width
from .wording import count_place, equation, number, plural, tie_place

NAME, FIGURE = 12.5, 11  # letters of names, and of numbers
WIDEST_NAME = 170
MARGIN = 24
HEAD = 46  # of a frame: its title
LEAST_WIDTH = 540

STYLE = """
text { font-family: sans-serif; fill: #1d2733; }
.frame { fill: #f6f8fa; stroke: #b9c3cf; }
.box { fill: #fff; stroke: #46566b; stroke-width: 1.2; }
.hot .box { stroke: #c8102e; stroke-width: 2.2; }
.name, .number, .title, .heading { font-weight: bold; }
.aside, .caption { fill: #5c6977; }
.tie path { fill: none; }
.joins path { stroke: #2f4a75; stroke-width: 2; shape-rendering: crispEdges; }
.ring path { stroke: #8a3ea8; stroke-width: 1.5; stroke-dasharray: 6 3; }
.many .ring path { stroke-width: 0.8; stroke-dasharray: 5 2; stroke-opacity: 0.5; }
.fixes path { fill: #2f4a75; stroke: #2f4a75; stroke-width: 1; shape-rendering: crispEdges; }
.label { fill: #2f4a75; }
.label.ring { fill: #7a2f98; }
.back { fill: #f6f8fa; }
.binding .mark { fill: #ffd766; stroke: #c58a00; }
.binding text { font-weight: bold; fill: #5f4300; }
.conflict .mark { fill: #c8102e; stroke: #c8102e; }
.conflict text { font-weight: bold; fill: #fff; }
.tie.conflict path { stroke: #c8102e; stroke-width: 3; stroke-opacity: 1; }
.fixes.conflict path { fill: #c8102e; stroke-width: 2; }
text.conflict { fill: #c8102e; }
"""


# ---- elements


def element(name, content="", **attributes):
    """An element; class_ is the attribute class, and data_count is data-count."""
    words = "".join(f" {key.rstrip('_').replace('_', '-')}={quoteattr(shown(value))}" for key, value in attributes.items() if value != "")
    return f"<{name}{words}>{content}</{name}>" if content else f"<{name}{words}/>"


def shown(value):
    return f"{value:.1f}".removesuffix(".0") if isinstance(value, float) else str(value)


def text(words, x, y, size, class_="", **attributes):
    return element("text", escape(words), x=x, y=y, font_size=size, class_=class_, **attributes)


def title(words):
    return element("title", escape(words))


# ---- counts


def figures(job, answer, i):
    """A count's low, number and high, as they are written; a ? where there is no number."""
    count = job.counts[i]
    return f"{number(count.low)} ≤", number(answer.counts[i].number) if answer.counts else "?", f"≤ {number(count.high)}"


def figures_width(three):
    return sum(text_width(words, FIGURE, True) for words in three) + 22


def box_width(job, answer):
    """The width of all boxes: of the longest figures, and of a name as far as it goes."""
    needs = [104]
    for i in range(len(job.counts)):
        name = text_width(job.name(i), NAME, True) + text_width(f"c{i}", SMALL) + 8
        needs.append(max(figures_width(figures(job, answer, i)), min(name, WIDEST_NAME)) + 16)
    return max(needs)


class ShortNames:
    """A job's names, as short as an equation may need them."""

    def __init__(self, job):
        self.job = job

    def name(self, i):
        return cut(self.job.name(i), SMALL, False, 70)


def head_width(first, second):
    """The width that a frame's title asks for."""
    return 2 * PAD + max(text_width(first, 13, True), text_width(second, FIGURE))


class Picture:
    """A job with the planner's answer, and what is marked: bounds as (count, low or high), and ties."""

    def __init__(self, job, answer, tell=lambda tried: None):
        self.job, self.answer, self.map = job, answer, answer.map
        self.bounds, self.ties, self.hot, self.mark, self.conflict = set(), set(), set(), "binding", []
        many = max(self.map.groups, default=-1) + 1
        if answer.kind == "planned":
            self.bounds = {(stop.count, stop.side) for g in range(many) for stop in groups.stops(job, answer, g)}
        else:
            self.mark, self.conflict = "conflict", conflict.find(job, answer, tell)
            self.bounds = {(part.index, part.kind) for part in self.conflict if part.kind != "tie"}
            self.ties = {part.index for part in self.conflict if part.kind == "tie"}
            self.hot = {i for i, _ in self.bounds} | {i for k in self.ties for i in job.ties[k].counts()}
        self.width = box_width(job, answer)
        self.untied = [i for g in range(many) for i in self.map.members(g) if not self.map.ties(g)]
        self.tied = [g for g in range(many) if self.map.ties(g)]

    # ---- a count

    def about(self, i):
        """All of a count, for its <title>."""
        count, job = self.job.counts[i], self.job
        bounds = f"{number(count.low)} to {number(count.high)}{f' by {count.sheet.words()}' if count.sheet else ''}"
        words = f"{job.name(i)}, {count_place(job, i)}: {bounds}, weight {number(count.weight)}"
        if self.answer.counts:
            row = self.answer.counts[i]
            words += f"; number {number(row.number)} (base {number(row.base)}, step {number(row.step)})"
        return words

    def bound(self, i, side, words, x, y):
        """The low of a count, which ends at x, or the high, which begins there; marked where it binds."""
        plain = text(words, x, y, FIGURE, text_anchor="end" if side == "low" else "")
        if (i, side) not in self.bounds:
            return element("g", plain, class_=f"bound {side}")
        width = text_width(words, FIGURE, True)
        mark = element("rect", x=x - 3 - (width if side == "low" else 0), y=y - 12, width=width + 6, height=16, rx=4, class_="mark")
        return element("g", mark + plain, class_=f"bound {side} {self.mark}")

    def count(self, i, x, y):
        """A count's box: its name, and low ≤ number ≤ high."""
        name, job, room = self.job.name(i), self.job, self.width - 16
        parts = [title(self.about(i)), element("rect", x=x, y=y, width=self.width, height=BOX, rx=5, class_="box")]
        if name != f"c{i}":
            parts.append(text(f"c{i}", x + self.width - 8, y + 15, SMALL, "aside", text_anchor="end"))
            room -= text_width(f"c{i}", SMALL) + 8
        parts.append(text(cut(name, NAME, True, room), x + 8, y + 15, NAME, "name"))
        low, middle, high = figures(job, self.answer, i)
        widths = [text_width(words, FIGURE, True) for words in (low, middle + " ", high)]
        at, line = x + (self.width + widths[0] - widths[2]) / 2, y + 31  # the number's middle: all three are centred
        parts.append(self.bound(i, "low", low, at - widths[1] / 2 - 7, line))
        parts.append(text(middle, at, line, FIGURE + 1, "number", text_anchor="middle"))
        parts.append(self.bound(i, "high", high, at + widths[1] / 2 + 7, line))
        return element("g", "".join(parts), class_="count hot" if i in self.hot else "count", id=f"count-{i}", data_count=i)

    # ---- a tie

    def tie_class(self, k):
        return self.map.kinds[k] + (" conflict" if k in self.ties else "")

    def tie_title(self, k):
        tie = self.job.ties[k]
        fixes = f"fixes {self.job.name(tie.counts()[0])}" if tie.terms() else "never holds" if tie.c else "always holds"
        kind = {"joins": "joins", "ring": "closes a ring", "fixes": fixes}[self.map.kinds[k]]
        return title(f"{tie_place(self.job, k)}: {equation(self.job, tie)} ({kind})")

    def tie(self, k, path):
        """A tie's line, from its left count to its right one, or at the one count to whose group it belongs."""
        counts = self.job.ties[k].counts()
        ends = {"data_left": counts[0], "data_right": counts[-1]}
        return element("g", self.tie_title(k) + element("path", d=path), class_=f"tie {self.tie_class(k)}", id=f"tie-{k}", **ends)

    def label(self, label):
        """A tie's equation, with nothing behind it."""
        words, width = escape(label.text) + self.tie_title(label.tie), text_width(label.text, SMALL)
        back = element("rect", x=label.x - 2, y=label.y - 10, width=width + 4, height=13, class_="back")
        class_ = f"label {self.tie_class(label.tie)}"
        return back + element("text", words, x=label.x, y=label.y, font_size=SMALL, class_=class_, data_tie=label.tie)

    # ---- a group

    def group_title(self, group):
        """The two lines of a frame's title."""
        members, ties = self.map.members(group), self.map.ties(group)
        first = f"group {group}: {plural(len(members), 'count')}, {plural(len(ties), 'tie')}"
        if self.answer.kind == "planned":
            return first, self.family(group)
        return first, "no fit-out: see what is red" if group == self.map.groups[self.answer.count] else ""

    def family(self, group):
        """How many fit-outs there are, and what a step is worth."""
        family = self.answer.families[group]
        if family.fits == 1:
            return "one fit-out"
        return f"{number(family.fits)} fit-outs, a step is worth {number(family.gain)}"

    def texts(self, k):
        """What can stand at a tie: its equation, with short names if need be, or else where it is written."""
        tie = self.job.ties[k]
        return [equation(self.job, tie), equation(ShortNames(self.job), tie), tie_place(self.job, k)]

    def group(self, group):
        """A frame with a group of tied counts: its size and its content."""
        tree = Tree(self.job, self.map, group, self.width, {k: self.texts(k) for k in self.map.ties(group)}, HEAD)
        first, second = self.group_title(group)
        failed = self.answer.kind != "planned" and group == self.map.groups[self.answer.count]
        width = max(tree.width, head_width(first, second))
        order = {"ring": 0, "joins": 1, "fixes": 2}
        lines = sorted(tree.lines, key=lambda k: (k in self.ties, order[self.map.kinds[k]], k))
        parts = [element("rect", width=width, height=tree.height, rx=8, class_="frame"), text(first, PAD, 21, 13, "title")]
        parts.append(text(second, PAD, 37, FIGURE, "conflict" if failed else "caption") if second else "")
        parts += [self.tie(k, tree.lines[k]) for k in lines]
        parts += [self.count(i, x, y) for i, (x, y) in tree.boxes.items()]
        parts += [self.label(label) for label in tree.labels]
        class_ = "group many" if tree.has_many else "group"
        return (width, tree.height), "\n".join(parts), {"id": f"group-{group}", "class_": class_}

    def caption(self, i):
        """An untied count's group, and its fit-outs."""
        group = self.map.groups[i]
        if self.answer.kind != "planned":
            return f"group {group}" + (": no fit-out" if i == self.answer.count else "")
        family = self.answer.families[group]
        return f"group {group}: " + ("one fit-out" if family.fits == 1 else f"{number(family.fits)} fit-outs, gain {number(family.gain)}")

    def untied_group(self):
        """The frame with the untied counts."""
        captions = {i: self.caption(i) for i in self.untied}
        many = len(self.untied) > 1
        first = f"{plural(len(self.untied), 'untied count')}" + (", each a group of its own" if many else "")
        second = "gain: what a step is worth" if self.answer.kind == "planned" else ""
        grid = Grid(self.untied, self.width, captions, HEAD + 6)
        width = max(grid.width, head_width(first, second))
        parts = [element("rect", width=width, height=grid.height, rx=8, class_="frame"), text(first, PAD, 21, 13, "title")]
        parts.append(text(second, PAD, 37, FIGURE, "caption") if second else "")
        for i, (x, y) in grid.boxes.items():
            parts.append(self.count(i, x, y))
            failed = self.answer.kind != "planned" and i == self.answer.count
            parts.append(text(captions[i], *grid.captions[i], SMALL, "conflict" if failed else "caption"))
        return (width, grid.height), "\n".join(parts), {"id": "untied", "class_": "group"}

    # ---- the heading and the legend

    def heading(self):
        """The lines of the heading, each with its size and class."""
        answer, job = self.answer, self.job
        counts, ties = plural(len(job.counts), "count"), plural(len(job.ties), "tie")
        size = f"{counts}, {ties}, {plural(len(self.tied) + len(self.untied), 'group')}"
        sheets = sum(count.sheet is not None for count in job.counts)
        size += f"; the bounds of {plural(sheets, 'count')} by sheets in force" if sheets else ""
        if answer.kind == "planned":
            return [(f"worth {number(answer.worth)}", 20, "heading"), (size, 12, "caption")]
        name = job.name(answer.count)
        first = f"no fit at count {answer.count}" + (f" ({name})" if name != f"c{answer.count}" else "")
        why = "what is red contradicts itself, in whole numbers within ±1,000,000,000, and without any one of these the others do not:"
        if len(self.conflict) == 1:
            why = "no whole numbers within ±1,000,000,000 keep what is red:"
        parts = [part.words(job) for part in sorted(self.conflict, key=lambda part: part.kind == "tie")]
        told = "; ".join(parts[:4]) + (f"; and {len(parts) - 4} more" if len(parts) > 4 else "")
        return [(first, 20, "heading conflict"), (size, 12, "caption"), (why, 12, "conflict"), (told, 12, "conflict")]

    def legend(self):
        """Pairs of a drawn sample, 44 wide, and its words: of what the picture has."""
        kinds, samples = set(self.map.kinds), []
        line = element("path", d="M0 -4H40")
        if "joins" in kinds:
            samples.append((element("g", line, class_="tie joins"), "a tie that joins counts"))
        if "ring" in kinds:
            samples.append((element("g", line, class_="tie ring"), "a tie that closes a ring"))
        if "fixes" in kinds:
            pin = element("path", d="M10 -4H23V-7.5H30V-0.5H23V-4")
            samples.append((element("g", pin, class_="tie fixes"), "a tie on one count"))
        if self.bounds:
            mark = element("rect", x=2, y=-12, width=36, height=16, rx=4, class_="mark")
            mark += text("≤ 9", 20, 0, FIGURE, text_anchor="middle")
            words = "a bound that one step more would break" if self.mark == "binding" else "a bound of the conflict"
            samples.append((element("g", mark, class_=self.mark), words))
        if self.ties:
            samples.append((element("g", line, class_="tie conflict"), "a tie of the conflict"))
        return samples


# ---- all of it


def placed_legend(samples, top, room):
    """The legend in lines that are not wider than the room: the elements, and where they end."""
    parts, x, y = [], MARGIN, top
    for sample, words in samples:
        width = 46 + text_width(words, FIGURE) + 26
        if x > MARGIN and x + width > MARGIN + room:
            x, y = MARGIN, y + 22
        moved = element("g", sample + text(words, 48, 0, FIGURE), transform=f"translate({x:g} {y:g})", class_="legend")
        parts.append(moved)
        x += width
    return parts, (y + 10 if samples else top - 16)


def svg(job, answer, tell=lambda tried: None):
    """The picture of a job with the planner's answer, planned or no fit. tell is told how many plans were made for a conflict."""
    picture = Picture(job, answer, tell)
    frames = [picture.group(g) for g in picture.tied] + ([picture.untied_group()] if picture.untied else [])
    lines = picture.heading()
    least = max([LEAST_WIDTH, *(text_width(words, size, size > 12) for words, size, _ in lines)])
    places, width = packed([size for size, _, _ in frames], least)
    parts, y = [], MARGIN
    for words, size, class_ in lines:
        y += size * 1.3
        parts.append(text(words, MARGIN, y - 4, size, class_))
    legend, y = placed_legend(picture.legend(), y + 24, width)
    parts += legend
    bottom = y
    for (x, down), (size, content, attributes) in zip(places, frames):
        moved = f"translate({MARGIN + x:.1f} {y + 10 + down:.1f})"
        parts.append(element("g", "\n" + content + "\n", transform=moved, **attributes))
        bottom = max(bottom, y + 10 + down + size[1])
    width, height = round(width + 2 * MARGIN), round(bottom + MARGIN)
    head = f'<svg xmlns="http://www.w3.org/2000/svg" width="{width}" height="{height}" viewBox="0 0 {width} {height}">'
    back = element("rect", width=width, height=height, fill="#fff")
    return "\n".join([head, title(lines[0][0]), element("style", STYLE), back, *parts, "</svg>", ""])
