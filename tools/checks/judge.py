"""All fit-outs of a job, group by group, by another way than the planner's: every count of a group is a fraction of its lowest count,
first + slope * t; the t for which all are whole are one residue class, the bounds leave an interval of it, and each tie that does not
join leaves one t, or all, or none. A tie is (left, right, a, b, c)."""

import math
from fractions import Fraction
from typing import NamedTuple


class Fits(NamedTuple):
    """The fit-outs of a group: t = first, first + period, .., many of them, and the count's number as (first, slope) of t."""

    members: list
    lines: dict
    first: int
    period: int
    many: int

    def at(self, k):
        t = self.first + self.period * k
        return {i: int(start + slope * t) for i, (start, slope) in self.lines.items()}


def is_joining(tie):
    left, right, a, b, _ = tie
    return left != right and a != 0 and b != 0


def home(tie):
    """The count to whose group a tie belongs."""
    left, right, a, b, _ = tie
    return right if a == 0 and b != 0 else left


def groups(n, ties):
    """The members of each group, in the order of their lowest counts."""
    lowest = list(range(n))
    for left, right, *_ in filter(is_joining, ties):
        p, q = lowest[left], lowest[right]
        lowest = [min(p, q) if low in (p, q) else low for low in lowest]
    return [[i for i in range(n) if lowest[i] == low] for low in sorted(set(lowest))]


def lines_of(members, ties):
    """Each count as (first, slope) of the lowest; and the ties that were left over."""
    lines, waiting = {members[0]: (Fraction(0), Fraction(1))}, [tie for tie in ties if home(tie) in members]
    moved = True
    while moved:
        moved = False
        for tie in filter(is_joining, list(waiting)):
            left, right, a, b, c = tie
            if right in lines and left not in lines:
                left, right, a, b = right, left, b, a
            if left in lines and right not in lines:
                start, slope = lines[left]
                lines[right] = (c - a * start) / b, -a * slope / b
                waiting.remove(tie)
                moved = True
    return lines, waiting


def along(tie, lines):
    """The left side of a tie as (first, slope). A count of another group has the coefficient 0."""
    left, right, a, b, _ = tie
    ends = [(factor, lines[i]) for factor, i in ((a, left), (b, right)) if factor]
    return tuple(sum(factor * line[k] for factor, line in ends) for k in (0, 1))


def met(one, other):
    """The residue class in both: (residue, period), or None."""
    (r, m), (s, d) = one, other
    factor = math.gcd(m, d)
    if (s - r) % factor:
        return None
    step = (s - r) // factor * pow(m // factor, -1, d // factor) if d != factor else 0
    period = m // factor * d
    return (r + m * step) % period, period


def whole_class(lines):
    """The t that make every number whole, as a residue class."""
    found = (0, 1)
    for start, slope in lines.values():
        d = math.lcm(start.denominator, slope.denominator)
        u, v = int(slope * d), int(start * d)
        factor = math.gcd(u, d)
        if v % factor:
            return None
        modulus = d // factor
        residue = -v // factor * pow(u // factor, -1, modulus) % modulus if modulus > 1 else 0
        found = met(found, (residue, modulus))
        if found is None:
            return None
    return found


def interval(lines, bounds):
    """The least and the most t that keep the bounds."""
    least, most = -math.inf, math.inf
    for i, (start, slope) in lines.items():
        low, high = bounds[i]
        ends = sorted(((low - start) / slope, (high - start) / slope)) if low <= high else (1, 0)
        least, most = max(least, math.ceil(ends[0])), min(most, math.floor(ends[1]))
    return least, most


def fits(members, bounds, ties):
    """The fit-outs of one group, or None."""
    lines, left_over = lines_of(members, ties)
    found, (least, most) = whole_class(lines), interval(lines, bounds)
    for tie in left_over:
        start, slope = along(tie, lines)
        rest = tie[4] - start
        if slope == 0 and rest != 0:
            return None
        if slope != 0:
            at = rest / slope
            if at.denominator != 1:
                return None
            least, most = max(least, int(at)), min(most, int(at))
    if found is None:
        return None
    first = least + (found[0] - least) % found[1]
    return Fits(members, lines, first, found[1], (most - first) // found[1] + 1) if first <= most else None


def all_fits(bounds, ties):
    """Of each group its fit-outs, or None."""
    return [fits(members, bounds, ties) for members in groups(len(bounds), ties)]


def has_fit(bounds, ties):
    return None not in all_fits(bounds, ties)
