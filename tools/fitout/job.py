"""A job as people see it: counts and ties, their places in a text, their bytes, and the limits of each field (docs/FORMAT.md)."""

import struct
from typing import NamedTuple

MARK = b"FIT1"
HEADER_LENGTH, COUNT_LENGTH, TIE_LENGTH = 24, 12, 20
LONGEST = 23576  # the bytes of the longest lawful job

MOST_COUNTS = 256
MOST_TIES = 1024
NUMBER_LIMIT = 1_000_000_000
WEIGHT_LIMIT = 1_000_000
COEFFICIENT_LIMIT = 1_000_000
SIDE_LIMIT = 2_000_000_000_000_000


class Count(NamedTuple):
    low: int
    high: int
    weight: int = 0
    name: str = ""  # none: it is called by its number, c0
    line: int = 0  # in the text; 0 where there is no text
    sheet: tuple | None = None  # the amendment whose bounds these are


class Tie(NamedTuple):
    """a * left + b * right = c. Left and right may be one count, and a and b may be 0."""

    left: int
    right: int
    a: int
    b: int
    c: int
    line: int = 0

    def terms(self):
        """What it says, as coefficients by count: of a count that is named twice the sum of the two, and none that is 0."""
        sums = {self.left: self.a + self.b} if self.left == self.right else {self.left: self.a, self.right: self.b}
        return {count: coefficient for count, coefficient in sums.items() if coefficient}

    def counts(self):
        """The counts that it is about: the two that it joins, or the one to whose group it belongs."""
        return list(self.terms()) or [self.left]


class Job(NamedTuple):
    counts: tuple
    ties: tuple

    def name(self, i):
        """What count i is called; a tie can name one that is not there."""
        return (i < len(self.counts) and self.counts[i].name) or f"c{i}"

    def packed(self):
        return packed([count_row(count) for count in self.counts], [tie_row(tie) for tie in self.ties])


def count_row(count):
    return struct.pack("<iii", count.low, count.high, count.weight)


def tie_row(tie):
    return struct.pack("<HHiiq", tie.left, tie.right, tie.a, tie.b, tie.c)


def packed(counts, ties):
    """The job's bytes: the header, the count rows, the equation rows."""
    start = HEADER_LENGTH + COUNT_LENGTH * len(counts)
    end = start + TIE_LENGTH * len(ties)
    header = MARK + struct.pack("<HHIIII", len(counts), len(ties), HEADER_LENGTH, start, end, 0)
    return b"".join([header, *counts, *ties])


def unpacked(data):
    """The job in bytes whose header and length are right; None where they are not."""
    if len(data) < HEADER_LENGTH or data[:4] != MARK:
        return None
    n, m = struct.unpack_from("<HH", data, 4)
    start = HEADER_LENGTH + COUNT_LENGTH * n
    end = start + TIE_LENGTH * m
    if struct.unpack_from("<IIII", data, 8) != (HEADER_LENGTH, start, end, 0) or len(data) != end:
        return None
    counts = [Count(*row) for row in struct.iter_unpack("<iii", data[HEADER_LENGTH:start])]
    ties = [Tie(*row) for row in struct.iter_unpack("<HHiiq", data[start:end])]
    return Job(tuple(counts), tuple(ties))


# ---- limits

WEIGHTS = range(-WEIGHT_LIMIT, WEIGHT_LIMIT + 1)
NUMBERS = range(-NUMBER_LIMIT, NUMBER_LIMIT + 1)
COEFFICIENTS = range(-COEFFICIENT_LIMIT, COEFFICIENT_LIMIT + 1)
SIDES = range(-SIDE_LIMIT, SIDE_LIMIT + 1)


class Breach(NamedTuple):
    """A field that the planner does not take, and the reason with which it refuses the job."""

    reason: int
    words: str


def range_text(allowed):
    return f"{allowed[0]:,} to {allowed[-1]:,}"


def outside(reason, fields):
    """Those of the fields, each with what it is and what it may be, that are out of their range."""
    wrong = [(what, value, allowed) for what, value, allowed in fields if value not in allowed]
    return [Breach(reason, f"{what} is {value:,}, and may be {range_text(allowed)}") for what, value, allowed in wrong]


def count_breaches(count):
    return outside(5, [("the low", count.low, NUMBERS), ("the high", count.high, NUMBERS), ("the weight", count.weight, WEIGHTS)])


def turned_bounds(row):
    """A warning where the low of a count or a sheet is above its high."""
    return [f"the low, {row.low:,}, is above the high, {row.high:,}, which leaves no fit"] if row.low > row.high else []


def missing(reason, job, counts):
    """Those of the numbers of counts that a job does not have."""
    n = len(job.counts)
    there = f"counts are c0 to c{n - 1}" if n > 1 else "there is c0 alone" if n else "the job has no counts"
    return [Breach(reason, f"there is no count c{count}: {there}") for count in dict.fromkeys(counts) if count >= n]


def tie_breaches(job, tie):
    """Of one tie of a job: those of reason 6 before those of 7."""
    coefficients = [("a", tie.a, tie.left), ("b", tie.b, tie.right)]
    fields = [(f"the coefficient of {job.name(count)}, {field},", value, COEFFICIENTS) for field, value, count in coefficients]
    return missing(6, job, (tie.left, tie.right)) + outside(7, [*fields, ("the right-hand side, c,", tie.c, SIDES)])
