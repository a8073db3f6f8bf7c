"""How the ties and bounds of a conflict contradict each other, in a line: what all but one of them leave, as the planner gives it, and the
one that this breaks."""

import math
from fractions import Fraction

from .job import SIDES
from .wording import as_written, left_side, number


def words(job, found, group):
    """One line, or none."""
    ties, bounds = [part for part in found if part.kind == "tie"], [part for part in found if part.kind != "tie"]
    if not ties:
        return ["The low is above the high."]
    if bounds:
        return [bound_line(job, bounds[-1], group.sheet([part for part in found if part != bounds[-1]]))]
    alone = factor_line(job, job.ties[ties[0].index]) if len(ties) == 1 else []
    return alone or broken_line(job, [part.index for part in ties]) or tie_line(job, ties, group)


def bound_line(job, bound, sheet):
    """What the others make of the count whose bound they break."""
    row, family = sheet[bound.index]
    least, most = ends_of(1, row, family)
    made = f"at most {number(most)}" if bound.kind == "low" else f"at least {number(least)}"
    return f"With the others {job.name(bound.index)} is {made if least < most else number(most)}."


# ---- ties alone


def factor_line(job, tie):
    """Of one tie: that its left side is 0, or has a factor, and its right side is not or has not."""
    factor = math.gcd(*tie.terms().values())
    if not factor:
        return [f"{as_written(job, tie)} is 0, and {number(tie.c)} is not."]
    return [f"{left_side(job, tie)} is a multiple of {number(factor)}, and {number(tie.c)} is not."] if tie.c % factor else []


def broken_line(job, ties):
    """Of ties that close a ring or fix a count: the count that they make a broken number, if they do."""
    numbers, closing = along(job, ties, job.ties[ties[0]].counts()[0])
    if not closing:
        return []
    tie = job.ties[closing[0]]
    first, slope = (sum(coefficient * numbers[i][k] for i, coefficient in tie.terms().items()) for k in (0, 1))
    made = {i: start + step * (tie.c - first) / slope for i, (start, step) in sorted(numbers.items())} if slope else {}
    broken = [(i, value) for i, value in made.items() if value.denominator != 1][:1]
    return [f"Together the ties make {job.name(i)} = {mixed(value)}, which is not whole." for i, value in broken]


def along(job, ties, start):
    """Each count that the ties reach as first + slope * t, where t is the start; and the ties that were not needed for it."""
    numbers, waiting = {start: (Fraction(0), Fraction(1))}, list(ties)
    while True:
        for k in waiting:
            # the counts that are reached already, and then the other
            terms = sorted(job.ties[k].terms().items(), key=lambda term: term[0] not in numbers)
            if [i in numbers for i, _ in terms] == [True, False]:
                break
        else:
            return numbers, waiting
        waiting.remove(k)
        (known, a), (other, b) = terms
        first, slope = numbers[known]
        numbers[other] = (job.ties[k].c - a * first) / b, -a * slope / b


def mixed(value):
    """A broken number: 3 1/2."""
    size = abs(value)
    front = f"{number(size.numerator // size.denominator)} " if size >= 1 else ""
    return f"{'-' if value < 0 else ''}{front}{number(size.numerator % size.denominator)}/{number(size.denominator)}"


def tie_line(job, ties, group):
    """What the others leave of the left side of the last tie, next to the number that it asks for."""
    others, tie = ties[:-1], job.ties[ties[-1].index]
    sheet = group.sheet(others)
    terms = [(coefficient, *sheet[i]) for i, coefficient in tie.terms().items()]
    first, steps = sum(factor * row.base for factor, row, _ in terms), [factor * row.step for factor, row, _ in terms]
    is_free = len({row.group for _, row, _ in terms}) == len(terms)  # each of its counts for itself
    step = math.gcd(*steps) if is_free else abs(sum(steps))
    if not step:
        return [f"With the others {left_side(job, tie)} is {number(first)}."]
    below = tie.c - (tie.c - first) % step
    # one of the two may be out of reach, as every number is within its range
    near = [value for value in (below, below + step) if value in SIDES and group.has_fit(others, tie._replace(c=value))]
    subject = ("With the others " if others else "") + left_side(job, tie)
    if len(near) == 2:
        return [f"{subject} can be {number(near[0])} or {number(near[1])}, and nothing between."]
    if is_free:
        least, most = (sum(ends_of(*term)[k] for term in terms) for k in (0, 1))
        return [f"{subject} is at most {number(most)}."] * (most < tie.c) + [f"{subject} is at least {number(least)}."] * (tie.c < least)
    return []


def ends_of(factor, row, family):
    """The least and the most of a multiple of a count's numbers."""
    return sorted((factor * row.base, factor * (row.base + row.step * (family.fits - 1))))
