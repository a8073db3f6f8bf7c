"""Why a group's fit-out is chosen: read off its family on the sheet, with the bounds and weights of the job."""

from typing import NamedTuple

from .parts import Group
from .wording import equation, listed, number, plural, signed_sum, tie_place, tie_places

MOST_TERMS = 6  # of a sum or a list


class Stop(NamedTuple):
    """A bound that a number would break."""

    count: int
    value: int
    side: str  # low or high
    bound: int

    def words(self, job):
        sheet = job.counts[self.count].sheet
        bound = f"{'below' if self.side == 'low' else 'above'} {number(self.bound)}{f' (sheet {sheet.number})' if sheet else ''}"
        return f"{job.name(self.count)} at {number(self.value)}, {bound}"


def beyond(job, numbers):
    """The bounds that these numbers, by their counts, break."""
    found = []
    for i, value in numbers.items():
        count = job.counts[i]
        if value < count.low:
            found.append(Stop(i, value, "low", count.low))
        if value > count.high:
            found.append(Stop(i, value, "high", count.high))
    return found


def way(family):
    """Which end of a family of several the sheet has chosen: 1 for the last, -1 for the first."""
    return -1 if family.at == 0 else 1


def stepped(answer, members, steps, direction):
    """The numbers one step further."""
    return {i: answer.counts[i].number + direction * steps[i] for i in members}


# ---- one fit-out


class Lone(NamedTuple):
    """What leaves a group only one fit-out: bounds on both sides; a tie that closes a ring or fixes a count; or the ties that join it."""

    more: tuple = ()
    less: tuple = ()
    tie: int | None = None


def lone(job, answer, group):
    alone = Group(job, answer.map, group)
    fits, rows = alone.family(alone.joins)
    if fits == 1:
        return Lone()
    steps = {i: row.step for i, row in rows.items()}
    for part in alone.others:
        slope = sum(coefficient * steps[i] for i, coefficient in job.ties[part.index].terms().items())
        if slope and alone.family([*alone.joins, part])[0] == 1:
            return Lone(tie=part.index)
    more, less = (tuple(beyond(job, stepped(answer, alone.counts, steps, direction))) for direction in (1, -1))
    return Lone(more, less)


def ring_ties(job, the_map, closing):
    """The joining ties on the way between the two counts of a tie that closes a ring."""
    reached, waiting = {job.ties[closing].left: []}, [job.ties[closing].left]
    while waiting:
        here = waiting.pop(0)
        for k in the_map.ties(the_map.tie_groups[closing]):
            ends = (job.ties[k].left, job.ties[k].right)
            if the_map.kinds[k] == "joins" and here in ends:
                there = ends[1] if ends[0] == here else ends[0]
                if there not in reached:
                    reached[there] = [*reached[here], k]
                    waiting.append(there)
    return sorted(reached[job.ties[closing].right])


def stops(job, answer, group):
    """The bounds that bind: those that a step further would break; with one fit-out, on either side."""
    if answer.families[group].fits == 1:
        why = lone(job, answer, group)
        return [*why.more, *why.less]
    return next_stops(job, answer, group)


def next_stops(job, answer, group):
    members = answer.map.members(group)
    steps = {i: answer.counts[i].step for i in members}
    return beyond(job, stepped(answer, members, steps, way(answer.families[group])))


# ---- in words


def product_sum(job, pairs):
    """The sum of weight x number over (count, number), the counts without weight left out; of many, the largest parts and the rest."""
    parts = [(i, value) for i, value in pairs if job.counts[i].weight]
    size = {i: abs(job.counts[i].weight * value) for i, value in parts}
    shown = parts
    if len(parts) > MOST_TERMS:
        largest = sorted(size, key=lambda i: (-size[i], i))[: MOST_TERMS - 1]
        shown = [(i, value) for i, value in parts if i in largest]
    weights = [(job.counts[i].weight, value, job.name(i)) for i, value in shown]
    terms = [(weight, f"{number(abs(weight))} x {number(value)} {name}") for weight, value, name in weights]
    rest = [job.counts[i].weight * value for i, value in parts if (i, value) not in shown]
    if rest:
        terms.append((sum(rest), f"{number(abs(sum(rest)))} from {len(rest):,} others"))
    return signed_sum(terms)


def numbers(job, answer, members):
    return listed((f"{job.name(i)} {number(answer.counts[i].number)}" for i in members), MOST_TERMS)


def would_put(job, found):
    words = [stop.words(job) for stop in found]
    if len(words) > 3:
        words[2:] = [f"{len(words) - 2:,} more counts past a bound"]
    return "would put " + ", and ".join(words)


def why_chosen(job, answer, group, members):
    """Of a group with several fit-outs: the step, what it is worth, which end is chosen, and what stops one more."""
    family = answer.families[group]
    steps = [(i, answer.counts[i].step) for i in members]
    moves = listed((f"{job.name(i)} {step:+,}" for i, step in steps if step), MOST_TERMS)
    lines = [f"{number(family.fits)} fit-outs. From each to the next: {moves}."]
    gain = product_sum(job, steps)
    worth = f"A step is worth {gain}" + (f" = {number(family.gain)}" if gain != number(family.gain) else "")
    chosen = f"is chosen: {numbers(job, answer, members)}."
    end, share = ("last", "most") if way(family) > 0 else ("first", "least")
    if family.gain:
        lines.append(f"{worth}, a {'gain' if family.gain > 0 else 'loss'}, so the {end} {chosen}")
    else:
        lines.append(f"{worth}, so all are worth the same, and the {end}, with the {share} at {job.name(members[0])}, {chosen}")
    further = "One more" if way(family) > 0 else "One before it"
    lines.append(f"{further} {would_put(job, next_stops(job, answer, group))}.")
    return lines


def what_it_does(job, answer, k):
    """Of a tie that does not join: the ring that it closes, or the count that it fixes."""
    if answer.map.kinds[k] == "ring":
        return f"closes a ring with {tie_places(job, ring_ties(job, answer.map, k))}"
    (count,) = job.ties[k].counts()
    return f"fixes {job.name(count)} at {number(answer.counts[count].number)}"


def why_only(job, answer, group):
    """Of a group with one fit-out: which tie or which bounds leave only it."""
    why, only = lone(job, answer, group), numbers(job, answer, answer.map.members(group))
    if why.tie is not None:
        tie = f"The tie {equation(job, job.ties[why.tie])} ({tie_place(job, why.tie)})"
        return [f"One fit-out: {only}.", f"{tie} {what_it_does(job, answer, why.tie)}, and leaves only this one."]
    if not why.more and not why.less:
        return [f"One fit-out: {only}.", "Within ±1,000,000,000 the ties leave only this one."]
    return [f"One fit-out: {only}.", f"One more {would_put(job, why.more)}; one less {would_put(job, why.less)}."]


def worth_of(job, answer, group):
    return sum(job.counts[i].weight * answer.counts[i].number for i in answer.map.members(group))


def title(job, the_map, group):
    members = the_map.members(group)
    ties = plural(len(the_map.ties(group)), "tie") if the_map.ties(group) else "untied"
    many = f"{len(members):,} counts, " if len(members) > MOST_TERMS else ""
    return f"group {group}: {listed(map(job.name, members), MOST_TERMS)} ({many}{ties})"


def words(job, answer, group):
    """The lines on one group."""
    members = answer.map.members(group)
    several = answer.families[group].fits > 1
    why = why_chosen(job, answer, group, members) if several else why_only(job, answer, group)
    worth, terms = worth_of(job, answer, group), product_sum(job, [(i, answer.counts[i].number) for i in members])
    makes = f"worth {number(worth)}" + (f" = {terms}" if terms != number(worth) else "")
    return [title(job, answer.map, group), *(f"  {line}" for line in [*why, makes])]
