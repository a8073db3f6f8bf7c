"""A part of a job: the counts of one group, with some of its ties and bounds. A bound that is left out is at the end of the whole
range, ±1,000,000,000: no count goes beyond that."""

from typing import NamedTuple

from . import planner
from .job import NUMBER_LIMIT, Count, count_row, packed, tie_row
from .wording import equation, number, tie_place


class Part(NamedTuple):
    """A tie, or the low or the high of a count."""

    kind: str  # tie, low or high
    index: int

    def words(self, job):
        """With its place in the text, where there is one; a bound that a sheet gives, with the sheet."""
        if self.kind == "tie":
            tie = job.ties[self.index]
            return f"{tie_place(job, self.index)}: {'tie ' if tie.line else ''}{equation(job, tie)}"
        count = job.counts[self.index]
        place = count.sheet.words() if count.sheet else f"line {count.line}" if count.line else ""
        return f"{place}{': ' if place else ''}{job.name(self.index)} {self.bound(job)}"

    def bound(self, job):
        count = job.counts[self.index]
        return f"at least {number(count.low)}" if self.kind == "low" else f"at most {number(count.high)}"


class Group:
    """One group of a job by itself: its counts, renumbered in their order, its ties and its bounds."""

    def __init__(self, job, the_map, group):
        self.counts, self.ties = the_map.members(group), the_map.ties(group)
        self.place = {i: at for at, i in enumerate(self.counts)}
        self.joins = [Part("tie", k) for k in self.ties if the_map.kinds[k] == "joins"]
        self.others = [Part("tie", k) for k in self.ties if the_map.kinds[k] != "joins"]
        self.bounds = [
            Part(kind, i)
            for i in self.counts
            for kind, value, end in (("low", job.counts[i].low, -NUMBER_LIMIT), ("high", job.counts[i].high, NUMBER_LIMIT))
            if value != end
        ]
        # the rows in all forms that a part can need, since a search asks for very many
        self.tie_rows = {k: self.tie_row(job.ties[k]) for k in self.ties}
        self.count_rows = [
            [
                count_row(Count(low, high, count.weight))
                for low in (-NUMBER_LIMIT, count.low)
                for high in (NUMBER_LIMIT, count.high)
            ]
            for count in (job.counts[i] for i in self.counts)
        ]

    def packed(self, parts, extra=None):
        """The group's job with these parts alone, and with an extra tie."""
        forms, ties = [0] * len(self.counts), [self.tie_row(extra)] if extra else []
        for kind, index in parts:
            if kind == "tie":
                ties.append(self.tie_rows[index])
            else:
                forms[self.place[index]] += 2 if kind == "low" else 1
        return packed([rows[form] for rows, form in zip(self.count_rows, forms)], ties)

    def tie_row(self, tie):
        """A tie of the group, in its numbers. A count of another group has the coefficient 0, and one of the group stands in its place."""
        own = self.place[tie.counts()[0]]
        return tie_row(tie._replace(left=self.place.get(tie.left, own), right=self.place.get(tie.right, own)))

    def has_fit(self, parts, extra=None):
        return planner.has_fit(self.packed(parts, extra))

    def sheet(self, parts):
        """What the planner gives for these parts: of each count its row of the sheet, and its family."""
        answer = planner.ask(self.packed(parts), with_map=False)
        return {i: (row, answer.families[row.group]) for i, row in zip(self.counts, answer.counts)}

    def family(self, parts):
        """The same, where all joins are among the parts: how many fit-outs there are, and the rows."""
        sheet = self.sheet(parts)
        return sheet[self.counts[0]][1].fits, {i: row for i, (row, _) in sheet.items()}
