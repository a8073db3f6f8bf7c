"""A smallest set of ties and bounds that contradict each other: together they leave the group no fit-out, and without any one of them
it has one. The proved planner is asked about every set."""

import time

from .command import Failure, say
from .parts import Group


def find(job, answer, tell=lambda tried: None):
    """The conflict in the group that a "no fit" names. tell is told after each plan how many have been made."""
    return Search(job, answer, tell).find()


def nearness(job, ties, start):
    """A sorting key: how far a part is from a count, by the number of ties between; the ties of the shortest ways first."""
    neighbours = {}
    for part in ties:
        first, *others = job.ties[part.index].counts()
        for other in others:
            neighbours.setdefault(first, []).append((other, part))
            neighbours.setdefault(other, []).append((first, part))
    far, ways, waiting = {start: 0}, set(), [start]
    for here in waiting:
        for there, part in neighbours.get(here, []):
            if there not in far:
                far[there] = far[here] + 1
                ways.add(part)
                waiting.append(there)

    def key(part):
        if part.kind == "tie":
            return max(far[i] for i in job.ties[part.index].counts()), part not in ways, part.index
        return far[part.index], 0, part.index

    return key


class Search:
    """The search in the group that a "no fit" names, and how many plans it has made."""

    def __init__(self, job, answer, tell):
        self.job, self.tell, self.tried = job, tell, 0
        self.group = Group(job, answer.map, answer.map.groups[answer.count])
        self.ties, self.bounds = self.group.joins + self.group.others, self.group.bounds

    def find(self):
        """A smallest conflict, ties first."""
        every, ties = self.ties + self.bounds, self.job.ties
        some = self.necessary(every)
        key = nearness(self.job, self.ties, ties[some.index].counts()[0] if some.kind == "tie" else some.index)
        # what stands first is kept rather: so what is near is named, and not the long way round
        orders = sorted(every, key=key), sorted(self.ties, key=key) + sorted(self.bounds, key=key)
        found = min((self.smallest(order) for order in orders), key=len)
        self.check(found)
        return sorted(found, key=lambda part: (part.kind != "tie", part.index, part.kind == "high"))

    def cures(self, found):
        """Those parts of a conflict without which the whole group has a fit-out: where there are other conflicts, not all of them."""
        every = self.ties + self.bounds
        return [part for part in found if not self.contradicts([other for other in every if other != part])]

    def contradicts(self, parts):
        self.tried += 1
        self.tell(self.tried)
        return not self.group.has_fit(parts)

    def necessary(self, parts):
        """The part at which the parts, taken from the first on, begin to contradict each other."""
        least, most = 1, len(parts)
        while least < most:
            middle = (least + most) // 2
            if self.contradicts(parts[:middle]):
                most = middle
            else:
                least = middle + 1
        return parts[least - 1]

    def smallest(self, parts):
        return self.among([], False, parts)

    def among(self, kept, is_new, parts):
        """Those of the parts that have to stand beside the kept ones: halves are left out together while what remains contradicts
        itself (QuickXplain, Junker 2004). is_new: the kept ones have grown since they were last tried."""
        if is_new and self.contradicts(kept):
            return []
        if len(parts) == 1:
            return parts
        half = (len(parts) + 1) // 2
        first, second = parts[:half], parts[half:]
        of_second = self.among(kept + first, True, second)
        of_first = self.among(kept + of_second, bool(of_second), first)
        return of_first + of_second

    def check(self, found):
        """Every removal is tried: what is named is a conflict, and none of it can be spared."""
        spared = [[other for other in found if other != part] for part in found]
        if not self.contradicts(found) or any(self.contradicts(rest) for rest in spared):
            raise Failure("what was found is not a smallest conflict: this is a fault of the command, not of the job")


class Progress:
    """Says how many plans have been tried, once a second, from the first second on."""

    def __init__(self, label):
        self.label, self.next = label, time.monotonic() + 1

    def __call__(self, tried):
        if time.monotonic() >= self.next:
            say(self.label, f"looking for what contradicts what: {tried:,} plans tried")
            self.next += 1
