"""A plan, a "no fit" or a refusal, in words: from the job, the sheet and the map, with the proved planner as the only judge."""

from . import amendments, conflict, contradiction, groups, refusal, taken
from .wording import listed, number, plural, signed_sum

MOST_UNTIED = 12  # that are told one by one
MOST_SHEETS = 12
MOST_SUMMANDS = 8


def words(given, answer):
    """The explanation, as lines."""
    if answer.kind == "refused":
        return refusal.words(given, answer.reason, answer.row)
    job = taken.amended(given, answer)
    first, *others = no_fit(job, answer) if answer.kind == "no fit" else planned(job, answer)
    return [first, *sheets(given), *others]


# ---- amendments


def sheets(given):
    """Which sheets are in force, with the bounds that they replace."""
    if not given.sheets:
        return []
    force = amendments.in_force(given.sheets)
    lines = [f"In force, of {plural(len(given.sheets), 'sheet')}:"]
    for sheet in force[:MOST_SHEETS]:
        own = given.job.counts[sheet.count]
        bounds = f"{number(sheet.low)} to {number(sheet.high)} in place of {number(own.low)} to {number(own.high)}"
        lines.append(f"  {sheet.words()}: {given.job.name(sheet.count)} {bounds}")
    return lines + [f"  and {len(force) - MOST_SHEETS:,} more"] * (len(force) > MOST_SHEETS)


# ---- planned


def planned(job, answer):
    if not job.counts:
        return ["planned, worth 0: the job has no counts."]
    best = "No other fit-out of the job is worth more, and of those worth as much this one has the higher number where they first differ."
    lines = [f"planned, worth {number(answer.worth)}.", best, "(Proved once, for every job: docs/READING.md.)", ""]
    all_groups = range(len(answer.families))
    untied = [g for g in all_groups if len(answer.map.members(g)) == 1 and not answer.map.ties(g)]
    together = untied if len(untied) > MOST_UNTIED else []
    worths = []
    for group in all_groups:
        if group not in together:
            lines += groups.words(job, answer, group)
            worths.append((groups.worth_of(job, answer, group), f"group {group}"))
    if together:
        lines += untied_together(job, answer, [answer.map.members(g)[0] for g in together])
        worths.append((sum(groups.worth_of(job, answer, g) for g in together), "untied counts"))
    return [*lines, "", total(answer.worth, worths)]


def untied_together(job, answer, counts):
    """Many untied counts: at which bound they stand, by their weights."""
    lines = [f"{len(counts):,} untied counts are groups of their own, each at one of its bounds:"]
    at_high = {i for i in counts if answer.counts[i].number == job.counts[i].high}
    for what, is_so in (("above 0", lambda weight: weight > 0), ("below 0", lambda weight: weight < 0), ("0", lambda weight: weight == 0)):
        for end in ("high", "low"):
            members = [i for i in counts if is_so(job.counts[i].weight) and (i in at_high) == (end == "high")]
            same = ": all are worth the same" if what == "0" else ""
            lines += [f"  {len(members):,} with weight {what}, at the {end}{same}: {listed(map(job.name, members))}"] * bool(members)
    worth = sum(job.counts[i].weight * answer.counts[i].number for i in counts)
    return [*lines, f"  worth {number(worth)}"]


def total(worth, worths):
    """The worths of what is told above, and their sum; of many, the largest and the rest."""
    shown = worths
    if len(worths) > MOST_SUMMANDS:
        largest = sorted(worths, key=lambda one: -abs(one[0]))[: MOST_SUMMANDS - 1]
        shown = [one for one in worths if one in largest]
        rest = sum(one for one, _ in worths) - sum(one for one, _ in shown)
        shown.append((rest, f"{len(worths) - len(shown):,} others"))
    return f"worth {number(worth)} = {signed_sum((one, f'{number(abs(one))} ({what})') for one, what in shown)}"


# ---- no fit


def no_fit(job, answer):
    search = conflict.Search(job, answer, conflict.Progress("fitplan"))
    found = search.find()
    group = answer.map.groups[answer.count]
    lines = [f"no fit at count {answer.count}, the lowest of the first group without a fit-out.", groups.title(job, answer.map, group)]
    if len(found) == 1:
        lines.append("No whole numbers within ±1,000,000,000 keep this:")
    else:
        whole = "in whole numbers within ±1,000,000,000"
        lines.append(f"These contradict each other, {whole}, and without any one of them the others do not:")
    lines += [f"  {part.words(job)}" for part in found]
    return [*lines, *contradiction.words(job, found, search.group), cure(job, found, search.cures(found))]


def cure(job, found, cures):
    """What leaving out one of them would do for the group as a whole."""
    if len(cures) == len(found):
        return "Without " + ("it" if len(found) == 1 else "any one of them") + " the group has a fit-out."
    if not cures:
        return "The group has other conflicts too: leaving out one of these alone gives it no fit-out."
    which = "One row gives" if len(cures) == 1 else "Any one of these rows gives"
    return f"The group has other conflicts too. {which} it a fit-out when left out: {listed((part.words(job) for part in cures), 3)}."
