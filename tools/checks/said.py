"""An explanation of ./fitplan, read back word by word and judged. Every function gives the faults that it finds."""

import itertools
import re
from fractions import Fraction

from . import judge, sheets

LIMIT = 1_000_000_000
NUMBER = r"-?[\d,]*\d"
TERM = re.compile(rf"([-+]?) ?({NUMBER}) x ({NUMBER}) (.+?)(?= [-+] \d[\d,]* (?:x|from) |$)")


CHOSEN = re.compile(
    rf"  A step is worth (.*?)(?: = ({NUMBER}))?"
    r"(, a gain, so the last|, a loss, so the first|, so all are worth the same, and the last, with the most at (.*),)"
    r" is chosen: (.*)\.$"
)
SHEET = r"sheet \d+ \(.*?\)"
IN_FORCE = re.compile(rf"  ({SHEET}): (.*) ({NUMBER}) to ({NUMBER}) in place of ({NUMBER}) to ({NUMBER})")
SUMMAND = re.compile(r"(-?)([\d,]*\d) \((?:group (\d+)|(untied counts)|([\d,]+) others)\)")


def value(text):
    return int(text.replace(",", ""))


def added(terms):
    """Coefficients by count, those of one count added up; none that is 0."""
    sums = {}
    for coefficient, i in terms:
        sums[i] = sums.get(i, 0) + coefficient
    return {i: coefficient for i, coefficient in sums.items() if coefficient}


def says(tie):
    """What a row says of its counts: coefficients by count."""
    left, right, a, b, _ = tie
    return added([(a, left), (b, right)])


class Explained:
    """A job with its amendments, the lines of its explanation, and what is wrong with them. places: how the place of each sheet is
    called."""

    def __init__(self, job, lines, amendments=b"", places=()):
        self.job, self.lines, self.packed, self.places = job, lines, amendments, places
        self.rows = sheets.rows_of(amendments)
        self.force = sheets.force(self.rows)
        self.bounds = sheets.bounds_in_force([(count.low, count.high) for count in job.counts], self.rows)
        self.ties = [(tie.left, tie.right, tie.a, tie.b, tie.c) for tie in job.ties]
        self.number = {job.name(i): i for i in range(len(job.counts))}
        self.faults = []

    def hold(self, good, what):
        if not good:
            self.faults.append(what)

    def names(self, text):
        """The counts of a list of names, and how many more are only counted."""
        shown, _, more = re.match(r"(.*?)( and ([\d,]+) more)?$", text).groups()
        return [self.number[name] for name in shown.split(", ")], value(more or "0")

    # ---- sheets

    def sheet(self, t):
        """How the sheet in row t is called."""
        return f"sheet {self.rows[t][0]} ({self.places[t]})"

    def sheet_of(self, i):
        """The one that gives a count its bounds, or None."""
        return self.sheet(self.force[i]) if i in self.force else None

    # ---- sums

    def terms(self, text):
        """The terms of a tie's left side: (coefficient, count)."""
        first, *others = re.split(" ([-+]) ", text)
        signed = [("-" if first[0] == "-" else "+", first.lstrip("-")), *zip(others[::2], others[1::2])]
        found = [(sign, *re.match(r"(?:([\d,]+) )?([^\W\d].*)$", term).groups()) for sign, term in signed if text != "0"]
        return [(value(size or "1") * (-1 if sign == "-" else 1), self.number[name]) for sign, size, name in found]

    def is_left_side(self, text, tie):
        """Whether a text has what a row says, each count once."""
        terms = self.terms(text)
        return {i: coefficient for coefficient, i in terms} == says(tie) and len(terms) == len(says(tie))

    def product_sum(self, text, numbers):
        """The sum of weight x number over the counts that have a weight: each term is right, and the rest comes to what is said."""
        weights = {i: self.job.counts[i].weight for i in numbers if self.job.counts[i].weight}
        if text == "0" and not weights:
            return 0
        shown, _, sign, rest, many = re.match(r"(.*?)( ([-+]) ([\d,]*\d) from ([\d,]+) others)?$", text).groups()
        rest = (sign or "").replace("+", "") + (rest or "0")
        terms, end = [], 0
        for found in TERM.finditer(shown):
            terms.append(found.groups())
            end = found.end()
        self.hold(end == len(shown), f"not a sum: {shown}")
        total = 0
        for sign, weight, number, name in terms:
            i, weight = self.number[name], value(weight) * (-1 if sign == "-" else 1)
            self.hold(weights.pop(i, None) == weight and numbers[i] == value(number), f"term {weight} x {number} {name}")
            total += weight * value(number)
        left = sum(weight * numbers[i] for i, weight in weights.items())
        self.hold(value(many or "0") == len(weights) and value(rest) == left, f"what is left of {text}")
        return total + left


# ---- amendments


def in_force(told):
    """The lines on the sheets in force: each of them, in turn, with its bounds and those of the job. They are taken out of the lines."""
    if not told.rows:
        return
    first, lines = told.lines[1], list(itertools.takewhile(lambda line: line.startswith("  "), told.lines[2:]))
    told.lines = told.lines[:1] + told.lines[2 + len(lines) :]
    told.hold(first == f"In force, of {len(told.rows):,} sheet{'s' if len(told.rows) > 1 else ''}:", f"how many sheets: {first}")
    rows = [t for t in range(len(told.rows)) if sheets.is_in_force(told.rows, t)]
    more = re.fullmatch(r"  and ([\d,]+) more", lines[-1])
    told.hold(len(rows) == (len(lines) - 1 + value(more.group(1)) if more else len(lines)), "how many are in force")
    for line, t in zip(lines[:-1] if more else lines, rows):
        sheet, name, *bounds = IN_FORCE.fullmatch(line).groups()
        _, _, i, _, low, high = told.rows[t]
        told.hold(sheet == told.sheet(t) and told.number[name] == i, f"another sheet: {line}")
        told.hold([value(end) for end in bounds] == [low, high, told.job.counts[i].low, told.job.counts[i].high], f"other bounds: {line}")


# ---- planned


def planned(told, worth):
    in_force(told)
    best = [judge.fits(members, told.bounds, told.ties) for members in judge.groups(len(told.bounds), told.ties)]
    told.hold(None not in best, "planned, and the judge finds no fit-out")
    if told.faults or not best:
        told.hold(bool(best) or told.lines == ["planned, worth 0: the job has no counts."], "no counts")
        return
    told.hold(told.lines[0] == f"planned, worth {worth:,}.", "the worth of the first line")
    blocks, last = blocks_of(told)
    together = blocks.pop("untied", [])
    worths = {g: group(told, g, best[g], lines) for g, lines in blocks.items()}
    untied(told, best, worths, together)
    total(told, last, worths, worth)


def blocks_of(told):
    """The lines of each group, those of the untied counts that are told together, and the last line."""
    blocks, here = {}, []
    for line in told.lines[3:-1]:
        found = re.match(r"group (\d+): ", line)
        if found:
            here = blocks[int(found.group(1))] = []
        elif re.match(r"[\d,]+ untied counts", line):
            here = blocks["untied"] = []
        here.append(line)
    return blocks, told.lines[-1]


def title(told, g, members, line):
    """The first line on a group: its counts, how many they are, and how many ties it has."""
    found = re.match(rf"group {g}: (.*) \((?:([\d,]+) counts, )?(?:([\d,]+) ties?|untied)\)$", line)
    shown, more = told.names(found.group(1))
    ties = sum(judge.home(tie) in members for tie in told.ties)
    told.hold(shown == members[: len(shown)] and len(shown) + more == len(members), "the counts of a group")
    told.hold(value(found.group(2) or str(len(members))) == len(members), "how many counts a group has")
    told.hold(value(found.group(3) or "0") == ties, "how many ties a group has")


def group(told, g, fits, lines):
    """The lines on a group; its worth."""
    title(told, g, fits.members, lines[0])
    chosen = several(told, fits, lines) if fits.many > 1 else only_one(told, g, fits, lines)
    made = re.match(rf"  worth ({NUMBER})(?: = (.*))?$", next(line for line in lines if line.startswith("  worth")))
    worth = sum(told.job.counts[i].weight * number for i, number in chosen.items())
    told.hold(value(made.group(1)) == worth, "the worth of a group")
    if made.group(2):
        told.hold(told.product_sum(made.group(2), chosen) == worth, "the sum of a group's worth")
    else:
        told.hold(not any(told.job.counts[i].weight for i in chosen), "a group's worth has no sum")
    return worth


def several(told, fits, lines):
    """A group with several fit-outs; the numbers that are chosen."""
    step = {i: fits.at(1)[i] - number for i, number in fits.at(0).items()}
    many, moves = re.match(r"  ([\d,]+) fit-outs\. From each to the next: (.*)\.$", lines[1]).groups()
    told.hold(value(many) == fits.many, "how many fit-outs")
    for name, move in re.findall(r"(\S.*?) ([-+][\d,]+\d|[-+]\d)(?:, | and |$)", moves.split(" more")[0]):
        told.hold(step[told.number[name]] == value(move), f"the step of {name}")
    gain = sum(told.job.counts[i].weight * move for i, move in step.items())
    said = CHOSEN.match(lines[2])
    end = -1 if "first" in said.group(3) else 1
    told.hold(("gain" in said.group(3), "loss" in said.group(3)) == (gain > 0, gain < 0), "gain or loss")
    told.hold(said.group(4) is None or told.number[said.group(4)] == fits.members[0], "the lowest count")
    told.hold(told.product_sum(said.group(1), step) == gain == value(said.group(2) or said.group(1)), "what a step is worth")
    chosen = fits.at(fits.many - 1 if end > 0 else 0)
    told.hold(numbers(told, said.group(5), chosen), "the chosen numbers")
    further = re.match(r"  (One more|One before it) would put (.*)\.$", lines[3])
    told.hold((further.group(1) == "One more") == (end > 0), "one more or one before it")
    stops(told, further.group(2), fits.at(fits.many if end > 0 else -1))
    return chosen


def numbers(told, text, chosen):
    """Whether a list of names and numbers is that of the first counts."""
    shown = re.match(r"(.*?)( and [\d,]+ more)?$", text).group(1)
    found = [re.match(rf"(.*) ({NUMBER})$", part).groups() for part in re.split(r", (?=\D)", shown)]
    return [(told.number[name], value(number)) for name, number in found] == list(sorted(chosen.items()))[: len(found)]


def stops(told, text, would):
    """The bounds that the next numbers would break: just these, and none is left out."""
    broken = {(i, n, "below", told.bounds[i][0]) for i, n in would.items() if n < told.bounds[i][0]}
    broken |= {(i, n, "above", told.bounds[i][1]) for i, n in would.items() if n > told.bounds[i][1]}
    parts = text.split(", and ")
    more = re.match(r"([\d,]+) more counts past a bound$", parts[-1])
    if more:
        parts.pop()
    for part in parts:
        name, at, side, bound, sheet = re.match(rf"(.*) at ({NUMBER}), (below|above) ({NUMBER})(?: \((sheet \d+)\))?$", part).groups()
        stop = (told.number[name], value(at), side, value(bound))
        told.hold(stop in broken, f"'{part}' is no stop")
        told.hold((told.sheet_of(stop[0]) or "").split(" (")[0] == (sheet or ""), f"'{part}' has another sheet")
        broken.discard(stop)
    told.hold(len(broken) == (value(more.group(1)) if more else 0), "a stop is left out")


def only_one(told, g, fits, lines):
    """A group with one fit-out, and what leaves only it."""
    chosen = fits.at(0)
    told.hold(numbers(told, re.match(r"  One fit-out: (.*)\.$", lines[1]).group(1), chosen), "the only fit-out")
    joins, others = joins_of(told, fits.members)
    free = {i: (-LIMIT, LIMIT) for i in fits.members}
    what = rf"closes a ring with (?:lines?|ties?) .*|fixes (.*) at ({NUMBER})"
    by_tie = re.match(rf"  The tie (.*) = ({NUMBER}) \((?:line|tie) (\d+)\) (?:{what}), and leaves only this one\.$", lines[2])
    if by_tie:
        left, side, place, name, number = by_tie.groups()
        (tie,) = [told.ties[k] for k in others if (told.job.ties[k].line or k) == int(place)]
        told.hold(told.is_left_side(left, tie) and tie[4] == value(side), f"another tie: {lines[2]}")
        told.hold(judge.fits(fits.members, free, [*(told.ties[j] for j in joins), tie]).many == 1, "the tie leaves more than one")
        told.hold(judge.is_joining(tie) == (name is None), "a ring, or a tie on one count")
        if name is not None:
            told.hold(list(says(tie)) == [told.number[name]] and chosen[told.number[name]] == value(number), f"what is fixed: {lines[2]}")
        return chosen
    relaxed = judge.fits(fits.members, free, [told.ties[k] for k in joins])
    if lines[2] == "  Within ±1,000,000,000 the ties leave only this one.":
        told.hold(relaxed.many == 1, "the ties leave more than one")
        return chosen
    more, less = re.match(r"  One more would put (.*); one less would put (.*)\.$", lines[2]).groups()
    at = relaxed.at(0)[fits.members[0]], relaxed.at(1)[fits.members[0]] - relaxed.at(0)[fits.members[0]]
    k = (chosen[fits.members[0]] - at[0]) // at[1]
    told.hold(relaxed.at(k) == chosen, "the only fit-out is not in the family of its joins")
    stops(told, more, relaxed.at(k + 1))
    stops(told, less, relaxed.at(k - 1))
    return chosen


def joins_of(told, members):
    """The ties of a group that join what the ones before left apart, and the others."""
    joins, others = [], []
    for k, tie in enumerate(told.ties):
        if judge.home(tie) in members:
            before = judge.groups(len(told.bounds), told.ties[:k])
            is_ring = any(tie[0] in one and tie[1] in one for one in before)
            (joins if judge.is_joining(tie) and not is_ring else others).append(k)
    return joins, others


def untied(told, best, worths, lines):
    """The groups that are told together: untied counts alone, each in the line of its weight and of the bound at which it stands."""
    wanted, worth, many = {}, 0, 0
    for g, fits in enumerate(best):
        if g not in worths:
            i = fits.members[0]
            told.hold(len(fits.members) == 1 and all(judge.home(tie) != i for tie in told.ties), f"group {g} is not told")
            weight, (low, high) = told.job.counts[i].weight, told.bounds[i]
            worths[g] = weight * (low if weight < 0 else high)
            worth, many = worth + worths[g], many + 1
            kind = "above 0" if weight > 0 else "below 0" if weight else "0"
            wanted.setdefault((kind, "low" if weight < 0 and low < high else "high"), []).append(i)
    for line in lines[1:]:
        found = re.match(r"  ([\d,]+) with weight (above 0|below 0|0), at the (high|low)(?:: all are worth the same)?: (.*)$", line)
        if found:
            shown, more = told.names(found.group(4))
            members = wanted.pop((found.group(2), found.group(3)), [])
            told.hold(shown == members[: len(shown)] and len(shown) + more == len(members) == value(found.group(1)), line)
    told.hold(not wanted, f"untied counts are left out: {wanted}")
    told.hold(bool(lines) == bool(many), "the untied counts are told together, or not")
    told.hold(not lines or f"  worth {worth:,}" in lines and value(lines[0].split()[0]) == many, "how many untied counts, or their worth")


def total(told, last, worths, worth):
    """The last line: each summand is that of its group, and together they are the worth."""
    told.hold(sum(worths.values()) == worth, "the groups do not come to the worth")
    front = f"worth {worth:,} = "
    told.hold(last.startswith(front), "the worth of the last line")
    blocks = {g: one for g, one in worths.items() if f"group {g}: " in "\n".join(told.lines)}
    together = [sum(one for g, one in worths.items() if g not in blocks)] if len(blocks) < len(worths) else []
    parts = SUMMAND.findall(last.removeprefix(front).replace(" + ", " ").replace(" - ", " -"))
    found = 0
    for sign, size, group, untied_counts, others in parts:
        one = value(sign + size)
        found += one
        if group:
            told.hold(blocks.pop(int(group), None) == one, f"the worth of group {group} in the sum")
        elif untied_counts:
            told.hold(together and one == together.pop(), "the worth of the untied counts in the sum")
        else:
            told.hold(value(others) == len(blocks) + len(together), "how many others")
    told.hold(found == worth, "the sum of the last line")


# ---- no fit


def no_fit(told, count, tried=None):
    """The named rows: of the group, alone without a fit-out, and with one when any is left out, or when any of those tried is."""
    in_force(told)
    groups = judge.groups(len(told.bounds), told.ties)
    members = next(members for members in groups if judge.fits(members, told.bounds, told.ties) is None)
    told.hold(count == members[0], "the first group without a fit-out is another")
    title(told, groups.index(members), members, told.lines[1])
    told.hold(told.lines[0] == f"no fit at count {count}, the lowest of the first group without a fit-out.", "the first line")
    rows = [part(told, line) for line in told.lines[3:] if line.startswith("  ")]
    told.hold(all((judge.home(row[1]) if row[0] == "tie" else row[1]) in members for row in rows), "a row of another group")
    told.hold(not kept(told, members, rows), "the named rows have a fit-out")
    for row in rows[:: max(1, len(rows) // (tried or len(rows)))]:
        told.hold(kept(told, members, [other for other in rows if other != row]), f"{row} can be spared")
    if not told.lines[-2].startswith("  "):
        contradiction(told, members, rows, told.lines[-2])
    else:
        told.hold(all(row[0] == "tie" for row in rows), "what the others make of the count is not said")
    cure(told, members, rows[:: max(1, len(rows) // (tried or len(rows)))], told.lines[-1])


def part(told, line):
    """A named row: ('tie', tie), ('low', count) or ('high', count)."""
    found = re.match(rf"  (?:line (\d+)|tie (\d+)): (?:tie )?(.*) = ({NUMBER})$", line)
    if found:
        text_line, k, left, side = found.groups()
        rows = [told.ties[int(k)]] if k else [(t.left, t.right, t.a, t.b, t.c) for t in told.job.ties if t.line == int(text_line)]
        told.hold(rows[0][4] == value(side) and told.is_left_side(left, rows[0]), f"another tie stands at {line}")
        return "tie", rows[0]
    place, name, side, bound = re.match(rf"  (?:({SHEET}|line \d+): )?(.*) (at least|at most) ({NUMBER})$", line).groups()
    i, kind = told.number[name], "low" if side == "at least" else "high"
    own = f"line {told.job.counts[i].line}" if told.job.counts[i].line else None
    told.hold(told.bounds[i][kind == "high"] == value(bound), f"another bound: {line}")
    told.hold(place == (told.sheet_of(i) or own), f"another place: {line}")
    return kind, i


def kept(told, members, rows, extra=()):
    """Whether the group has numbers that keep these rows."""
    bounds = [(-LIMIT, LIMIT)] * len(told.bounds)
    for kind, i in [row for row in rows if row[0] != "tie"]:
        low, high = bounds[i]
        bounds[i] = (told.bounds[i][0], high) if kind == "low" else (low, told.bounds[i][1])
    for i, low, high in extra:
        bounds[i] = (max(bounds[i][0], low), min(bounds[i][1], high))
    ties = [row[1] for row in rows if row[0] == "tie"]
    return all(judge.fits(together, bounds, ties) for together in judge.groups(len(bounds), ties) if together[0] in members)


def cure(told, members, rows, line):
    """What the last line says of leaving out one row of the whole group."""
    ties = [("tie", tie) for tie in told.ties if judge.home(tie) in members]
    every = ties + [(kind, i) for i in members for kind in ("low", "high")]
    cured = [row for row in rows if kept(told, members, without(every, row))]
    if line in ("Without it the group has a fit-out.", "Without any one of them the group has a fit-out."):
        told.hold(cured == rows and ("it " in line) == (len(rows) == 1), line)
        return
    told.hold(cured != rows, "every removal would help")
    if line != "The group has other conflicts too: leaving out one of these alone gives it no fit-out.":
        front = r"The group has other conflicts too\. (?:One row|Any one of these rows) gives it a fit-out when left out: "
        first = re.split(r", (?=\D)| and [\d,]+ more$", re.match(rf"{front}(.*)\.$", line).group(1))[0]
        told.hold(kept(told, members, without(every, part(told, "  " + first))), f"it does not help: {first}")
    else:
        told.hold(not cured, "a removal would help")


def without(rows, row):
    """The rows with one of those equal to a row left out."""
    at = rows.index(row)
    return rows[:at] + rows[at + 1 :]


def contradiction(told, members, rows, line):
    """The line on how they contradict each other is true."""
    ties = [row[1] for row in rows if row[0] == "tie"]
    if line == "The low is above the high.":
        told.hold(not ties and len(rows) == 2 and rows[0][1] == rows[1][1], line)
        return
    if len(ties) < len(rows):
        name, end, number = re.match(rf"With the others (.*) is (at most |at least |)({NUMBER})\.$", line).groups()
        bound_line(told, members, rows, told.number[name], end, value(number))
        return
    found = re.match(r"Together the ties make (.*) = (.*), which is not whole\.$", line)
    if found:
        broken_line(told, ties, told.number[found.group(1)], fraction(found.group(2)))
        return
    tie_line(told, members, rows, line)


def bound_line(told, members, rows, i, end, number):
    """What the others make of a count: not more, or not less, just so much, and past the bound that is named."""
    is_most = number < told.bounds[i][0]
    bound = ("low" if is_most else "high", i)
    told.hold(bound in rows and (is_most or number > told.bounds[i][1]), f"{number} breaks no bound that is named")
    others = [row for row in rows if row != bound]
    told.hold(end != ("at least " if is_most else "at most "), "the wrong end")
    more, less = (kept(told, members, others, [(i, *ends)]) for ends in ((number + 1, LIMIT), (-LIMIT, number - 1)))
    told.hold(kept(told, members, others, [(i, number, number)]), f"the others do not let it be {number}")
    told.hold(not (more if is_most else less) and (more or less) == bool(end), f"the others do not make it {end}{number}")


def broken_line(told, ties, i, made):
    lines, (tie, *_) = judge.lines_of(sorted({i for tie in ties for i in says(tie)}), ties)
    start, slope = judge.along(tie, lines)
    told.hold(lines[i][0] + lines[i][1] * (tie[4] - start) / slope == made and made.denominator > 1, f"the ties do not make it {made}")


def tie_line(told, members, rows, line):
    """What the others leave of the left side of the last tie."""
    left, right, a, b, c = rows[-1][1]

    def reached(side):
        return kept(told, members, rows[:-1] + [("tie", (left, right, a, b, side))])

    front = "With the others " if len(rows) > 1 else ""
    subject, end = re.match(rf"{front}(.*?) (is .*|can be .*)\.$", line).groups()
    numbers = [value(found) for found in re.findall(NUMBER, end)]
    if end.startswith("is 0, and "):  # with every term, as it is written
        terms = [(a, left)] if left == right and b == 0 else [(a, left), (b, right)]
        told.hold(len(rows) == 1 and told.terms(subject) == terms and not added(terms) and numbers == [0, c] and c != 0, line)
        return
    told.hold(told.is_left_side(subject, rows[-1][1]), f"another tie: {line}")
    if end.startswith("is a multiple of"):
        factor, coefficients = numbers[0], [coefficient for coefficient, _ in told.terms(subject)]
        told.hold(len(rows) == 1 and not any(one % factor for one in coefficients) and c == numbers[1] and c % factor != 0, line)
    elif end.startswith("can be"):
        low, high = numbers
        between = range(low + 1, high) if high - low < 100 else [low + 1, low + 2, c, (low + high) // 2, high - 1]
        told.hold(low < c < high and reached(low) and reached(high) and not any(map(reached, between)), line)
    elif "at" in end:
        sign = 1 if "most" in end else -1
        told.hold((c - numbers[0]) * sign > 0 and reached(numbers[0]), line)
        told.hold(not any(reached(numbers[0] + sign * more) for more in (1, 2, 3, 60, 10**6) if abs(numbers[0] + more) < 2 * 10**15), line)
    else:
        told.hold(numbers[0] != c and reached(numbers[0]) and not any(reached(numbers[0] + k) for k in range(-30, 31) if k), line)


def fraction(text):
    """3 1/2, or a whole number."""
    sign, text = (-1, text[1:]) if text.startswith("-") else (1, text)
    return sign * sum(Fraction(part.replace(",", "")) for part in text.split())


# ---- refused


def refused(told, reason, row):
    told.hold(told.lines[0].startswith(f"refused, reason {reason}: "), "the reason")
    told.hold(len(told.lines) > 1, "no field is named")
    of_sheets = reason > 10 or reason == 5 and not any(is_wide(count) for count in told.job.counts)
    whose = "a sheet's " if of_sheets else "a count's "
    told.hold(reason != 5 or told.lines[0].startswith(f"refused, reason 5: {whose}"), "the job or its amendments")
    if of_sheets:
        told.hold(sheets.refusal(len(told.job.counts), told.packed) == (reason, row), "another reason, or another row")
        for line in told.lines[1:]:
            refused_sheet(told, reason, row, line)
        return
    for line in told.lines[1:]:
        field = re.match(rf"  (?:(.*) \(line (\d+)\)|line (\d+)): the (.*?),? is ({NUMBER}), and may be ", line)
        if reason == 5:
            count = told.job.counts[row]
            there = {"low": count.low, "high": count.high, "weight": count.weight}[field.group(4)]
            limit = 1_000_000 if field.group(4) == "weight" else LIMIT
            told.hold(told.number[field.group(1)] == row and count.line == int(field.group(2)) and there == value(field.group(5)), line)
            told.hold(abs(there) > limit and line.endswith(f"{-limit:,} to {limit:,}."), line)
        elif reason == 7:
            tie = told.job.ties[row]
            there, limit = {"a": (tie.a, 1_000_000), "b": (tie.b, 1_000_000), "c": (tie.c, 2 * 10**15)}[field.group(4)[-1]]
            told.hold(tie.line == int(field.group(3)) and there == value(field.group(5)), line)
            told.hold(abs(there) > limit and line.endswith(f"{-limit:,} to {limit:,}."), line)
        else:
            tie = told.job.ties[row]
            missing = re.match(rf"  line {tie.line}: there is no count c(\d+): ", line)
            told.hold(missing and int(missing.group(1)) in (tie.left, tie.right) and int(missing.group(1)) >= len(told.job.counts), line)


def is_wide(count):
    """Whether a field of a count is out of its range."""
    return max(abs(count.low), abs(count.high)) > LIMIT or abs(count.weight) > 1_000_000


def refused_sheet(told, reason, row, line):
    """A line on a sheet that is refused: it names the sheet and its place, and what it says of it is so."""
    sheet, words = re.fullmatch(rf"  ({SHEET}): (.*)\.", line).groups()
    number, old, count, _, low, high = told.rows[row]
    told.hold(sheet == told.sheet(row), f"another sheet: {line}")
    n, name, before = len(told.job.counts), told.job.name(count), told.rows[:row]
    if reason == 5:
        field, there = re.match(rf"the (low|high) is ({NUMBER}), and may be -1,000,000,000 to 1,000,000,000$", words).groups()
        told.hold(value(there) == {"low": low, "high": high}[field] and abs(value(there)) > LIMIT, line)
    elif reason == 13:
        other = re.fullmatch(rf"{re.escape(name)} has a sheet in force already, ({SHEET}): .*", words).group(1)
        first = next(t for t, one in enumerate(before) if one[2] == count and sheets.is_in_force(told.rows, t))
        told.hold(other == told.sheet(first), line)
    elif words.startswith("the number"):
        last = before[-1][0] if before else 0
        zero = words == "the number is 0, and may be 1 to 4,294,967,295" and number == 0
        told.hold(zero or number <= last and words.startswith(f"the number, {number}, is not above {last}, "), line)
    elif words.startswith("there is no count"):
        told.hold(count >= n and words.startswith(f"there is no count c{count}: "), line)
    else:
        why = re.fullmatch(
            rf"it supersedes sheet {old}, (which .*): it may supersede an earlier one for {re.escape(name)}, or none", words
        ).group(1)
        others = [told.job.name(one[2]) for one in before if one[0] == old]
        told.hold(why == (f"which is for {others[0]}" if others else "which does not stand before it") and name not in others, line)
