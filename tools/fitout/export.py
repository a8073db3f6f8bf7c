"""A job for other solvers: as an LP file, which GLPK and CBC read, and as SMT-LIB with z3's maximize."""

import re

from .job import NUMBER_LIMIT
from .wording import bounds_place, equation, number, plural, tie_place

WIDTH = 100  # readers of LP files take no line of more than some hundred letters


def wrapped(head, words, tail=""):
    """Words behind a head, on lines that are not too long."""
    lines = [head]
    for word in words:
        if len(lines[-1]) + 1 + len(word) > WIDTH:
            lines.append("  ")
        lines[-1] += " " + word
    return [*lines[:-1], lines[-1] + tail]


def names_of(job):
    """c2, or c2_ringing_units: letters that every reader takes, in words for which none has a meaning of its own."""
    named = [(f"c{i}", count.name) for i, count in enumerate(job.counts)]
    return [number if name in ("", number) else f"{number}_" + re.sub("[^A-Za-z0-9_]", "_", name) for number, name in named]


def about(job, answer, names):
    """What the file is and how its counts are called, for its head."""
    found = f"worth {number(answer.worth)}" if answer.kind == "planned" else f"no fit at count {answer.count}"
    return [
        f"A job of {plural(len(job.counts), 'count')} and {plural(len(job.ties), 'tie')}, written by Montebay's tools/export.",
        "Wanted: whole numbers within the bounds that keep every tie, of greatest worth.",
        f"The fit-out planner's answer: {found}.",
        *(f"{name}: {count.name}" for count, name in zip(job.counts, names) if not name.endswith(count.name)),
        *(f"{name}: its bounds are those of amendment sheet {count.sheet.number}" for count, name in zip(job.counts, names) if count.sheet),
    ]


# ---- LP


def lp_sum(terms):
    """Coefficients and names as the words of a sum."""
    words = [f"{'-' if coefficient < 0 else '+'} {abs(coefficient)} {name}" for coefficient, name in terms]
    return [words[0].removeprefix("+ "), *words[1:]]


def lp_ties(job, names):
    """The rows of the ties: each names a count, with the coefficient 0 where the tie says nothing of any."""
    lines = []
    for k, tie in enumerate(job.ties):
        if tie.line:
            lines.append(f"\\ {tie_place(job, k)}: {equation(job, tie)}")
        lines += wrapped(f" tie{k}:", lp_sum([(tie.terms().get(i, 0), names[i]) for i in tie.counts()]), f" = {tie.c}")
    return lines


def lp_bounds(job, names):
    """The rows and the bounds that keep every count from its low to its high. GLPK takes no bounds with the low above the high: these
    are rows."""
    rows, bounds = [], []
    for i, count in enumerate(job.counts):
        low, high = count.low, count.high
        if low > high:
            rows += [f" low{i}: {names[i]} >= {low}", f" high{i}: {names[i]} <= {high}"]
            low, high = -NUMBER_LIMIT, NUMBER_LIMIT
        bounds.append(f" {low} <= {names[i]} <= {high}")
    return rows, bounds


def lp(job, answer):
    """The job as an LP file."""
    names = names_of(job)
    rows, bounds = lp_bounds(job, names)
    rows = lp_ties(job, names) + rows
    weights = [(count.weight, name) for count, name in zip(job.counts, names)]
    notes = about(job, answer, names)
    if not rows:  # GLPK asks for a row
        rows, bounds, weights = [" none: nothing = 0"], [*bounds, " 0 <= nothing <= 0"], [*weights, (0, "nothing")]
        notes.append("There is no tie, and a file needs a row: so there is a column 'nothing', which is 0.")
    notes.append("Solvers that read this reckon in floating point, and can be wrong where numbers are large.")
    lines = [f"\\ {note}" for note in notes]
    lines += ["Maximize", *wrapped(" worth:", lp_sum(weights)), "Subject To", *rows, "Bounds", *bounds]
    return "\n".join([*lines, "General", *wrapped("", (name for _, name in weights)), "End", ""])


# ---- SMT-LIB


def smt_number(value):
    return str(value) if value >= 0 else f"(- {-value})"


def smt_term(coefficient, name):
    if abs(coefficient) == 1:
        return name if coefficient > 0 else f"(- {name})"
    return f"(* {smt_number(coefficient)} {name})"


def smt_sum(head, terms, tail):
    """A sum of (coefficient, name) between a head and a tail, as lines. A sum has two terms or more: fewer stand by themselves."""
    words = [smt_term(coefficient, name) for coefficient, name in terms]
    if len(words) < 2:
        return [f"{head} {''.join(words) or 0}{tail}"]
    return wrapped(f"{head} (+", words, f"){tail}")


def smt(job, answer):
    """The job as SMT-LIB 2."""
    names = names_of(job)
    lines = [f"; {note}" for note in about(job, answer, names)]
    lines += ["; z3 FILE solves it; (get-model) at the end shows the numbers too.", "(set-option :produce-models true)"]
    lines += [f"(declare-const {name} Int)" for name in names]
    for i, count in enumerate(job.counts):
        lines.append(f"(assert (<= {smt_number(count.low)} {names[i]} {smt_number(count.high)})) ; {bounds_place(job, i)}")
    for k, tie in enumerate(job.ties):
        terms = [(coefficient, names[i]) for i, coefficient in tie.terms().items()]
        lines += smt_sum("(assert (=", terms, f" {smt_number(tie.c)})) ; {tie_place(job, k)}")
    weights = [(count.weight, name) for count, name in zip(job.counts, names) if count.weight]
    return "\n".join([*lines, *smt_sum("(maximize", weights, ")"), "(check-sat)", "(get-objectives)", ""])
