"""The text of a job.

A statement for each count and for each tie, on a line of its own or with ; between them; # begins a comment:

    count [NAME] LOW..HIGH [weight NUMBER] [times NUMBER]
    tie SUM = SUM [times NUMBER]

    count cards 6..20 weight -30
    count extensions 0..200 weight 4
    tie 16 cards - extensions = 0        or   tie extensions = 16 cards
    tie 3 cards = 12

Counts are numbered from 0 in the order of their statements, and can be called by number too: c0, c1. A name has one word or several
(ringing units): letters, digits and _, a letter first. A weight not given is 0. Several counts or ties can share a statement, with a
comma between them, and counts alike can share their bounds: count cards, cords 0..9, spares 2..5. With times N a count or tie stands
for N rows, and a name gets their numbers: cards1, cards2.

A tie has one term or two, on either side of its =; plain numbers may stand there too: tie extensions = 16 cards + 4. A coefficient
stands before its count, 16 cards, 16*cards, 16·cards, and may be 0; those of a count that is named twice are added up. A tie is packed as
it is read from the left: the count of its first term is the row's left count, and a tie with one term has that as its right count too, with
b = 0. Numbers are whole, and may be grouped by threes: 1,000,000 or 1_000_000.

A fault stops the packing; all faults are told at once, each with its line. What the planner would refuse is packed all the same, with
a warning: a number has to fit its field, and need not be in its range (docs/FORMAT.md).
"""

import re

from .job import COEFFICIENTS, MOST_COUNTS, MOST_TIES, NUMBERS, SIDES, WEIGHTS, Count, Job, Tie
from .job import count_breaches, range_text, tie_breaches, turned_bounds
from .statement import BETWEEN, NUMBERED, Fault, Field, Grammar, Reader, Statement, begins, is_number, lines_of, value_of
from .wording import listed

COUNTED = re.compile(r"\bcount\s+((?:[^\W\d]\w*[ ,]*)+)")
MOST_LETTERS = 40  # of a name
WORDS = ("count", "tie", "weight", "times")
GRAMMAR = Grammar(
    begins=("count", "tie"),
    words=WORDS,
    reserved=WORDS,
    compared="ties are equations, with one =; a least and a most stand in a count, as LOW..HIGH",
    elsewhere={"sheet": "amendments are a text of their own"},
)

LOW = Field("the low", -(2**31), 2**31 - 1, range_text(NUMBERS))
HIGH = Field("the high", -(2**31), 2**31 - 1, range_text(NUMBERS))
WEIGHT = Field("the weight", -(2**31), 2**31 - 1, range_text(WEIGHTS))
COEFFICIENT = Field("a coefficient", -(2**31), 2**31 - 1, range_text(COEFFICIENTS))
SIDE = Field("the right-hand side", -(2**63), 2**63 - 1, range_text(SIDES))
NUMBER = Field("the number of a count", 0, 2**16 - 1, f"0 to {MOST_COUNTS - 1}")
TIMES = Field("times", 0, 2**16 - 1, "0 to 65,535")
MOST_ROWS = 2**16 - 1  # that the header can tell


# ---- counts


def names_of(statement):
    """NAME {, NAME}, or nothing"""
    names = [statement.name()]
    while names[-1] and statement.take(","):
        names.append(statement.name())
        if not names[-1]:
            raise Fault(f"a name is missing before {statement.shown()}")
    if statement.next() in WORDS:
        raise Fault(f"LOW..HIGH is missing before {statement.shown()}, which cannot be a word of a name")
    return names


def counts_of(statement, line):
    """[NAME {, NAME}] LOW..HIGH [weight NUMBER] [times NUMBER]"""
    names = names_of(statement)
    low, high = statement.bounds(LOW, HIGH)
    given = {}
    while statement.next() in ("weight", "times") and statement.next() not in given:
        word = statement.pop()
        given[word] = statement.number(WEIGHT if word == "weight" else TIMES)
    weight, times = given.get("weight", 0), given.get("times")
    if times is not None and any(names):
        names = [name + str(i) for name in names for i in range(1, times + 1)]
    elif times is not None:
        names = [""] * times
    return [Count(low, high, weight, name, line) for name in names]


# ---- ties


class Sums:
    """Both sides of a tie, brought together on the left: its terms, and its plain numbers on the right."""

    def __init__(self):
        self.terms = []  # (coefficient, name)
        self.number = 0

    def add(self, statement, side):
        """One term, or a plain number, with its sign; side is -1 right of the =."""
        sign = side * statement.sign()
        digits = statement.pop() if is_number(statement.next()) else ""
        if digits:
            statement.take("*")
        name = statement.name()
        if name and statement.next() == "*":
            raise Fault(f"a coefficient stands before its count: 16 {name}, and not {name} * 16")
        if name:
            self.terms.append((COEFFICIENT.hold(sign * value_of(digits or "1")), name))
        elif digits:
            self.number -= sign * value_of(digits)
        else:
            raise Fault(f"a count or a number is missing before {statement.shown()}")

    def add_side(self, statement, side):
        self.add(statement, side * statement.sign())
        while statement.next() in ("+", "-"):
            self.add(statement, side * statement.sign())


def tie_of(statement):
    """SUM = SUM [times NUMBER], as the sums and how many rows."""
    sums = Sums()
    sums.add_side(statement, 1)
    if not statement.take("="):
        raise Fault(f"'=' is missing before {statement.shown()}")
    sums.add_side(statement, -1)
    SIDE.hold(sums.number)
    return sums, statement.number(TIMES) if statement.take("times") else 1


def row_of(terms):
    """Left, right, a and b of a tie's row: one term has its count on both sides, so that the row names no other."""
    if not terms:
        raise Fault("a tie names one count or two, as in 3 c0 = 12 or 16 c0 = c1, and this one names none")
    if len(terms) > 2:
        alike = " (add up those of one count)" if len({number for _, number, _ in terms}) < len(terms) else ""
        raise Fault(f"a tie has at most two terms, and this one has {len(terms):,}: {listed(name for _, _, name in terms)}{alike}")
    (a, left, _), (b, right, _) = terms if len(terms) == 2 else (terms[0], (0, *terms[0][1:]))
    return left, right, a, b


# ---- the whole text


class JobReader(Reader):
    """Reads the counts and the ties of a job's text."""

    def __init__(self):
        super().__init__()
        self.counts, self.read_ties, self.ties = [], [], []
        self.numbers = {}  # of the names
        self.spoiled = set()  # names on faulty lines: that a tie uses one is no fault of its own
        self.called = {}  # all these names

    def read(self, text):
        for line, content, statements in lines_of(text):
            before = len(self.faults)
            for statement in statements:
                self.attempt(line, self.statement, statement)
            if len(self.faults) > before:
                names = {" ".join(name.split()) for found in COUNTED.findall(content) for name in found.split(",")}
                self.spoiled |= names
                self.called |= dict.fromkeys(sorted(names))
        for line, sums, times in self.read_ties:
            self.attempt(line, self.tie, sums, times)
        if not self.faults:
            self.warn()
        return Job(tuple(self.counts), tuple(self.ties))

    def statement(self, line, text):
        statement = Statement(text, GRAMMAR)
        word = statement.begin()
        counts, ties, goes_on = [], [], bool(word)
        while goes_on:
            if statement.next() in ("count", "tie"):
                raise Fault(f"{statement.shown()} is not expected here{BETWEEN}")
            if word == "count":
                alike = counts_of(statement, line)
                counts, times = counts + alike, len(alike)
            else:
                sums, times = tie_of(statement)
                ties.append((line, sums, times))
            if not times:
                self.warning(line, "times 0 leaves this out")
            goes_on = statement.take(",")
        statement.end()
        self.read_ties += ties
        for count in counts:
            self.count(count)

    def count(self, count):
        if len(self.counts) == MOST_ROWS:
            raise Fault(f"more than {MOST_ROWS:,} counts do not fit the header's field")
        number = len(self.counts)
        if len(count.name) > MOST_LETTERS:
            raise Fault(f"a name has at most {MOST_LETTERS} letters: '{count.name[:20]}...'")
        if NUMBERED.fullmatch(count.name) and count.name != f"c{number}":
            raise Fault(f"{count.name} is what count {count.name[1:]} is called by its number: this is count {number}")
        if count.name in self.numbers:
            other = self.counts[self.numbers[count.name]].line
            raise Fault(f"there is a count '{count.name}' already, on line {other}")
        if count.name:
            self.numbers[count.name] = self.called[count.name] = number
        self.counts.append(count)

    def number(self, line, name):
        """The number of the count that is called so; None where its own line is faulty."""
        if name in self.numbers:
            return self.numbers[name]
        if NUMBERED.fullmatch(name):
            return NUMBER.hold(value_of(name[1:]))
        if name in self.spoiled or name.rstrip("0123456789") in self.spoiled:
            return None
        words = name.split()
        if len(words) > 1 and all(word in self.numbers or NUMBERED.fullmatch(word) for word in words):
            raise Fault(f"+ or - is missing between {' and '.join(words)}")
        raise Fault(f"there is no count '{name}'", name, self.called)

    def tie(self, line, sums, times):
        terms = [(coefficient, self.attempt(line, self.number, name), name) for coefficient, name in sums.terms]
        if any(number is None for _, number, _ in terms):
            return
        row = row_of(terms)
        if len(self.ties) + times > MOST_ROWS:
            raise Fault(f"more than {MOST_ROWS:,} ties do not fit the header's field")
        self.ties += [Tie(*row, sums.number, line)] * times

    def warn(self):
        """What the planner would refuse; and a tie that says nothing of any count."""
        job = Job(tuple(self.counts), tuple(self.ties))
        for what, rows, most in (("counts", self.counts, MOST_COUNTS), ("ties", self.ties, MOST_TIES)):
            if len(rows) > most:
                self.warning(rows[most].line, f"{len(rows):,} {what}, and {most:,} are the most", 3)
        for count in self.counts:
            for breach in count_breaches(count):
                self.warning(count.line, breach.words, breach.reason)
        for tie in dict.fromkeys(self.ties):
            for breach in tie_breaches(job, tie):
                self.warning(tie.line, breach.words, breach.reason)
            if not tie.terms():
                self.warning(tie.line, f"the tie says 0 = {tie.c:,}, which {'leaves no fit' if tie.c else 'always holds'}")


def turned(job):
    """A warning for each count of a text whose own bounds are in force, the low above the high; with its line."""
    return {(count.line, words) for count in job.counts if count.line and not count.sheet for words in turned_bounds(count)}


def is_job(text):
    """Whether some line begins like one of a job."""
    return begins(text, GRAMMAR.begins)


def read(text):
    """The job, the faults and the warnings, but for those of turned, each with its line and in the order of the lines."""
    reader = JobReader()
    job = reader.read(text)
    return job, *reader.told()
