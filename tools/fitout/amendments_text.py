"""The text of amendments.

A statement for each sheet, on a line of its own or with ; between them; # begins a comment:

    sheet NUMBER [supersedes NUMBER] count COUNT LOW..HIGH

    sheet 3 count cards 0..12
    sheet 7 supersedes 3 count cards 0..9

The numbers of the sheets rise from one to the next, from 1 at the least. COUNT is a count of the job by its number, 4 or c4, or by its
name where the job's text is at hand: in ./fitplan JOB AMENDMENTS, and with --job=JOB here. A sheet that supersedes another names an
earlier one for the same count; where it supersedes none the word is left out. A sheet that no other supersedes is in force: its low and
high take the place of the count's own. The weight stays.

Numbers are written, faults told, and what the planner would refuse packed with a warning, as in a job's text.
"""

from . import text
from .amendments import MOST_SHEETS, NUMBER_LIMIT, Sheet, breaches, in_force
from .job import turned_bounds
from .statement import NUMBERED, Fault, Field, Grammar, Reader, Statement, begins, is_number, lines_of, value_of

SHEET = Field("the sheet", 0, NUMBER_LIMIT, f"1 to {NUMBER_LIMIT:,}")
SUPERSEDED = Field("the superseded sheet", 0, NUMBER_LIMIT, f"1 to {NUMBER_LIMIT:,}, or 0 for none")
IN_JOB = "counts and ties stand in the job's text"
GRAMMAR = Grammar(
    begins=("sheet",),
    words=("sheet", "supersedes", "count"),
    reserved=(*text.WORDS, "supersedes"),
    compared="a sheet has a least and a most, as LOW..HIGH",
    elsewhere={"count": IN_JOB, "tie": IN_JOB},
)
MISPLACED = {
    "supersedes": "it stands before count: sheet 7 supersedes 3 count ..",
    "weight": "a sheet changes bounds alone, and the weight stays",
    ",": "a sheet is for one count, and a ; or a new line stands between sheets",
}


def misplaced(statement):
    """What stands in another place, or in a job's text alone."""
    if statement.next() in MISPLACED:
        raise Fault(f"{statement.shown()} is not expected here ({MISPLACED[statement.next()]})")


def count_of(statement):
    """A count's number, or its name."""
    is_low = statement.tokens[statement.at + 1 : statement.at + 2] == [".."]
    if is_number(statement.next()) and not is_low:
        return text.NUMBER.hold(value_of(statement.pop()))
    name = statement.name()
    if not name:
        raise Fault(f"a count, by its number or its name, is missing before {statement.shown()}")
    return name


class SheetReader(Reader):
    """Reads the sheets of a text that is called so in messages. The job says how its counts are called; why, what is said of a name
    where it has none, and None where names are not looked at."""

    def __init__(self, shown, job, why):
        super().__init__()
        self.shown, self.job, self.why = shown, job, why
        self.numbers = {count.name: i for i, count in enumerate(job.counts) if count.name} if job else {}
        self.sheets, self.lines = [], []

    def read(self, content):
        for line, _, statements in lines_of(content):
            for statement in statements:
                self.attempt(line, self.statement, statement)
        if not self.faults:
            self.warn()
        return tuple(self.sheets)

    def statement(self, line, content):
        """[sheet NUMBER [supersedes NUMBER] count COUNT LOW..HIGH]"""
        statement = Statement(content, GRAMMAR)
        if not statement.begin():
            return
        number = statement.number(SHEET)
        supersedes = statement.number(SUPERSEDED) if statement.take("supersedes") else 0
        if not statement.take("count"):
            raise Fault(f"'count' is missing before {statement.shown()}", statement.next(), GRAMMAR.words)
        count = count_of(statement)
        misplaced(statement)
        low, high = statement.bounds(text.LOW, text.HIGH)
        misplaced(statement)
        statement.end()
        count = self.number(count) if isinstance(count, str) else count
        self.sheets.append(Sheet(number, supersedes, count or 0, 0, low, high, f"line {line} of {self.shown}"))
        self.lines.append(line)

    def number(self, name):
        """The number of the count that is called so."""
        if name in self.numbers:
            return self.numbers[name]
        if NUMBERED.fullmatch(name):
            return text.NUMBER.hold(value_of(name[1:]))
        if self.numbers:
            raise Fault(f"there is no count '{name}'", name, self.numbers)
        if self.why is not None:
            raise Fault(f"there is no count '{name}': {self.why}")

    def warn(self):
        """What the planner would refuse; and a sheet in force that leaves no fit."""
        if len(self.sheets) > MOST_SHEETS:
            self.warning(self.lines[MOST_SHEETS], f"{len(self.sheets):,} sheets, and {MOST_SHEETS} are the most", 11)
        for row, breach in breaches(self.sheets, self.job):
            self.warning(self.lines[row], breach.words, breach.reason)
        force = set(in_force(self.sheets))
        for line, sheet in zip(self.lines, self.sheets):
            for words in turned_bounds(sheet) if sheet in force else ():
                self.warning(line, words)


def is_amendments(content):
    """Whether some line begins like one of amendments."""
    return begins(content, GRAMMAR.begins)


def read(content, shown, job, why):
    """The sheets, the faults and the warnings, each with its line and in the order of the lines."""
    reader = SheetReader(shown, job, why)
    sheets = reader.read(content)
    return sheets, *reader.told()
