"""Numbers, ties and lists of names, in words."""


def number(value):
    return f"{value:,}"


def plural(many, one, more=""):
    """1 tie, 2 ties"""
    return f"{many:,} {one if many == 1 else more or one + 's'}"


def listed(words, most=6):
    """The first words of a list, and how many more there are."""
    words = list(words)
    if len(words) <= most:
        return ", ".join(words)
    return ", ".join(words[: most - 1]) + f" and {len(words) - most + 1:,} more"


def signed_sum(terms):
    """Terms with their signs as a sum: (-1, '30 x 3'), (1, '4 x 48') is -30 x 3 + 4 x 48."""
    text = ""
    for sign, term in terms:
        if text:
            text += " - " if sign < 0 else " + "
        elif sign < 0:
            text += "-"
        text += term
    return text or "0"


def term(job, coefficient, count):
    size = abs(coefficient)
    return (-1 if coefficient < 0 else 1, job.name(count) if size == 1 else f"{number(size)} {job.name(count)}")


def left_side(job, tie):
    """What a tie says of its counts: 16 cards - extensions; of a count that is named twice the sum, and 0 where nothing remains."""
    return signed_sum(term(job, coefficient, count) for count, coefficient in tie.terms().items())


def equation(job, tie):
    """A tie as its text has it, brought together: 16 cards - extensions = 0."""
    return f"{left_side(job, tie)} = {number(tie.c)}"


def as_written(job, tie):
    """The left side with every term of the row: 3 cards - 3 cards."""
    terms = [(tie.a, tie.left), (tie.b, tie.right)]
    if tie.left == tie.right and not tie.b:  # so a tie with one term is packed
        terms.pop()
    return signed_sum(term(job, coefficient, count) for coefficient, count in terms)


def tie_place(job, k):
    """Where tie k stands: its line in the text, or its number."""
    line = job.ties[k].line
    return f"line {line}" if line else f"tie {k}"


def tie_places(job, ks, most=6):
    """Where several ties stand: lines 5, 6."""
    places = [tie_place(job, k).split() for k in ks]
    return f"{places[0][0]}{'s' if len(places) > 1 else ''} {listed((place for _, place in places), most)}"


def count_place(job, i):
    line = job.counts[i].line
    return f"line {line}" if line else f"count {i}"


def bounds_place(job, i):
    """Where the bounds of a count stand: with the count, or on a sheet."""
    sheet = job.counts[i].sheet
    return f"sheet {sheet.number}" if sheet else count_place(job, i)
