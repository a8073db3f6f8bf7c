"""Pseudo-random jobs as text: named and not, planned, without a fit-out, and faulty; and amendments to them."""

NAMES = ("cards", "extensions", "ringing units", "cords", "Klappen", "trunk lines B2", "a_b", "Weckrufe früh", "spares", "E9", "left")
LIMIT = 1_000_000_000


def numbers_near(chance, spread):
    return [chance.randint(-spread, spread) for _ in range(chance.choice((1, 2, 2, 3, 3, 4, 5, 6, 9)))]


def count_line(chance, name, hidden, width):
    """Bounds about the hidden number: tight, one-sided, wide or, now and then, without it."""
    low, high = hidden - chance.randint(0, width), hidden + chance.randint(0, width)
    kind = chance.random()
    if kind < 0.15:
        low, high = -LIMIT, LIMIT
    elif kind < 0.25:
        low = -LIMIT
    elif kind < 0.35:
        high = LIMIT
    elif kind < 0.42:
        low = hidden + chance.randint(1, 3)
    weight = chance.choice((0, chance.randint(-9, 9), chance.randint(-1_000_000, 1_000_000)))
    return f"count {name} {low}..{high} weight {weight}".replace("  ", " ")


def tie_line(chance, called, hidden, largest, wrong=0.15, pair=None):
    """A tie between two counts that the hidden numbers keep, but for the share of those that are wrong."""
    left, right = pair or chance.sample(range(len(hidden)), 2)
    a, b = (chance.choice((-1, 1)) * chance.randint(1, largest) for _ in range(2))
    return tie_text(chance, called, hidden, [(a, left), (b, right)], wrong)


def fixing_line(chance, called, hidden, largest, wrong=0.15):
    """A tie that joins nothing, likewise: with one term, with a coefficient 0, or with one count twice."""
    one, other = (chance.randrange(len(hidden)) for _ in range(2))
    a, b = (chance.choice((-1, 1)) * chance.randint(1, largest) for _ in range(2))
    forms = [[(a, one)], [(a, one)], [(a, one), (0, other)], [(0, other), (a, one)], [(a, one), (b, one)], [(a, one), (b, one)]]
    nothing = [[(0, one)], [(0, one), (0, other)], [(a, one), (-a, one)]]
    return tie_text(chance, called, hidden, chance.choice(forms if chance.random() < 0.85 else nothing), wrong)


def tie_text(chance, called, hidden, terms, wrong):
    side = sum(coefficient * hidden[i] for coefficient, i in terms) + (chance.random() < wrong) * chance.randint(-4, 4)
    if chance.random() < 0.02 and wrong:  # out of reach for every number, whatever the bounds
        most = LIMIT * sum(abs(coefficient) for coefficient, _ in terms)
        side = min(3 * most, 2_000_000_000_000_000) * chance.choice((-1, 1))
    return f"tie {' + '.join(f'{coefficient} {called[i]}' for coefficient, i in terms)} = {side}"


def lawful(chance):
    """A job that is not refused: of up to 90 counts, with rings, and in half of the jobs with ties that join nothing."""
    hidden = numbers_near(chance, chance.choice((5, 40, 1000)))
    if chance.random() < 0.05:
        hidden = hidden * chance.choice((3, 10))
    width, largest = chance.choice(((0, 1), (3, 2), (12, 4), (40, 9), (5000, 1000), (10**8, 10**6)))
    names = chance.sample(NAMES, min(len(hidden), len(NAMES))) + [""] * len(hidden)
    names = [name if chance.random() < 0.5 else "" for name in names[: len(hidden)]]
    called = [name or f"c{i}" for i, name in enumerate(names)]
    lines = [count_line(chance, name, number, width) for name, number in zip(names, hidden)]
    share = chance.choice((0, 0, 0.15, 0.5)) if len(hidden) > 1 else 1
    for _ in range(chance.randint(0, len(hidden) + 2)):
        lines.append((fixing_line if chance.random() < share else tie_line)(chance, called, hidden, largest))
    return "\n".join(lines) + "\n"


def frame(chance, n, m, is_long):
    """A frame of one group whose first count is held above its last: with rings across it, or without any short way round."""
    lines = [f"count {5 if i == 0 else -1000}..{4 if i == n - 1 else 1000}" for i in range(n)]
    pairs = [(i, i + 1) for i in range(n - 1)]
    while len(pairs) < m:
        i = chance.randrange(n - 1)
        pairs.append((i, i + 1) if is_long else tuple(chance.sample(range(n), 2)))
    return "\n".join(lines + [f"tie c{i} = c{j}" for i, j in pairs]) + "\n"


def faulty(chance):
    """A lawful job with one field out of its range."""
    lines = lawful(chance).splitlines()
    high, many = chance.choice((LIMIT + 1, 2**31 - 1)), sum(line.startswith("count") for line in lines)
    lines.insert(
        chance.randint(0, len(lines)),
        chance.choice(
            (
                f"count extra 0..{high}",
                f"count extra {-high}..0",
                f"count extra 0..1 weight {chance.choice((-1, 1)) * chance.randint(1_000_001, 2_000_000)}",
                f"tie c0 + {chance.choice((0, 1))} c{many + chance.randint(0, 3)} = 1",
                f"tie 2 c{many + chance.randint(0, 3)} = 1",
                f"tie {chance.choice((1_000_001, -1_000_001))} c0 + c{many - 1} = 1",
                f"tie {chance.choice((1_000_001, -1_000_001))} c0 = 1",
                f"tie c0 + c{many - 1} = {chance.choice((-1, 1)) * 2_000_000_000_000_001}",
            )
        ),
    )
    return "\n".join(lines) + "\n"


# ---- amendments, as sheets (number, supersedes, count, low, high)


def bounds_near(chance, low, high, width):
    """Bounds near others, tighter or wider, or without an end; now and then the low above the high."""
    low, high = (max(-LIMIT, min(LIMIT, end + chance.randint(-width, width))) for end in (low, high))
    kind = chance.random()
    if kind < 0.1:
        low = -LIMIT
    elif kind < 0.2:
        high = LIMIT
    elif kind < 0.23 and low > -LIMIT:
        low, high = high, low - 1
    return low, high


def sheets(chance, job):
    """Lawful sheets: each for a count that has none yet, or in place of the last one for it."""
    found, last, number, n = [], {}, 0, len(job.counts)
    counts = [chance.randrange(n) for _ in range(chance.choice((1, 2, 3)) if n < 10 else n)]
    for _ in range(chance.randint(1, 10 if n < 10 else 2 * n)):
        number, i = number + chance.choice((1, 1, 2, 1000)), chance.choice(counts)
        found.append((number, last.get(i, 0), i, *bounds_near(chance, job.counts[i].low, job.counts[i].high, chance.choice((1, 4, 30)))))
        last[i] = number
    return found


def faulty_sheets(chance, job):
    """Lawful sheets, with one or two changes that are most often not."""
    found, n = sheets(chance, job), len(job.counts)
    for _ in range(chance.choice((1, 1, 2))):
        at = chance.randrange(len(found))
        number, old, i, low, high = found[at]
        wide, next_number = chance.choice((-LIMIT - 1, LIMIT + 1, -(2**31), 2**31 - 1)), found[-1][0] + 1
        if chance.random() < 0.35:
            found[at] = (number, old, i, *chance.choice(((wide, high), (low, wide))))
            continue
        more = [
            (next_number, 0, i, low, high),
            (next_number, number, i, low, high),
            (next_number, number, (i + 1) % n, low, high),
            (next_number, next_number + chance.randint(0, 1), i, low, high),
            (next_number, 0, n + chance.randint(0, 3), low, high),
            (chance.choice((0, number)), 0, i, low, high),
        ]
        found.insert(chance.choice((at, len(found), len(found))), chance.choice(more))
    return found


def sheets_text(chance, job, found):
    """The sheets as text, with comments between them; counts by name or by number."""
    lines = []
    for number, old, i, low, high in found:
        count = chance.choice((job.name(i), f"c{i}", str(i)))
        lines.append(f"sheet {number} {f'supersedes {old} ' if old else ''}count {count} {low}..{high}")
        lines += ["# by letter"] * (chance.random() < 0.1)
    return "\n".join(lines) + "\n"
