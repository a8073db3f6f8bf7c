"""Amendments, read off their bytes by the words of the request, row by row and without a table: what is turned away, what is in force. A
row is (number, supersedes, count, zero, low, high)."""

import struct

LIMIT = 1_000_000_000


def rows_of(data):
    return list(struct.iter_unpack("<IIHHii", data))


def is_in_force(rows, t):
    """No other supersedes it."""
    return all(other[1] != rows[t][0] for other in rows)


def force(rows):
    """Of each count that has a sheet in force its place among the rows."""
    return {row[2]: t for t, row in enumerate(rows) if is_in_force(rows, t)}


def bounds_in_force(bounds, rows):
    found = force(rows)
    return [rows[found[i]][4:] if i in found else own for i, own in enumerate(bounds)]


def breaks_12(rows, t, n):
    number, old, count, *_ = rows[t]
    rises = number >= 1 and (t == 0 or rows[t - 1][0] < number)
    is_earlier = any((other[0], other[2]) == (old, count) for other in rows[:t])
    return not rises or count >= n or old != 0 and not is_earlier


def breaks_13(rows, t):
    before = [s for s in range(t) if rows[s][2] == rows[t][2] and is_in_force(rows, s)]
    return is_in_force(rows, t) and bool(before)


def refusal(n, data):
    """The reason and the row for which amendments to a job of n counts are turned away, or None: each reason over all rows in turn."""
    if len(data) % 20 or len(data) > 20 * 512:
        return 11, 0
    rows = rows_of(data)
    passes = [
        (11, lambda t: rows[t][3] != 0),
        (12, lambda t: breaks_12(rows, t, n)),
        (13, lambda t: breaks_13(rows, t)),
        (5, lambda t: max(map(abs, rows[t][4:])) > LIMIT),
    ]
    return next(((reason, t) for reason, breaks in passes for t in range(len(rows)) if breaks(t)), None)
