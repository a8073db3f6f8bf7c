"""A refusal in words: the reason, the field, the value that stands there and what it may be."""

import struct

from . import amendments, planner
from .job import COUNT_LENGTH, HEADER_LENGTH, LONGEST, MARK, MOST_COUNTS, MOST_TIES, TIE_LENGTH, count_breaches, tie_breaches
from .wording import count_place, number, plural, tie_place

# of every reason that a planning call can give; the print program lends areas that are long enough, so it never gives 8 or 10
REASONS = {
    1: "the job is shorter than its header",
    2: "the job does not begin with its mark",
    3: "there are too many counts or ties",
    4: "the header does not describe these bytes",
    5: "a count's low, high or weight is out of range",
    6: "a tie names a count that is not there",
    7: "a tie's coefficient or right-hand side is out of range",
    8: "the area for the sheet is too short",
    10: "the area for the map is too short",
    11: "the amendments are not rows of 20 bytes, 512 at the most, each with a zero field of 0",
    12: "a sheet's number, its count or the sheet that it supersedes is not as it has to be",
    13: "two sheets for one count are in force",
}
IN_SHEET = {**REASONS, 5: "a sheet's low or high is out of range"}


def words(given, reason, row):
    """The lines that explain it."""
    if of_amendments(given, reason):
        return lines(reason, IN_SHEET, in_amendments(given, reason, row))
    told = {3: too_many, 5: in_count, 6: in_tie, 7: in_tie}.get(reason)
    return lines(reason, REASONS, told(given.job, reason, row) if told and given.job else in_header(given.data, reason))


def lines(reason, reasons, fields):
    return [f"refused, reason {reason}: {reasons.get(reason, 'no reason that this command knows')}.", *(f"  {field}." for field in fields)]


def too_many(job, reason, row):
    there = [("counts", len(job.counts), MOST_COUNTS), ("ties", len(job.ties), MOST_TIES)]
    return [f"There are {number(many)} {what}; {number(most)} are the most" for what, many, most in there if many > most]


def in_count(job, reason, row):
    place = f"{job.name(row)} ({count_place(job, row)})"
    return [f"{place}: {breach.words}" for breach in count_breaches(job.counts[row])]


def in_tie(job, reason, row):
    place = tie_place(job, row)
    return [f"{place}: {breach.words}" for breach in tie_breaches(job, job.ties[row]) if breach.reason == reason]


def in_header(data, reason):
    if reason == 1:
        return [f"There are {number(len(data))} bytes; the header alone has {HEADER_LENGTH}"]
    if reason == 2:
        return [f"Bytes 0 to 3 are {as_text(data[:4])}; they have to be {as_text(MARK)}"]
    n, m = struct.unpack_from("<HH", data, 4)
    if reason == 3:
        fields = [("Bytes 4 and 5, the number of counts,", n, MOST_COUNTS), ("Bytes 6 and 7, the number of ties,", m, MOST_TIES)]
        return [f"{what} say {number(value)}; it may be 0 to {number(most)}" for what, value, most in fields if value > most]
    return laid_out_wrong(data, n, m)


def laid_out_wrong(data, n, m):
    """Of reason 4: every field of the header that is not as the numbers of rows ask."""
    start = HEADER_LENGTH + COUNT_LENGTH * n
    length = start + TIE_LENGTH * m
    wanted = [
        ("Bytes 8 to 11, the offset of the count rows,", HEADER_LENGTH),
        ("Bytes 12 to 15, the offset of the tie rows,", start),
        ("Bytes 16 to 19, the length,", length),
        ("Bytes 20 to 23", 0),
    ]
    fields = zip(struct.unpack_from("<IIII", data, 8), wanted)
    rows = f"{number(n)} counts and {number(m)} ties"
    wrong = [f"{what} say {number(value)}; with {rows} it has to be {number(right)}" for value, (what, right) in fields if value != right]
    if len(data) != length:
        there = f"more than {number(LONGEST)}" if len(data) > LONGEST else number(len(data))
        wrong.append(f"There are {there} bytes; {rows} take {number(length)}")
    return wrong


def of_amendments(given, reason):
    """Whether a reason is given for the amendments. 5 is given for both, and for the job's own rows first: the planner is asked for the
    job alone."""
    return reason in (11, 12, 13) or reason == 5 and bool(given.amendments) and planner.ask(given.data).kind != "refused"


def in_amendments(given, reason, row):
    length, sheets = len(given.amendments), given.sheets
    if reason == 11 and len(sheets) > amendments.MOST_SHEETS:
        return [f"There are {number(len(sheets))} sheets; {amendments.MOST_SHEETS} are the most"]
    if reason == 11 and length > amendments.LONGEST:
        most = f"{amendments.MOST_SHEETS} sheets, of {amendments.ROW.size} bytes each, are the most"
        return [f"There are more than {number(amendments.LONGEST)} bytes; {most}"]
    if reason == 11 and length % amendments.ROW.size:
        rest = f"behind {plural(len(sheets), 'whole sheet')} there is a rest of {length % amendments.ROW.size}"
        return [f"The length is {number(length)}, which is not a multiple of {amendments.ROW.size}: {rest}"]
    breaches = [breach for at, breach in amendments.breaches(sheets, given.job) if at == row and breach.reason == reason]
    return [f"{sheets[row].words()}: {breach.words}" for breach in breaches]


def as_text(data):
    """Four bytes, as letters where they are."""
    shown = " ".join(f"{byte:02x}" for byte in data)
    return f"'{data.decode()}' ({shown})" if data.isascii() and data.decode().isprintable() else shown
