"""Amendments to a job: sheets with other bounds for a count. Their bytes, which of them are in force, the job so amended, and what the
planner does not take (docs/FORMAT.md)."""

import struct
from typing import NamedTuple

from .job import MOST_COUNTS, NUMBERS, Breach, missing, outside

ROW = struct.Struct("<IIHHii")
MOST_SHEETS = 512
LONGEST = ROW.size * MOST_SHEETS  # the bytes of the most sheets
NUMBER_LIMIT = 2**32 - 1


class Sheet(NamedTuple):
    number: int
    supersedes: int  # 0 for none
    count: int
    zero: int
    low: int
    high: int
    place: str = ""  # line 3 of late.txt; row 2 of late.amendments where it was given as bytes

    def words(self):
        return f"sheet {self.number} ({self.place})"


def packed(sheets):
    return b"".join(ROW.pack(*sheet[:6]) for sheet in sheets)


def unpacked(data, shown):
    """The sheets of all whole rows, from the file that is called so."""
    rows = ROW.iter_unpack(data[: len(data) - len(data) % ROW.size])
    return tuple(Sheet(*fields, f"row {row} of {shown}") for row, fields in enumerate(rows))


def in_force(sheets):
    """Those that no other supersedes, be it in force itself or not."""
    superseded = {sheet.supersedes for sheet in sheets}
    return [sheet for sheet in sheets if sheet.number not in superseded]


def amended(job, sheets):
    """The job with the bounds of the sheets in force; the weights stay."""
    counts = list(job.counts)
    for sheet in in_force(sheets):
        if sheet.count < len(counts):
            counts[sheet.count] = counts[sheet.count]._replace(low=sheet.low, high=sheet.high, sheet=sheet)
    return job._replace(counts=tuple(counts))


# ---- what the planner does not take


def breaches(sheets, job=None):
    """Each field that is wrong, with the row of its sheet. Without the job it is not known which counts there are."""
    wrong = out_of_order(sheets, job)
    wrong = wrong or doubled(sheets, job)  # where a number is wrong, it is not known what is in force
    for row, sheet in enumerate(sheets):
        if sheet.zero:
            wrong.append((row, Breach(11, f"bytes 10 and 11 say {sheet.zero:,}, and have to be 0")))
        wrong += [(row, breach) for breach in outside(5, [("the low", sheet.low, NUMBERS), ("the high", sheet.high, NUMBERS)])]
    return wrong


def out_of_order(sheets, job):
    """Of reason 12: numbers that do not rise, counts that are not there, and what is superseded."""
    wrong, before, earlier = [], 0, {}
    for row, sheet in enumerate(sheets):
        found = wrong_number(sheet, before) + wrong_count(sheet, job) + wrong_superseded(sheet, earlier, job)
        wrong += [(row, breach) for breach in found]
        before = sheet.number
        earlier.setdefault(sheet.number, {})[sheet.count] = True
    return wrong


def wrong_number(sheet, before):
    """before: the number of the sheet before it, 0 for the first."""
    if not sheet.number:
        return [Breach(12, f"the number is 0, and may be 1 to {NUMBER_LIMIT:,}")]
    if sheet.number <= before:
        return [Breach(12, f"the number, {sheet.number}, is not above {before}, that of the sheet before it: numbers have to rise")]
    return []


def wrong_count(sheet, job):
    if job:
        return missing(12, job, [sheet.count])
    most = f"a job has c0 to c{MOST_COUNTS - 1} at the most"
    return [Breach(12, f"there is no count c{sheet.count}: {most}")] if sheet.count >= MOST_COUNTS else []


def wrong_superseded(sheet, earlier, job):
    """earlier: the counts of the sheets before it, by their numbers."""
    counts, old = earlier.get(sheet.supersedes, {}), sheet.supersedes
    if not old or sheet.count in counts:
        return []
    why = f"which is for {called(job, next(iter(counts)))}" if counts else "which does not stand before it"
    return [Breach(12, f"it supersedes sheet {old}, {why}: it may supersede an earlier one for {called(job, sheet.count)}, or none")]


def doubled(sheets, job):
    """Of reason 13: each sheet in force behind another for its count."""
    wrong, first, force = [], {}, set(in_force(sheets))
    for row, sheet in enumerate(sheets):
        if sheet in force and sheet.count in first:
            other = f"{called(job, sheet.count)} has a sheet in force already, {first[sheet.count].words()}"
            wrong.append((row, Breach(13, f"{other}: let this one supersede it, or leave one of the two out")))
        elif sheet in force:
            first[sheet.count] = sheet
    return wrong


def called(job, count):
    return job.name(count) if job else f"c{count}"
