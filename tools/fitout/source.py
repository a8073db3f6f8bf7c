"""A job from a file or from standard input, with amendments or without: each as text, or as bytes. Which of the two it is, its content
says."""

import os
import re
import stat
from typing import NamedTuple

from . import amendments, amendments_text, text
from .command import Failure, WrongArguments
from .job import LONGEST, MARK, Job, unpacked

MOST_TEXT = 1 << 20  # 1,280 rows or 512 sheets and their comments take less by far
MOST_FAULTS = 1000  # that are shown
CONTROL = re.compile(rb"[\x00-\x08\x0e-\x1f\x7f]")
FIRST = "the job comes first, and amendments behind it"
NAMELESS = "call the count by its number, as c0"


class Kind(NamedTuple):
    """What a file has: how it is called in messages, how long its bytes can be, what they have at which place, how a line of its text
    begins, and a word of that in UTF-16."""

    what: str
    whose: str
    longest: int
    at: int
    mark: bytes
    begins: re.Pattern
    wide: re.Pattern

    def is_packed(self, data):
        """Whether these are its bytes, by their mark."""
        return data[self.at : self.at + 4] == self.mark


BEGINS = rb"(?m)^(\xef\xbb\xbf)?[ \t]*(%b)\b"
JOB = Kind("a job", "job's", LONGEST, 0, MARK, re.compile(BEGINS % b"count|tie"), re.compile(rb"c\0o\0u\0n\0t\0|t\0i\0e\0 \0"))
# the first sheet of amendments supersedes none
AMENDMENTS = Kind(
    "amendments", "amendments'", amendments.LONGEST, 4, bytes(4), re.compile(BEGINS % b"sheet"), re.compile(rb"s\0h\0e\0e\0t\0")
)


class Source(NamedTuple):
    """A job's bytes; the job itself, unless its header is faulty; and the amendments that come with it. How both are called in
    messages. The warnings are by line, until all is read."""

    shown: str
    data: bytes
    job: Job | None
    warnings: tuple = ()
    sheets_shown: str = ""
    amendments: bytes = b""
    sheets: tuple = ()

    def amended(self):
        """The job with the bounds in force."""
        return amendments.amended(self.job, self.sheets)


def read(name, sheets=None):
    """The job in a file, or on standard input where the name is -; with the amendments in another, where one is given."""
    if name == sheets == "-":
        raise WrongArguments("wrong arguments: standard input has the job or the amendments, and not both")
    given, wrong = attempted(read_job, name)
    told = ()
    if sheets is not None:
        found, more = attempted(read_sheets, sheets, given)
        wrong += more
        given, told = found or (None, ())
    if wrong:
        raise Failure(*wrong)
    own = {*given.warnings, *text.turned(given.amended())} if given.job else ()
    return given._replace(warnings=(*warned(given.shown, own), *told))


def attempted(act, *words):
    """What is read, and no message; or nothing, and all messages on why it cannot be."""
    try:
        return act(*words), ()
    except Failure as failure:
        return None, failure.messages


def read_job(name):
    data, shown = content(name, JOB)
    if not data:
        raise Failure(f"{shown}: is empty")
    if not is_text(data, JOB):
        return Source(shown, data[: LONGEST + 1], unpacked(data))
    job, warnings = job_text(data, shown, FIRST)
    return Source(shown, job.packed(), job, warnings)


def read_sheets(name, given):
    """The job with its amendments, and the warnings on these. Where the job cannot be read, none of its names is known."""
    data, shown = content(name, AMENDMENTS)
    if not data:
        return given, (f"{shown}: warning: is empty, which is no amendments",)
    if not is_text(data, AMENDMENTS):
        sheets, warnings = sheet_bytes(data, shown), ()
    else:
        job = given.job if given else None
        sheets, warnings = sheet_text(data, shown, job, nameless(given), FIRST)
        data = amendments.packed(sheets)
    return given and given._replace(sheets_shown=shown, amendments=data[: amendments.LONGEST + 1], sheets=sheets), warned(shown, warnings)


def nameless(given):
    """What is said of a name where the job has none."""
    if given is None:
        return None
    if given.job and not given.job.counts:
        return "the job has no counts"
    is_text = given.job and given.job.counts[0].line
    return f"{'the job names none of its counts' if is_text else 'a job that is given as bytes has no names'}: {NAMELESS}"


# ---- bytes


def content(name, kind):
    """The bytes of a file, as far as they can be needed, and how it is called in messages."""
    shown = "standard input" if name == "-" else name
    try:
        if name != "-" and stat.S_ISDIR(os.stat(name).st_mode):
            raise Failure(f"{shown}: is a directory, not {kind.what}")
        with open(0, "rb", closefd=False) if name == "-" else open(name, "rb") as file:
            data = file.read(kind.longest + 1)
            # of what is longer than the longest that is lawful so much settles the answer
            return (data + file.read(MOST_TEXT + 1) if is_text(data, kind) else data), shown
    except OSError as error:
        raise Failure(f"{shown or 'the file without a name'}: cannot be read: {error.strerror}") from None


def is_text(data, kind):
    """What has not the mark of its bytes, and has no bytes that no text has; or begins a line as its text does."""
    if kind.is_packed(data):
        return False
    return not CONTROL.search(data) or bool(kind.begins.search(data)) or is_utf_16(data, kind)


def is_utf_16(data, kind):
    if data[:2] not in (b"\xff\xfe", b"\xfe\xff"):
        return bool(kind.wide.search(data))
    decoded = data[: len(data) & ~1].decode("utf-16", "replace")
    return all(letter.isprintable() or letter in "\r\n\t" for letter in decoded)


def sheet_bytes(data, shown):
    """The sheets in bytes that are not those of a job: no job has the form of lawful amendments."""
    if unpacked(data):
        raise Failure(f"{shown}: has the bytes of a job, and not amendments: {FIRST}")
    return amendments.unpacked(data, file_name(shown))


def file_name(shown):
    """The last part of a path, in letters that can be written."""
    return "".join(letter if letter.isprintable() else "?" for letter in os.path.basename(shown))


# ---- text


def job_text(data, shown, remedy):
    """The job that a text describes, and its warnings by line; a failure with all its faults. remedy: what is said where it has
    amendments."""
    decoded = decoded_text(data, shown, JOB)
    if amendments_text.is_amendments(decoded) and not text.is_job(decoded):
        raise Failure(f"{shown}: has amendments, and not a job: {remedy}")
    job, faults, warnings = text.read(decoded)
    if len(faults) > 3 and not text.is_job(decoded):
        raise Failure(f"{shown}: is not a job: no line begins with count or tie (tools/pack --help tells how a job is written)")
    hold_faultless(shown, faults)
    return job, warnings


def sheet_text(data, shown, job, why, remedy):
    """The sheets that a text describes, and their warnings by line; a failure with all its faults. job and why as the reader has them;
    remedy: what is said where it has a job."""
    decoded = decoded_text(data, shown, AMENDMENTS)
    if text.is_job(decoded) and not amendments_text.is_amendments(decoded):
        raise Failure(f"{shown}: has a job, and not amendments: {remedy}")
    sheets, faults, warnings = amendments_text.read(decoded, file_name(shown), job, why)
    if len(faults) > 3 and not amendments_text.is_amendments(decoded):
        raise Failure(f"{shown}: has no amendments: no line begins with sheet (tools/pack --help tells how they are written)")
    hold_faultless(shown, faults)
    return sheets, warnings


def decoded_text(data, shown, kind):
    if is_utf_16(data, kind):
        raise Failure(f"{shown}: is text in UTF-16: save it as UTF-8")
    if len(data) > MOST_TEXT:
        raise Failure(f"{shown}: is longer than {MOST_TEXT:,} bytes, and no {kind.whose} text is")
    data = data.removesuffix(b"\x1a")  # which ends a file of old
    control = CONTROL.search(data)
    if control:
        line, byte = data.count(b"\n", 0, control.start()) + 1, control.group()[0]
        raise Failure(f"{shown}:{line}: byte {byte:#04x} stands there, which no text has")
    try:
        return data.decode("utf-8-sig")
    except UnicodeDecodeError as error:
        line = data.count(b"\n", 0, error.start) + 1
        raise Failure(f"{shown}:{line}: is not text in UTF-8: byte {data[error.start]:#04x}") from None


def hold_faultless(shown, faults):
    """A failure with all faults, where there are any."""
    if faults:
        told = [f"{shown}:{line}: {fault}" for line, fault in faults[:MOST_FAULTS]]
        more = [f"{shown}: and {len(faults) - MOST_FAULTS:,} more faults"] if len(faults) > MOST_FAULTS else []
        raise Failure(*told, *more)


def warned(shown, warnings):
    """Warnings by line, in words."""
    return tuple(f"{shown}:{line}: warning: {words}" for line, words in sorted(warnings))


def read_text(data, shown, remedy=FIRST):
    """The job that a text describes, and its warnings in words; a failure with all its faults."""
    job, warnings = job_text(data, shown, remedy)
    return job, warned(shown, {*warnings, *text.turned(job)})
