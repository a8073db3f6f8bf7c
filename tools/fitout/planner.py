"""The proved planner, asked for a plan through the print program. What it prints are the fields of sheet and map, so everything is
read back from there."""

import os
import subprocess
from typing import NamedTuple

from . import build
from .command import Failure


class Number(NamedTuple):
    """A count on the sheet."""

    number: int
    base: int
    step: int
    group: int


class Family(NamedTuple):
    """A group on the sheet: how many fit-outs, which one is chosen, and what a step is worth."""

    fits: int
    at: int
    gain: int


class Map:
    """Of each count its group, of each tie its group and its kind: joins, ring or fixes."""

    def __init__(self):
        self.groups, self.tie_groups, self.kinds = [], [], []

    def members(self, group):
        return [i for i, g in enumerate(self.groups) if g == group]

    def ties(self, group):
        return [k for k, g in enumerate(self.tie_groups) if g == group]


class Answer:
    """One of planned (worth, counts, families), no fit (count), refused (reason, row); a map unless it is refused or not asked for."""

    def __init__(self, printed_lines):
        self.printed = printed_lines
        self.kind = ""
        self.worth, self.counts, self.families = 0, [], []
        self.count = 0
        self.reason = self.row = 0
        self.map = Map()


def printed(data, amendments=b"", with_map=False):
    """What the print program prints for these bytes of a job and of its amendments."""
    words = [str(build.program()), "map" if with_map else "plan"]
    try:
        ran = run_amended(words, data, amendments) if amendments else run(words, data)
    except OSError as error:
        raise Failure(f"the planner cannot be run: {error.strerror}") from None
    text = ran.stdout.decode("ascii", "replace")
    if ran.returncode != 0 or not text.endswith("\n"):
        raise Failure(f"the planner ended with status {ran.returncode} and no whole answer")
    return text


def run(words, data, files=()):
    return subprocess.run(words, input=data, stdout=subprocess.PIPE, pass_fds=files, check=False)


def run_amended(words, data, amendments):
    """The amendments are handed over as a file in memory."""
    file = os.memfd_create("amendments")
    try:
        with open(file, "wb", closefd=False) as out:
            out.write(amendments)
        return run([*words, f"/dev/fd/{file}"], data, [file])
    finally:
        os.close(file)


def has_fit(data):
    """Whether a job has a fit-out."""
    text = printed(data)
    if text.startswith("refused"):
        raise Failure(f"the planner refuses a part of the job: {text.strip()}")
    return text.startswith("worth")


def ask(data, amendments=b"", with_map=True):
    """The planner's answer, read back from its lines."""
    answer = Answer(printed(data, amendments, with_map))
    for line in answer.printed.splitlines():
        words = line.split()
        numbers = [int(word) for word in words if word.lstrip("-").isdigit()]
        match words:
            case ["worth", _]:
                answer.kind, answer.worth = "planned", numbers[0]
            case ["count", *_]:
                answer.counts.append(Number(*numbers[1:]))
            case ["group", *_]:
                answer.families.append(Family(*numbers[1:]))
            case ["no", "fit", *_]:
                answer.kind, answer.count = "no fit", numbers[0]
            case ["refused", *_]:
                answer.kind, (answer.reason, answer.row) = "refused", numbers
            case ["map", "count", *_]:
                answer.map.groups.append(numbers[1])
            case ["map", "equation", *_]:
                answer.map.tie_groups.append(numbers[1])
                answer.map.kinds.append(words[-1])
    return answer
