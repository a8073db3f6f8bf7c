"""A job that the planner takes, with its answer: what can be explained, exported and drawn."""

from . import build, planner, refusal, source
from .command import Failure, say


def read(label, *names):
    """The job in a file, with the bounds of the amendments in another in force where there is one, and the planner's answer; a failure
    with the reason in words where it refuses the two. Warnings are said under the label."""
    given = source.read(*names)
    build.fresh()
    answer = planner.ask(given.data, given.amendments)
    if answer.kind == "refused":
        shown = given.sheets_shown if refusal.of_amendments(given, answer.reason) else given.shown
        first, *others = refusal.words(given, answer.reason, answer.row)
        raise Failure(f"{shown}: {first}", *others)
    for warning in given.warnings:
        say(label, warning)
    return amended(given, answer), answer


def amended(given, answer):
    """The job with the bounds in force, of which the planner's answer with a map is given. It has to give the same for that job
    without amendments."""
    job = given.amended()
    if given.sheets and planner.printed(job.packed(), with_map=True) != answer.printed:
        raise Failure("the bounds taken for those in force are not the planner's: this is a fault of the command, not of the job")
    return job
