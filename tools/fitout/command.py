"""Words, messages and statuses of a command: 0, or 1 for what fails (a file, a program), or 2 for wrong arguments; a message on standard
error for both."""

import os
import signal
import sys


class Failure(Exception):
    """Something that cannot be read, built, asked or written; several messages where there are several faults."""

    def __init__(self, *messages):
        super().__init__("\n".join(messages))
        self.messages = messages


class WrongArguments(Exception):
    """A command that cannot be understood."""


def run(name, usage, act):
    """Run a command: act is given its words and gives its status; it may raise Failure and WrongArguments."""
    words = sys.argv[1:]
    try:
        before = words[: words.index("--")] if "--" in words else words
        if "--help" in before or "-h" in before:
            write(usage.strip() + "\n")
            return 0
        return act(words)
    except WrongArguments as wrong:
        say(name, wrong)
        say(name, f"{sys.argv[0]} --help tells how it is used")
        return 2
    except Failure as failure:
        for message in failure.messages:
            say(name, message)
        return 1
    except KeyboardInterrupt:
        return 130


def say(name, message):
    print(f"{name}: {message}", file=sys.stderr, flush=True)


def options(words, known):
    """The options among the words, as a set, and the other words. A lone - is no option, nor is what stands behind --. What is known as
    --job=JOB takes a value."""
    found, others, valued = set(), [], tuple(option[: option.index("=") + 1] for option in known if "=" in option)
    for place, word in enumerate(words):
        if word == "--":
            return found, others + words[place + 1 :]
        if not word.startswith("-") or word == "-":
            others.append(word)
        elif word in known or word.startswith(valued):
            found.add(word)
        else:
            raise WrongArguments(f"unknown option {word}: it takes {', '.join(known)} (a file of that name is ./{word})")
    return found, others


def value(found, option):
    """The value of an option that ends with =, or None where it is not among those found."""
    values = sorted(word.removeprefix(option) for word in found if word.startswith(option))
    if len(values) > 1:
        raise WrongArguments(f"wrong arguments: {option}{values[0]} and {option}{values[1]}, and it takes one")
    return values[0] if values else None


def files(others, most):
    """The files that a command is given: one, and so many at the most."""
    if not others:
        raise WrongArguments("wrong arguments: no file is given")
    if len(others) > most:
        raise WrongArguments(f"wrong arguments: '{others[most]}' is one file too many")
    return others


def write(data, target=None):
    """Write text or bytes to the file target, or to standard output: all of it, or a failure."""
    data = data.encode() if isinstance(data, str) else data
    try:
        with open(1, "wb", closefd=False) if target is None else open(target, "wb") as out:
            out.write(data)
    except BrokenPipeError:  # whoever reads has enough
        signal.signal(signal.SIGPIPE, signal.SIG_DFL)
        os.kill(os.getpid(), signal.SIGPIPE)
    except OSError as error:
        raise Failure(f"{target or 'standard output'}: cannot be written: {error.strerror}") from None
