"""Proving and building with rt, with a line for each crate as it is proved."""

import os
import pathlib
import re
import subprocess
import sys
import time

from .command import Failure, say

ROOT = pathlib.Path(__file__).resolve().parents[2]
PROGRAM = ROOT / "crates/fitplan/out/fitplan"
# what rt prints when a crate has been checked: a line that names it, and then its verdict; nothing of a crate that has not changed
CHECKED = re.compile(r"crate (\w+): modules loaded=")
PROVED = "logic=proved "
UNCHANGED = "(unchanged since it was last proved)"


def program():
    """The print program, where it stands. fresh() has to have been called before."""
    return PROGRAM


def shown(path):
    """A path in the repository, as seen from where the command was given."""
    return os.path.relpath(ROOT / path)


def crates_under(name):
    """The repository's crates that a crate rests on, and itself last."""
    needs, found = {}, []
    for line in (ROOT / "crates.txt").read_text().splitlines():
        crate, colon, others = line.split("#")[0].partition(":")
        if colon:  # behind the name may stand what kind of crate it is
            needs[crate.split()[0]] = others.split()

    def visit(crate):
        if crate in needs and crate not in found:
            for other in needs[crate]:
                visit(other)
            found.append(crate)

    visit(name)
    return found


def prove(label, words, crate):
    """Run rt with these words in the crate's folder, keep what it prints in a log, and say each crate that is proved. Gives whether rt
    ended well, and the log's path in the repository."""
    if not any(os.access(os.path.join(folder, "rt"), os.X_OK) for folder in os.get_exec_path()):
        raise Failure("the planner has to be proved and built, and the Rattle kit's command rt is not on the PATH")
    crates, told, log, began = crates_under(crate), [], f"target/{label}.log", time.monotonic()
    say(label, f"{len(crates)} crates; to prove those that have changed can take minutes")
    try:
        (ROOT / "target").mkdir(exist_ok=True)
        out = open(ROOT / log, "w", encoding="utf-8")
    except OSError as error:
        raise Failure(f"cannot write to the folder {shown('target')}: {error.strerror}") from None

    def tell(names, how):
        for name in names:
            if name in crates and name not in told:
                told.append(name)
                say(label, f"{name} proved {how}, {len(told)} of {len(crates)}")

    where, streams = ROOT / "crates" / crate, {"stdin": subprocess.DEVNULL, "stdout": subprocess.PIPE, "stderr": subprocess.STDOUT}
    with out, subprocess.Popen(["rt", *words], cwd=where, **streams, text=True, errors="replace") as rt:
        name = ""
        for line in rt.stdout:
            out.write(line)
            found = CHECKED.match(line)
            name = found.group(1) if found else name
            if name and line.startswith(PROVED):
                tell(crates_under(name)[:-1], UNCHANGED)
                tell([name], f"({time.monotonic() - began:.0f} s)")
                name, began = "", time.monotonic()
    if rt.returncode == 0:
        tell(crates, UNCHANGED)
    return rt.returncode == 0, log


def show_log(log):
    """What rt printed: the prover's notes can run to thousands of characters a line."""
    for line in (ROOT / log).read_text(encoding="utf-8", errors="replace").splitlines():
        print(line[:1500], file=sys.stderr)


def is_current():
    """Whether the print program is there, and no file of code is newer."""
    if not os.access(PROGRAM, os.X_OK):
        return False
    built = PROGRAM.stat().st_mtime_ns
    sources = [ROOT / "crates.txt", *ROOT.glob("crates/*/src"), *ROOT.glob("crates/*/src/**/*")]
    return all(source.stat().st_mtime_ns <= built for source in sources)


def fresh():
    """Prove and build the print program where it is not there or is older than the code."""
    if is_current():
        return
    begun = time.time_ns()
    was_there = PROGRAM.exists()
    good, log = prove("fitplan", ["run", "--", "plan"], "fitplan")  # rt builds a program only to run it: on no input, which is refused
    if not good:
        show_log(log)
        PROGRAM.unlink(missing_ok=True)  # it may be there, and have failed its own run
        removed = "; the program that was built before is removed, since the code has changed" if was_there else ""
        raise Failure(
            f"the program could not be built{removed}",
            f"what stands above is in {shown(log)} too: mend what the first error names, and run the command again",
        )
    if not PROGRAM.exists():
        raise Failure("rt run ended well, and left no program")
    # a file of code that was changed during the build counts as newer
    os.utime(PROGRAM, ns=(begun, begun))
