"""What the checks of tools/export and tools/draw share: a tally, a command that is run, examples, pseudo-random jobs as text."""

import pathlib
import random
import subprocess
import sys

from fitout import amendments, planner, source

from . import random_jobs

ROOT = pathlib.Path(__file__).resolve().parents[2]
NAMES = ("cards", "extensions", "ringing units", "cords", "and", "let", "true", "E9", "Läutewerke", "trunk lines B2", "a_b", "früh")


class Tally:
    """Counts what passed, and shows what failed."""

    def __init__(self, label):
        self.label, self.passed, self.failed = label, 0, 0

    def tell(self, good, what):
        """Count a check; what it is, is shown where it failed."""
        if good:
            self.passed += 1
        else:
            self.failed += 1
            print(f"{self.label}: failed: {what}", flush=True)

    def end(self):
        print(f"{self.label}: {self.passed} passed, {self.failed} failed")
        return 1 if self.failed else 0


def run(words, given=b""):
    """A command in Python of the repository, run from its root: status, output, messages."""
    ran = subprocess.run([sys.executable, *words], input=given, capture_output=True, cwd=ROOT, check=False)
    return ran.returncode, ran.stdout, ran.stderr.decode()


def full_device(command):
    """The status and the messages of a command whose output cannot be written; None where the machine has no such device."""
    if not pathlib.Path("/dev/full").exists():
        return None
    with open("/dev/full", "wb") as full:
        ran = subprocess.run(command, stdout=full, stderr=subprocess.PIPE, cwd=ROOT, check=False)
    return ran.returncode, ran.stderr.decode()


def examples():
    """The texts of the examples as the words of a command: each job, and its amendments, as text or bytes, where there are any."""
    jobs = sorted(path for path in (ROOT / "examples").glob("*.txt") if not path.name.endswith(".amendments.txt"))
    sheets = [[path for path in (job.with_suffix(".amendments.txt"), job.with_suffix(".amendments")) if path.exists()] for job in jobs]
    return [[f"examples/{path.name}" for path in (job, *found[:1])] for job, found in zip(jobs, sheets)]


def example(names):
    """An example as it is read, and the planner's answer."""
    given = source.read(*(str(ROOT / name) for name in names))
    return given, planner.ask(given.data, given.amendments)


def refused_file(names, given):
    """The file of an example that the planner refuses: the job, where it refuses that alone, or the amendments."""
    return names[0] if planner.ask(given.data).kind == "refused" else names[-1]


def read(text):
    """The job of a text that has no faults."""
    return source.read_text(text.encode(), "a job of the check")[0]


# ---- small jobs, whose fit-outs a plain search finds


def small_job(chance):
    """Few counts with small ranges and a name or none, and some ties."""
    n = chance.randint(2, 5)
    names = [name if chance.random() < 0.6 else "" for name in chance.sample(NAMES, n)]
    numbers, lines = [], []
    for name in names:
        low = chance.randint(-6, 6)
        high = low + chance.randint(0, 9 if n < 4 else 5) - (chance.random() < 0.01) * 20
        numbers.append(chance.randint(low, max(low, high)))
        weight = chance.choice((0, chance.randint(-9, 9), chance.randint(-1000, 1000)))
        lines.append(f"count {name} {low}..{high} weight {weight}")
    called = [name or f"c{i}" for i, name in enumerate(names)]
    for _ in range(chance.randint(1, 5)):
        line = random_jobs.fixing_line if chance.random() < 0.3 else random_jobs.tie_line
        lines.append(line(chance, called, numbers, 4, 0.08))
    return "\n".join(lines) + "\n"


def small_jobs(seed, many):
    chance = random.Random(seed)
    return [small_job(chance) for _ in range(many)]


def small_sheets(chance, job):
    """The bytes of lawful sheets for a small job: for one count or two, with small ranges."""
    found, last = [], {}
    for number in range(1, chance.randint(1, 4) + 1):
        i = chance.choice((0, len(job.counts) - 1))
        low = job.counts[i].low + chance.randint(-3, 3)
        found.append(amendments.Sheet(number, last.get(i, 0), i, 0, low, low + chance.randint(-1, 8)))
        last[i] = number
    return amendments.packed(found)


def amended(chance, job):
    """A small job as it is read, in a third of all cases with amendments; and the planner's answer."""
    data = small_sheets(chance, job) if chance.random() < 0.33 else b""
    given = source.Source("a job", job.packed(), job, (), "sheets", data, amendments.unpacked(data, "sheets"))
    return given, planner.ask(given.data, data)


# ---- larger ones, by how they hang together


def joined(n, pairs, largest=3, seed=1, wrong=0.0, spread=50, fixing=0):
    """A job of n counts with a tie for each pair, and some that join nothing."""
    chance = random.Random(seed)
    numbers = [chance.randint(-spread, spread) for _ in range(n)]
    names = [f"{chance.choice(NAMES)} {chr(97 + i % 26)}{i}" if chance.random() < 0.3 else "" for i in range(n)]
    lines = []
    for name, number in zip(names, numbers):
        low, high = number - chance.randint(0, 9 * spread), number + chance.randint(0, 9 * spread)
        lines.append(f"count {name} {low}..{high} weight {chance.randint(-99, 99)}")
    called = [name or f"c{i}" for i, name in enumerate(names)]
    lines += [random_jobs.tie_line(chance, called, numbers, largest, wrong, pair) for pair in pairs]
    lines += [random_jobs.fixing_line(chance, called, numbers, largest, wrong) for _ in range(fixing)]
    return "\n".join(lines) + "\n"


def tree(n, rings, seed, back=0):
    """The pairs of a random tree, each count joined to one of the `back` counts before it or to any, and of some rings."""
    chance = random.Random(seed)
    pairs = [(chance.randint(max(0, i - back) if back else 0, i - 1), i) for i in range(1, n)]
    return pairs + [tuple(chance.sample(range(n), 2)) for _ in range(rings)]


def chain(n, rings=0, seed=1):
    return tree(n, rings, seed, back=1)


def star(n, centre=0):
    return [(centre, i) for i in range(n) if i != centre]


def fours(n):
    """Groups of four: chains and stars, some of them rings."""
    shapes = ([(0, 1), (1, 2), (2, 3)], [(0, 1), (0, 2), (0, 3)], [(0, 1), (1, 2), (2, 3), (3, 0)])
    return [(first + p, first + q) for first in range(0, n, 4) for p, q in shapes[first // 4 % 3]]
