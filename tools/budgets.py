"""How many minutes of a processor each part of `./prove` and the proof of each crate may take: tools/budget.txt. `./prove` compares, and
fails what is above its budget by a third, so that growth is decided and not met. `tools/budget` prints the file from a log. What a run
of `--all` may take in all is decided too: the lines of the file may not come to more, and a log does not change it.

Machines differ, and a processor that two programs share is slower for both. So a fixed loop is timed by the processor's own clock each
minute of a run; the file says how long it took where the figures come from, and what was measured is scaled by the ratio of the two. One
machine may be twice as fast at the loop and no faster at proofs: so what was measured is above its budget only if it is both as it is
and scaled."""
import os
import re
import statistics
import time

HERE = os.path.dirname(os.path.realpath(__file__))
FILE = os.path.join(HERE, "budget.txt")
LOOP = "loop"
# What is above its budget by more than this fails.
SPARE = 4 / 3
# A part that takes less is too short to be judged by a third.
LEAST = 0.5
UNKNOWN = "?"
TOTAL = "total"
# What `./prove` runs, and `--all` within another part.
NOT_OF_ALL = {"part tests of the pool", "part the first command of the README"}
ROW = re.compile(r"\| ((?:crate|part) .+?) \| ([\d.]+) \| ([\d.]+) \|")
SECONDS = re.compile(r"A fixed loop took ([\d.]+) seconds here")
TICKS = os.sysconf("SC_CLK_TCK")


def loop():
    """The seconds of a processor that the fixed loop takes."""
    begun = time.thread_time()
    number, places = 0, {}
    for _ in range(300_000):
        number = (number * 1_103_515_245 + 12_345) & 0xFFFFFFFF
    for index in range(100_000):
        places[index * 7919 % 100_003] = index
    sorted(places.values(), key=lambda it: -it)
    return time.thread_time() - begun


def read(text):
    """The minutes of each part and crate, None where nobody has measured them, and the seconds of the loop."""
    lines = [line.partition("#")[0].rpartition(":") for line in text.splitlines()]
    found = {name.strip(): None if minutes.strip() == UNKNOWN else float(minutes) for name, colon, minutes in lines if colon}
    return found, found.pop(LOOP)


def of_file():
    with open(FILE, encoding="utf-8") as file:
        return read(file.read())


def total_of(minutes):
    """What a run of `--all` takes by these, as far as they are known."""
    return sum(it for name, it in minutes.items() if it is not None and name not in {TOTAL, *NOT_OF_ALL})


class Speed:
    """How slow this machine is while it is looked at."""

    def __init__(self):
        self.seen = [loop()]

    def look(self):
        self.seen.append(loop())

    def seconds(self):
        return statistics.median(self.seen)


def begun_by(number):
    """The processes that some thread of a process has begun."""
    try:
        for thread in os.listdir(f"/proc/{number}/task"):
            with open(f"/proc/{number}/task/{thread}/children", encoding="ascii") as file:
                yield from [int(it) for it in file.read().split()]
    except OSError:
        return


def processes_below(number):
    """The processes that a process has begun, and those that they have."""
    for it in begun_by(number):
        yield it
        yield from processes_below(it)


def seconds_of(number):
    """What a process has had of the processors, with those that it has begun and that have ended."""
    try:
        with open(f"/proc/{number}/stat", encoding="utf-8", errors="replace") as file:
            fields = file.read().rpartition(")")[2].split()
    except OSError:
        return 0.0
    return sum(int(it) for it in fields[11:15]) / TICKS


def crate_of(number):
    """The crate that a process of the prover is for, if it is one."""
    try:
        with open(f"/proc/{number}/cmdline", "rb") as file:
            words = file.read().split(b"\0")
    except OSError:
        return None
    return words[words.index(b"--crate-name") + 1].decode() if b"--crate-name" in words else None


class Meter:
    """What the proof of each crate has had of the processors so far, below a process of `rt ci`."""

    def __init__(self):
        self.seconds = {}

    def look(self, number):
        """A process of the prover begins others, of the same crate: their time is its own once they have ended."""
        for below in processes_below(number):
            crate = crate_of(below)
            if crate and self.is_first(below, crate):
                now = seconds_of(below) + sum(seconds_of(it) for it in processes_below(below))
                self.seconds[crate, below] = max(now, self.seconds.get((crate, below), 0.0))

    @staticmethod
    def is_first(number, crate):
        try:
            with open(f"/proc/{number}/stat", encoding="utf-8", errors="replace") as file:
                return crate_of(int(file.read().rpartition(")")[2].split()[1])) != crate
        except OSError:
            return False

    def minutes(self):
        """Those of each crate."""
        found = {}
        for (crate, _), seconds in self.seconds.items():
            found[crate] = found.get(crate, 0.0) + seconds / 60
        return found


class Row:
    """What was measured of a part or a crate, beside its budget."""

    def __init__(self, name, minutes, scale, budget):
        self.name, self.minutes, self.scaled, self.budget = name, minutes, minutes / scale, budget
        self.is_above = budget is not None and min(self.minutes, self.scaled) > max(budget * SPARE, LEAST)

    def line(self):
        budget = UNKNOWN if self.budget is None else f"{self.budget:.1f}"
        return f"| {self.name} | {self.minutes:.1f} | {self.scaled:.1f} | {budget} |{' ABOVE' * self.is_above}"


def rows(measured, speed, budget=None, is_whole=False):
    """A row for each of what was measured, by name; and where that is of a whole run of `--all`, one of what has a budget in all."""
    allowed, seconds = budget or of_file()
    if is_whole:
        measured = {**measured, TOTAL: total_of({name: it for name, it in measured.items() if allowed.get(name) is not None})}
    return [Row(name, minutes, speed / seconds, allowed.get(name)) for name, minutes in measured.items()]


def table(found, speed):
    """The lines of the last page. `tools/budget` reads them."""
    yield f"\nA fixed loop took {speed:.3f} seconds here; the budget is of a machine where it takes {of_file()[1]:.3f}, as is what is scaled."
    yield "\n| Minutes of a processor | Measured | Scaled | Budget |\n|---|---|---|---|"
    yield from (it.line() for it in found)


def from_log(text):
    """The lines of the file, of what the log has, and as they were of what it has not."""
    with open(FILE, encoding="utf-8") as file:
        before = file.read()
    seen = {name: scaled for name, _, scaled in ROW.findall(text)}
    for line in before.splitlines():
        name, colon, _ = line.partition("#")[0].rpartition(":")
        yield f"{name}: {seen.pop(name)}" if colon and name in seen else line
    yield from (f"{name}: {minutes}" for name, minutes in seen.items())
