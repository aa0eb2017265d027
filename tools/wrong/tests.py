"""The wrong bodies that tests refuse: they are made in a copy of the repository, and their tests are run there, without proof. A body
passes where each test that it names saw it, and passes with the right bodies. Most are tried over one program for each folder of tests
(batch.py); one that is no body of a function is compiled alone, for each of its tests."""
import collections
import os
import re
import sys
import tempfile
import time
from concurrent.futures import ThreadPoolExecutor

HERE = os.path.dirname(os.path.realpath(__file__))
sys.path.insert(0, os.path.dirname(HERE))
import batch
import copies
import form
import refusals
import trying

# What drops a value twice, in a program above the libraries that were changed, or in a program that was. That is told beside such errors
# of theirs, after all others of theirs, and before code is made of them, which would take half of the time.
ABOVE = "above_bodies"
PROGRAM = """//! Above what was changed.
#![tactic(auto)]

fn main(rt: HostRuntime) {
    drops_twice(String::new(rt.alloc()));
}
"""
LATE_ERROR = """
fn drops_twice(dropped_twice: String) {
    drop(dropped_twice);
    drop(dropped_twice);
}
"""
# Tests look at the clock: so no more of them run at once than half of the processors.
AT_ONCE = max(len(os.sched_getaffinity(0)) // 2, 1)
# What `rt try` ends with.
ENDS = {6: "did not end", 4: "stopped at a fault"}


def put(copy, texts):
    for (crate, file), text in texts.items():
        copies.write(os.path.join(copy.crate(crate), file), text)


class Made:
    """A copy with some bodies made in it, as long as it is entered."""

    def __init__(self, copy, spots):
        self.copy, self.right = copy, form.Crates(copy.folder)
        self.wrong = self.right.with_spots(spots)

    def __enter__(self):
        put(self.copy, self.wrong)

    def __exit__(self, *_):
        put(self.copy, {place: self.right.of(place[0])[place[1]] for place in self.wrong})


def ran(copy, folder, test):
    """What became of the test: passed, failed, did not end, or what `rt` said in place of an answer."""
    status, said = copy.run_tests(folder, only=test)
    came = copies.outcomes(said)
    if test in came:
        return "passed" if came[test] == "ok" else "failed"
    if "test result: ok. 0 passed" in said:
        return "names no test"
    return ENDS.get(status, "gave no answer:\n" + said.strip()[-2000:])


def ran_refused(copy, test):
    """What became of the test where something is refused: passed, failed, or what was said in place of an answer."""
    case = test.removeprefix("in_turn::")
    built = refusals.Refusals(copy, [case])
    if not built.is_built():
        return "gave no answer:\n" + built.said.strip()[-2000:]
    _, broken = refusals.Before(copy.aside).threads(built.words(case))
    return "failed" if broken or built.memory(case) else "passed"


def try_alone(copy, body):
    """Whether each of its tests saw it, where it is compiled for each of them."""
    spots, why = body.spots(form.Crates(copy.folder))
    if why:
        print(f"{body.name}: {why}", flush=True)
        return False
    with Made(copy, spots):
        came = [(it, ran(copy, *it)) for it in body.names("test")] + [(it, ran_refused(copy, *it)) for it in body.names("refusal")]
    return told_of(body, came)


def told_of(body, came):
    """Whether all of its tests saw it, of which this became; one that did not is told."""
    unseen = [(test, what) for test, what in came if what not in ("failed", *ENDS.values())]
    print(f"{body.name}: {len(came) - len(unseen)} of {len(came)} tests saw it", flush=True)
    for test, what in unseen:
        print(f"    {' '.join(test)}: {what}", flush=True)
    return not unseen


class Trial:
    """Bodies that are tried together, over one program for each folder of tests."""

    def __init__(self, copy, made):
        self.copy, self.made, self.programs = copy, made, {}

    def compile(self, kept, bodies):
        """A program for each folder that these name; those of which there is none are said."""
        put(self.copy, {place: text for place, text in self.made.texts().items()})
        tests = collections.defaultdict(set)
        for body in bodies:
            for folder, test in body.names("test"):
                tests[folder].add(test)
        for folder in sorted(tests, key=lambda it: -len(tests[it])):
            begun, path = time.monotonic(), os.path.join(kept, folder)
            with copies.only_what_they_need(self.copy.folder, folder, tests[folder]):
                said = batch.compile_together(self.copy, folder, path, kept, "--test")
            if said:
                print(f"{folder}: not compiled with all bodies in it:\n{said[-3000:]}", flush=True)
                continue
            self.programs[folder] = batch.Program(path)
            print(f"{folder}: compiled, {time.monotonic() - begun:.0f} s", flush=True)
        return tests

    def run_right(self, folder, test):
        """Whether the test passes with the right bodies; how long it takes then is known from now on."""
        came, seconds = self.programs[folder].run(0, test)
        self.programs[folder].seconds[test] = seconds
        if came != "passed":
            print(f"{folder} {test}: {came} with the right bodies", flush=True)
        return came == "passed"

    def run(self, body):
        """What became of each of its tests."""
        return [(it, self.programs[it[0]].run(self.made.numbers[body.name], it[1])[0]) for it in body.names("test")]


def try_together(copy, bodies):
    """Those of the bodies that not each of their tests saw, and those that are to be tried alone."""
    made = batch.Bodies(form.Crates(copy.folder), bodies)
    alone, together = list(made.alone), [it for it in bodies if it.name in made.numbers]
    trial = Trial(copy, made)
    with tempfile.TemporaryDirectory(prefix="bodies-") as kept, ThreadPoolExecutor(AT_ONCE) as workers:
        tests = trial.compile(kept, together)
        compiled = [it for it in together if all(test[0] in trial.programs for test in it.names("test"))]
        alone += [it for it in together if it not in compiled]
        named = sorted({tuple(test) for it in compiled for test in it.names("test")})
        right = dict(zip(named, workers.map(lambda it: trial.run_right(*it), named)))
        seen = list(workers.map(lambda it: told_of(it, trial.run(it)), compiled))
    wrong = {" ".join(it) for it, is_right in right.items() if not is_right}
    return [it.name for it, is_seen in zip(compiled, seen) if not is_seen or any(" ".join(test) in wrong for test in it.names("test"))], alone


def of_tests(names=()):
    """The bodies that tests or schedules are to see, or those of them with these names."""
    found = [it for it in form.bodies(copies.TOP) if not it.is_seen_by("prover") and it.name in (names or [it.name])]
    unknown = set(names) - {it.name for it in found}
    if unknown:
        sys.exit(f"wrong/ has no {min(unknown)} that a test is to see")
    return found


def try_tests(names):
    """How many passed, and which did not."""
    bodies = [it for it in of_tests(names) if it.names("test") or it.names("refusal")]
    with copies.copied() as copy:
        refusals_of = [it for it in bodies if it.names("refusal")]
        failed, alone = try_together(copy, [it for it in bodies if it not in refusals_of])
    with copies.copied() as copy:
        failed += [it.name for it in alone + refusals_of if not try_alone(copy, it)]
    return len(bodies), failed


def said_of(copy, group):
    """What is said where these do not compile together; nothing where they do."""
    changed = {it.crate for _, spots in group for it in spots}
    programs = [crate for crate in sorted(changed) if os.path.exists(main_of(copy, crate))]
    if changed - set(programs):
        copy.put_program(ABOVE, PROGRAM, sorted(changed - set(programs)))
        programs.append(ABOVE)
    with Made(copy, [it for _, spots in group for it in spots]):
        said = "\n".join(filter(None, [said_in(copy, program) for program in programs]))
    return said or None


def main_of(copy, crate):
    return os.path.join(copy.crate(crate), "src", "main.rt")


def said_in(copy, program):
    """What is said of a program and of what it stands on, but for the error that is put in."""
    path = main_of(copy, program)
    text = open(path, encoding="utf-8").read()
    copies.write(path, text + LATE_ERROR)
    _, said = copy.runs.run(trying.command(), cwd=copy.crate(program), env={**os.environ, "TMPDIR": copy.aside})
    copies.write(path, text)
    errors = re.findall(r".*error\[.*", said)
    return None if len(errors) == 1 and "`dropped_twice`" in errors[0] else said.strip()[-2000:]


def those_not_compiled(copy, group):
    """Those of them that do not compile. Where they do not together, each half is tried: one may only be at odds with another."""
    said = said_of(copy, group)
    if said is None:
        print(f"{len(group)} compile", flush=True)
        return []
    if len(group) == 1:
        print(f"{group[0][0]}: {said}", flush=True)
        return [group[0][0]]
    half = len(group) // 2
    return those_not_compiled(copy, group[:half]) + those_not_compiled(copy, group[half:])


def groups(made):
    """Puts those together that change other words than one another."""
    found = []
    for name, spots in made:
        fits = lambda group: all(it.is_apart(other) for it in spots for _, others in group for other in others)
        home = next((group for group in found if fits(group)), None)
        if home is None:
            found.append([(name, spots)])
        else:
            home.append((name, spots))
    return found


def compile_all(names):
    """How many compile, and which do not."""
    bodies, failed = of_tests(names), []
    with copies.copied() as copy:
        crates, made = form.Crates(copy.folder), []
        for body in bodies:
            spots, why = body.spots(crates)
            if why:
                print(f"{body.name}: {why}", flush=True)
                failed.append(body.name)
            else:
                made.append((body.name, spots))
        for group in groups(made):
            failed += those_not_compiled(copy, group)
    return len(bodies), failed
