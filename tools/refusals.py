"""Refuses one request in a run: for memory, or the start of a thread. `tools/refuse/try` and `tools/wrong/try` have it in common.

The cases are the rows of tests/stage/in_turn.rs. For memory each becomes as many tests as there are requests to refuse, in a crate of a
copy that is built once, so that `rt try --fail-alloc` refuses another one in each. A thread, and memory of a program that is
built, is refused by refuse.c, which is put before the C library: it wants a C compiler, as `cc` or $CC."""
import os
import re
import subprocess

import copies

REFUSE = os.path.join(copies.TOP, "tools", "refuse")
STAGE = "stage"
MODULE = "in_turn"
CRATE = "refusing"
# The request of a process that is refused, as refusing.rs has it too.
AT = "1000"
# No case asks as often for memory; one that does fails at its end.
MOST = 64
# A run that starts more threads has no end.
MOST_THREADS = 50
CASE = re.compile(r"#\[test\]\nfn (\w+)\(rt: HostRuntime\)")


def in_turn():
    return open(os.path.join(copies.TESTS, STAGE, MODULE + ".rs"), encoding="utf-8").read()


def cases():
    """The names of the tests that hold what stands after a refusal."""
    return CASE.findall(in_turn())


def tests_of(case):
    """For each of its requests a test in which that one is refused. By the first and the last, each one between them is refused
    within the case: with the first nothing is left to be refused after it, with the last it still is."""
    def test(name, number, more=""):
        body = f"    refuse(&rt, {number});\n    super::{case}(rt).report(&rt);\n{more}    Ok(())\n"
        return f"\n#[test]\nfn {case}_{name}(rt: HostRuntime) -> Result<(), Fail> {{\n{body}}}\n"

    yield f"\n#[test]\nfn {case}_alone(rt: HostRuntime) {{\n    super::{case}(rt).report(&rt);\n}}\n"
    yield test("begins", 1, "    assert_eq!(rt; granted(rt.alloc(), AT), AT);\n")
    for number in range(2, MOST):
        yield test(number, number)
    yield test("ends", MOST, f"    assert_eq!(rt; granted(rt.alloc(), {MOST}), {MOST - 1});\n")


class Refusals:
    """The cases, built in a copy and run with each request for memory refused."""

    def __init__(self, copy, chosen):
        self.copy = copy
        self.program = os.path.join(copy.aside, CRATE)
        self.write(chosen)
        _, self.said = copy.run_tests(CRATE, ["--fail-alloc", AT])
        self.outcomes = copies.outcomes(self.said)

    def write(self, chosen):
        below = copies.needed_by(self.copy.folder, STAGE, [MODULE])
        stage, source = (os.path.join(self.copy.crate(name), "src") for name in (STAGE, CRATE))
        for file in copies.sources(stage):
            if copies.top_of(stage, file) in below:
                copies.put(file, source, os.path.relpath(file, stage))
        # A test can't be called, so each case becomes a function, and its runtime that of any world's pools.
        cases = CASE.sub(r"fn \1<R: Host + Abort>(rt: R)", in_turn())
        tests = "".join(test for case in chosen for test in tests_of(case))
        texts = {
            "lib.rt": "//! Cases in which something is refused.\n#![tactic(auto)]\n" + "".join(f"\n#[cfg(test)]\nmod {it};" for it in sorted(below)) + "\n",
            f"{MODULE}.rt": cases + "\nmod refusing;\n",
            f"{MODULE}/refusing.rt": open(os.path.join(REFUSE, "refusing.rs"), encoding="utf-8").read() + f'\nconst PROGRAM: &str = "{self.program}";\n' + tests,
        }
        os.makedirs(os.path.join(source, MODULE), exist_ok=True)
        for file, text in texts.items():
            copies.write(os.path.join(source, file), text)
        with open(os.path.join(self.copy.folder, "crates.txt"), "a", encoding="utf-8") as it:
            it.write(f"{CRATE}: r2d2_async r2d2 r2d2_core futures log\n")

    def is_built(self):
        """Whether a request is refused at all, and the program was handed out."""
        wanted = ("one_request_is_refused", "hands_itself_out")
        return all(self.outcomes.get(f"in_turn::refusing::{name}") == "ok" for name in wanted) and os.path.exists(self.program)

    def memory(self, case):
        """The tests of a case that did not pass."""
        names = ["alone", "begins", *range(2, MOST), "ends"]
        wanted = [f"in_turn::refusing::{case}_{name}" for name in names]
        return [name for name in wanted if self.outcomes.get(name) != "ok"]

    def words(self, case):
        """The case as a program, in which nothing is refused by itself."""
        os.chmod(self.program, 0o700)
        return [self.program, f"in_turn::refusing::{case}_alone"]


class Before:
    """Runs programs with refuse.c before the C library."""

    def __init__(self, place):
        self.library = os.path.join(place, "refuse.so")
        self.said = os.path.join(place, "said")
        compiler = os.environ.get("CC", "cc")
        subprocess.run([compiler, "-shared", "-fPIC", "-O1", "-o", self.library, os.path.join(REFUSE, "refuse.c")], check=True)

    def run(self, words, what, number, given):
        """How the program ended, and whether a request was refused; None for that where the library was not there."""
        open(self.said, "w").close()
        settings = {"LD_PRELOAD": self.library, "REFUSE_SAID": self.said, what: str(number)}
        done = subprocess.run(words, input=given, capture_output=True, env=settings, timeout=60)
        return done, {"begun refused": True, "begun ": False}.get(open(self.said).read())

    def count(self, words, what, most, holds, given=b""):
        """How many requests were refused, each in a run of its own, until a run ended with none refused; and what did not hold."""
        for number in range(1, most):
            try:
                done, was_refused = self.run(words, what, number, given)
            except subprocess.TimeoutExpired:
                return number, f"{what}={number}: did not end"
            if was_refused is None or not holds(done, was_refused):
                told = (done.stdout + done.stderr).decode(errors="replace").strip()
                return number, f"{what}={number}: status {done.returncode}: {told}"
            if not was_refused:
                return number - 1, None
        return most, "no end of requests"

    @classmethod
    def if_compiled(cls, place):
        """None where there is no C compiler."""
        try:
            return cls(place)
        except FileNotFoundError:
            return None

    def threads(self, words):
        return self.count(words, "REFUSE_THREAD", MOST_THREADS, lambda done, _: done.returncode == 0 and b"test result: ok" in done.stdout)
