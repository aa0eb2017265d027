"""What `./prove` says of itself, with stand-ins for what takes long: how many proofs are kept and that `--anew` keeps none, what each part
and proof takes beside its budget, how far a proof is, and how soon Ctrl-C ends it. And that each tool names what is missing."""
import contextlib
import io
import itertools
import os
import shutil
import signal
import subprocess
import sys
import tempfile
import time

import budgets
import copies
import set_up
import stand_in
import trying
from tally import TOP, Tally

TALLY = Tally("gate")
check = TALLY.check
BUDGET = ({"part a long one": 3.0, "part a short one": 0.1, "part of a third": 3.0, "part new": None}, 0.1)
# Stands for `rt ci`: it puts what out/ has aside, begins a check that works, and wants two signals to put it back.
RT = """#!/usr/bin/env python3
import os, signal, subprocess, sys, threading, time
if sys.argv[1] != "ci":
    sys.exit(0)
seen = []
signal.signal(signal.SIGINT, lambda *_: seen.append(1))
os.rename("out", "aside")
print("rt: low is kept: an earlier run on this machine proved the same files over the same libraries", flush=True)
print("rt: mid proved", flush=True)
check = [sys.executable, "-c", "while True: pass", "build", "--crate-name", "top"]
threading.Thread(target=subprocess.call, args=[check], daemon=True).start()
while len(seen) < (1000 if "STUBBORN" in os.environ else 2):
    time.sleep(0.05)
os.rename("aside", "out")
sys.exit(2)
"""
# Runs one part of prove in a folder, which has such an `rt`.
RUN = """
import importlib.machinery, importlib.util, os, sys, threading
sys.dont_write_bytecode = True
sys.path[:0] = [{tools!r}, {tries!r}]
import budgets, set_up
prove = set_up.prove()
prove.TOP = os.getcwd()
part = prove.Part("proofs", ["rt", "ci"])
part.meter = budgets.Meter()
prove.signal.signal(prove.signal.SIGINT, prove.stop_all)
threading.Thread(target=prove.look_each_second, args=[budgets.Speed()], daemon=True).start()
threading.Timer(5, lambda: print("FAR " + part.how_far(), flush=True)).start()
part.run()
"""


def try_the_budget():
    """Above its budget by a third, below that, too short to judge, and not measured yet, on a machine that is twice as slow."""
    measured = {"part a long one": 8.2, "part a short one": 0.9, "part of a third": 7.8, "part new": 50.0}
    found = {it.name: it for it in budgets.rows(measured, 0.2, BUDGET)}
    check("what is scaled", round(found["part a long one"].scaled, 3) == 4.1, found["part a long one"].scaled)
    check("only what is above by a third fails", [it.name for it in found.values() if it.is_above] == ["part a long one"])
    fast = budgets.rows({"part a long one": 3.9}, 0.05, BUDGET)
    check("nor does what is above only as it is scaled", round(fast[0].scaled, 3) == 7.8 and not fast[0].is_above, fast[0].line())
    whole = {it.name: it for it in budgets.rows({**measured, "part tests of the pool": 9.0}, 0.1, ({**BUDGET[0], budgets.TOTAL: 12.5}, 0.1), is_whole=True)}
    check("all is what has a budget", round(whole[budgets.TOTAL].minutes, 1) == 16.9 and whole[budgets.TOTAL].is_above, whole[budgets.TOTAL].line())
    below = budgets.rows(measured, 0.1, ({**BUDGET[0], budgets.TOTAL: 12.7}, 0.1), is_whole=True)[-1]
    check("nor does all fail below a third more", not below.is_above and below.line() == "| total | 16.9 | 16.9 | 12.7 |", below.line())
    said = found["part a long one"].line(), found["part new"].line()
    check("its line says so", said == ("| part a long one | 8.2 | 4.1 | 3.0 | ABOVE", "| part new | 50.0 | 25.0 | ? |"), said)
    log = "anything\n| total | 1.0 | 2.0 | 3.0 |\n| part the blocks of code | 8.2 | 4.1 | 3.0 | ABOVE\n| crate anew | 1.0 | 2.0 | ? |\n"
    lines = list(budgets.from_log(log))
    check("a log's figures come into the file", "part the blocks of code: 4.1" in lines and lines[-1] == "crate anew: 2.0", lines)
    kept = f"total: {budgets.of_file()[0][budgets.TOTAL]}"
    check("but not what all may take", kept in lines and not any(it.startswith("total") for it in lines if it != kept), lines)
    check("what it has not measured stays", "part bodies that the prover refuses: " + shown(budgets.of_file()[0]["part bodies that the prover refuses"]) in lines, lines)


def shown(minutes):
    return budgets.UNKNOWN if minutes is None else f"{minutes}"


def try_that_each_has_a_budget():
    prove, budget = set_up.prove(), budgets.of_file()[0]
    stages = [[[part for part in [*parts, *itertools.chain(*lanes)] if not part.meter] for parts, lanes in stage] for stage in stages_of(prove)]
    wanted = {f"part {part.name}" for stage in stages for parts in stage for part in parts} | {f"crate {name}" for name in prove.crates()}
    check("each part and crate has a line in the budget", wanted <= set(budget), wanted - set(budget))
    check("and no other has one", set(budget) - {budgets.TOTAL} <= wanted, set(budget) - wanted)
    of_all = {f"part {part.name}" for parts in stages[1] for part in parts}
    not_of_all = {f"part {part.name}" for parts in stages[0] for part in parts} - of_all
    check("what --all runs within another part is known", not_of_all == budgets.NOT_OF_ALL, not_of_all)
    check("the lines come to no more than all may take", budgets.total_of(budget) <= budget[budgets.TOTAL], budgets.total_of(budget))


def stages_of(prove):
    """All stages of both ways; none of them runs here."""
    yield list(prove.pool())
    yield list(prove.whole())


def try_what_is_kept():
    prove = set_up.prove()
    part = prove.Part("proofs", [])
    part.meter, part.is_over = budgets.Meter(), True
    part.lines = ["rt: low is kept: an earlier run on this machine proved the same files\n", "rt: mid proved\n", "2 passed, 0 failed\n"]
    part.meter.seconds = {("low", 1): 60.0, ("mid", 2): 120.0, ("mid", 3): 60.0}
    check("a kept proof has no budget to meet", part.measured() == {"crate mid": 3.0}, part.measured())
    said = "".join(prove.how_many_kept([part]))
    check("how many are kept is said", "Of 2 crates, 1 proofs are kept" in said and "--anew keeps none" in said, said)
    later = prove.Part("proofs of more", [])
    later.meter, later.is_over = budgets.Meter(), True
    later.lines = ["rt: mid is kept: an earlier run on this machine proved the same files\n", "rt: top proved\n", "2 passed, 0 failed\n"]
    said = "".join(prove.how_many_kept([part, later]))
    check("what this run proved is not said to be kept", "Of 3 crates, 1 proofs are kept" in said, said)
    check("where nothing is, that is said too", "Of 1 crates, 0 proofs" in "".join(prove.how_many_kept([without_kept(prove)])))
    prove.takes_names = lambda: True
    words = prove.proofs(["r2d2_core"]).words
    prove.Part.is_anew = True
    anew = prove.proofs(["r2d2_core"]).words
    check("--anew is handed to the toolchain, and only then", "--anew" in anew and "--anew" not in words, (words, anew))
    tests = prove.tests_of("all tests")
    check("with --anew tests are compiled too", tests.words == ["tools/run-tests", "--anew"], tests.words)
    tests.is_over, tests.minutes = True, 2.0
    check("tests have a budget to meet", tests.measured() == {"part all tests": 2.0}, tests.measured())
    tests.lines = ["stage: kept, compiled by an earlier run from the same files\n"]
    check("those of a program that was kept have none", tests.measured() == {}, tests.measured())
    try_what_is_named(prove)
    with contextlib.redirect_stdout(io.StringIO()) as said:
        above = prove.within_budget([part], 1e-6)
    check("a proof that has no figure yet fails nothing", above.failed == 0 and "| crate mid | 3.0 |" in said.getvalue(), said.getvalue())
    prove.budgets = types_of(budgets, {"crate mid": 1.0, budgets.TOTAL: 2.2})
    with contextlib.redirect_stdout(io.StringIO()):
        above, whole = prove.within_budget([part], 1.0), prove.within_budget([part], 1.0, is_whole=True)
    check("one above its budget fails", (above.passed, above.failed) == (0, 1), (above.passed, above.failed))
    check("and all above its own", (whole.passed, whole.failed) == (0, 2), (whole.passed, whole.failed))


def try_what_is_named(prove):
    """The crates that each run of the toolchain's gate is given: in CI it takes none."""
    def named(*others, is_anew=False, in_ci=False):
        prove.Part.is_anew = is_anew
        os.environ["CI"] = "true" if in_ci else "false"
        return [[[it for it in part.words if it in prove.crates()] for part in parts] for parts in prove.all_proofs(*others)]

    was = os.environ.get("CI")
    check("the longest chain comes first, and the rest beside it", named("pool_steps") == [[["r2d2"], ["r2d2_async"]], [["pool_tasks"], ["pool_steps"]]], named("pool_steps"))
    beside = [["pool_tasks"], ["pool_audit", "pool_steps", "worked_rows"], ["first_pool", "examples"]]
    check("reports and metrics are proved beside it", named() == [[["r2d2"], ["r2d2_async"], ["task_service"], []], beside], named())
    check("with --anew all is one run", named("pool_steps", is_anew=True) == [[["r2d2_async", "pool_steps"]], []])
    check("in CI it is one of all crates", named("pool_steps", in_ci=True) == named(is_anew=True, in_ci=True) == [[[]], []])
    try_an_older_toolchain(prove, named)
    try_what_waits(prove)
    del os.environ["CI"]
    if was is not None:
        os.environ["CI"] = was


def try_an_older_toolchain(prove, named):
    """One whose gate takes no names, and keeps nothing: what `./prove` promises is proved in a copy that has no other crates."""
    prove.takes_names = lambda: False
    below = [["pool_lines", "pool_machine", "pool_state", "pool_steps", "pool_tasks", "r2d2", "r2d2_async", "r2d2_core"]]
    check("without names it is one run, of all that these stand on", named("pool_steps") == [below, []], named("pool_steps"))
    words = prove.proofs(["pool_lines"]).words
    check("in a copy of these crates", words[3:] == ["tools/some", "pool_lines", "pool_machine", "r2d2_core"], words)
    check("and one of all crates as it is", named() == [[[]], []] and prove.proofs().words[3:] == ["rt", "ci"], prove.proofs().words)
    prove.Part.is_anew = True
    check("which is anew without a word", prove.proofs().words[3:] == ["rt", "ci"], prove.proofs().words)
    prove.Part.is_anew, prove.takes_names = False, lambda: True


def try_what_waits(prove):
    """A part that stands on what another one proves begins once that is proved, or has ended."""
    chain, part = prove.Part("proofs", []), prove.Part("more", ["true"])
    part.waits = prove.once_proved(part, [chain], {"low"})
    thread, = prove.beside([[part]])
    thread.join(1.5)
    check("it waits", not part.is_over)
    chain.lines.append("rt: low proved\n")
    thread.join(3)
    check("and begins then", part.is_over and part.passed == 1)


def try_the_model(top):
    """Which of its searches are made, by what model/searched says, and that this is said."""
    model, prove = set_up.module_of(os.path.join(TOP, "tools", "model")), set_up.prove()
    model.SEARCHED, every, folder = os.path.join(top, "searched"), list(model.wanted([])), model.FOLDER
    check("no search is known where none is noted", not model.are_known(every))
    model.note(every)
    check("what is noted is known", model.are_known(every))
    other = [(every[0][0], every[0][1] + " LINE=9", every[0][2]), *every[1:]]
    check("and is not, where a search is another one", not model.are_known(other) and not model.are_known(every[1:]))
    model.FOLDER = top
    check("or where the model is", not model.are_known(every))
    model.FOLDER = folder
    with contextlib.redirect_stdout(io.StringIO()) as said:
        chosen = model.drawn(every)
    kinds = [sum(it[2] == is_wrong for it in chosen) for is_wrong in (False, True)]
    check("of those that are known some are made, and of the wrong ones", kinds == [3, 3] and set(chosen) <= set(every), kinds)
    part = prove.Part("the model of waiting", [])
    part.lines, part.is_over = [*said.getvalue().splitlines(keepends=True), "6 passed, 0 failed, 0 skipped\n"], True
    told = list(prove.not_checked([part], []))[0]
    with set_up.path_of(top), contextlib.redirect_stdout(io.StringIO()):
        check("without git some are made too", len(model.drawn(every)) == len(chosen))
    check("the others are told of", told == f"the model of waiting: all but 6 of {len(every)} searches, which went well before, as model/searched says", told)


def types_of(module, budget):
    """The module, with another budget."""
    class Other:
        Meter, Speed = module.Meter, module.Speed
        table = staticmethod(lambda found, speed: [])
        rows = staticmethod(lambda measured, speed, **how: module.rows(measured, speed, (budget, 1.0), **how))

    return Other


def without_kept(prove):
    part = prove.Part("proofs", [])
    part.meter, part.lines = budgets.Meter(), ["rt: mid proved\n"]
    return part


def interrupted(place, seconds, **settings):
    """What a run says that is interrupted some seconds after its proofs began, and whether it ended within five."""
    os.makedirs(os.path.join(place, "out"))
    os.makedirs(os.path.join(place, "bin"))
    set_up.put_program(RT, os.path.join(place, "bin", "rt"))
    tools = os.path.join(TOP, "tools")
    how = {"cwd": place, "env": {**os.environ, "PATH": f"{place}/bin:{os.environ['PATH']}", **settings}, "stdout": subprocess.PIPE, "text": True}
    running = subprocess.Popen([sys.executable, "-c", RUN.format(tools=tools, tries=os.path.join(tools, "tries"))], **how)
    while running.poll() is None and not os.path.exists(os.path.join(place, "aside")):
        time.sleep(0.05)
    time.sleep(seconds)
    begun = time.monotonic()
    running.send_signal(signal.SIGINT)
    said, _ = running.communicate()
    return said, running.returncode == 130 and time.monotonic() - begun < 5


def try_ctrl_c(top):
    """A run that is interrupted after some seconds: it has said how far the proof is, ends at once, and out/ is whole. What does not end by
    itself is killed."""
    said, in_time = interrupted(os.path.join(top, "stubborn"), 3, STUBBORN="1")
    check("what does not end is killed, and that is said", in_time and "is not back yet" in said, said)
    place = os.path.join(top, "interrupted")
    said, in_time = interrupted(place, 8)
    check("it ends within five seconds", in_time and "is not back yet" not in said, said)
    check("out/ is whole", os.path.isdir(os.path.join(place, "out")) and not os.path.exists(os.path.join(place, "aside")))
    far = [line for line in said.splitlines() if line.startswith("FAR ")]
    check("how far the proof is was said, by the processor", len(far) == 1 and "(top 0." in far[0] and "processor min" in far[0], said)
    check("and what was done before is not told again", far and "mid" not in far[0] and "low" not in far[0], far)


def try_ctrl_c_of_the_tries(top):
    """They end without a word."""
    programs = os.path.join(top, "slow programs")
    os.makedirs(programs)
    for name in ("rt", "git"):
        set_up.put_program("#!/bin/sh\n: > begun\nexec sleep 60\n", os.path.join(programs, name))
    how = {"cwd": programs, "env": {**os.environ, "PATH": f"{programs}:{os.environ['PATH']}"}, "stderr": subprocess.PIPE, "text": True}
    running = subprocess.Popen([sys.executable, "-B", os.path.join(TOP, "tools", "try"), "documents"], start_new_session=True, **how)
    while running.poll() is None and not os.path.exists(os.path.join(programs, "begun")):
        time.sleep(0.05)
    os.killpg(running.pid, signal.SIGINT)
    _, said = running.communicate()
    check("Ctrl-C ends the tries without a word", (running.returncode, said) == (130, ""), said[-600:])


class Compiler:
    """A copy of the repository whose compiler tells some refusals: all that stand in it, or one at a time."""

    def __init__(self, refusals, at_once, told):
        self.refusals, self.at_once, self.told, self.compiles = refusals, at_once, told, 0
        self.runs, self.written = self, []

    def crate(self, name):
        return name

    def run(self, words, **how):
        self.compiles += 1
        here = [it for it in self.written if it.wrong in self.told][: None if self.at_once else 1]
        return 1, "".join(f"src/{it.wrong}.rt:1: error: {it.says}\n" for it in here)


class Written:
    """A refusal that notes where it stands."""

    def __init__(self, wrong):
        self.wrong, self.says = wrong, f"no {wrong} here"

    def put(self, copy):
        copy.written.append(self)

    def take_back(self, copy):
        copy.written.remove(self)

    def is_told(self, lines):
        return f"src/{self.wrong}.rt:1: error: {self.says}" in lines


def try_refusals_at_once():
    """All are compiled together; one that is told only beside no other is found too, and one that is not told at all is named."""
    blocks, refusals = set_up.module_of(os.path.join(TOP, "tools", "blocks")), [Written(it) for it in "abcd"]
    together = Compiler(refusals, True, "abcd")
    check("all are told by one compile", blocks.those_not_told(together, refusals) == [] and together.compiles == 1, together.compiles)
    apart = Compiler(refusals, False, "abcd")
    check("those that hide one another are told too", blocks.those_not_told(apart, refusals) == [] and apart.compiles == 4, apart.compiles)
    lacking = Compiler(refusals, True, "abd")
    wrong = blocks.those_not_told(lacking, refusals)
    check("what is not refused is named", len(wrong) == 1 and wrong[0].startswith("`c` is not refused"), wrong)
    none = Compiler(refusals, True, "")
    check("where none is, each is", len(blocks.those_not_told(none, refusals)) == 4 and not none.written, none.written)


# Stands for the compiler: it ends as it is told, or tells its number and takes long.
COMPILER = """#!/bin/sh
[ "$1" = long ] && { echo $$ > number; sleep 60; }
echo "run=ended status=$2 proved=no" >&2
exit $1
"""


def try_the_compiler(top):
    """The status is the program's where it ended, and else the compiler's; a signal ends all of it."""
    words = trying.words_of(os.path.join(TOP, "crates", "pool_lines"), ["--test", "--seconds", "7"], ["some::test"])
    wanted = ["--test", "some::test", "7", "pool_lines", "src/lib.rt"]
    named = [word.partition(":")[0] for word in words if "=" in word]
    check("the compiler is told what stands below", set(wanted) <= set(words) and {"pool_machine", "circular_buffer", "std"} <= set(named), words)
    place = os.path.join(top, "a compiler")
    os.makedirs(place)
    compiler = os.path.join(place, "compiler")
    set_up.put_program(COMPILER, compiler)
    call = "import sys, os; sys.path.insert(0, sys.argv[1]); import trying; trying.words_of = lambda *_: sys.argv[2:]; sys.exit(trying.main([]))"
    start = [sys.executable, "-B", "-c", call, os.path.join(TOP, "tools"), compiler]
    how = {"cwd": place, "stdout": subprocess.PIPE, "stderr": subprocess.PIPE}
    ends = [subprocess.run([*start, *ended], **how).returncode for ended in (["0", "0"], ["0", "3"], ["4", "0"], ["9", "0"])]
    check("the status", ends == [0, 3, 4, trying.NO_ANSWER], ends)
    running = subprocess.Popen([*start, "long"], start_new_session=True, **how)
    number = os.path.join(place, "number")
    while not (os.path.exists(number) and open(number, encoding="ascii").read().strip()):
        time.sleep(0.05)
    begun = time.monotonic()
    running.send_signal(signal.SIGTERM)
    running.communicate()
    check("a signal ends the compiler", running.returncode == 143 and time.monotonic() - begun < 30, running.returncode)


def try_tools_without(top):
    """Each tool that needs them says what is missing, in one line, without `rt`, without git, and in a folder that is no clone."""
    programs = os.path.join(top, "some programs")
    os.makedirs(programs)
    for name in ("python3", "env"):
        os.symlink(os.path.realpath(shutil.which(name)) if name != "python3" else sys.executable, os.path.join(programs, name))
    tarball = os.path.join(top, "a tarball")
    for file in copies.listed():
        copies.put(os.path.join(TOP, file), tarball, file)
    rt, git = os.path.realpath(shutil.which("rt")), shutil.which("git")
    names_it("without rt", TOP, programs, "rt is missing")
    os.symlink(rt, os.path.join(programs, "rt"))
    names_it("without git", TOP, programs, "git is missing")
    os.symlink(git, os.path.join(programs, "git"))
    names_it("in a tarball", tarball, programs, "does not read it as a clone")
    names_it("in a clone of another user", TOP, programs, "dubious ownership", GIT_TEST_ASSUME_DIFFERENT_OWNER="1")


def try_a_space(top):
    """What the tries put aside may stand in a folder whose name has a space."""
    place = os.path.join(top, "with a space")
    os.makedirs(place)
    how = {"env": {**os.environ, "TMPDIR": place}, "capture_output": True, "text": True}
    done = subprocess.run([sys.executable, "-B", os.path.join(TOP, "tools", "try"), "set-up"], **how)
    check("the tries of set-up pass there", done.returncode == 0 and os.listdir(place) == [], done.stdout[-600:] + done.stderr[-600:])
    with tempfile.TemporaryDirectory(dir=place) as folder:
        copy = stand_in.Copy(folder, "pool-steps", "pool_steps")
        copy.program("echo answered")
        came = copy.run(given=b"state\n")
    check("a script compiles its program there", came == (0, "answered\n", stand_in.first("pool-steps")), came)
    programs = os.path.join(top, "its programs")
    os.makedirs(programs)
    set_up.put_program('#!/bin/sh\necho "$PWD: $1, $(ls crates)"\n', os.path.join(programs, "rt"))
    how["env"]["PATH"] = f"{programs}:{os.environ['PATH']}"
    done = subprocess.run([sys.executable, "-B", os.path.join(TOP, "tools", "some"), "pool_lines"], **how)
    said = done.stdout + done.stderr
    check("some crates are proved there", said.startswith(place) and said.endswith(": ci, pool_lines\n") and os.listdir(place) == [], said)


TOOLS = [
    ["prove"],
    ["tools/run-tests", "inside_pool_machine"],
    ["tools/blocks"],
    ["tools/schedules/try", "tasks"],
    ["tools/wrong/try", "check"],
    ["tools/refuse/try", "in_turn::building"],
    ["tools/some", "pool_lines"],
    ["tools/try", "gate"],
]


def names_it(where, top, programs, wanted, **settings):
    for tool, *words in TOOLS:
        how = {"cwd": top, "env": {"PATH": programs, "HOME": programs, "TMPDIR": programs, **settings}, "capture_output": True, "text": True, "timeout": 60}
        done = subprocess.run([sys.executable, "-B", os.path.join(top, tool), *words], **how)
        said = done.stdout + done.stderr
        check(f"{tool} {where}", done.returncode != 0 and wanted in said and "Traceback" not in said, said[-600:])


def tried():
    try_the_budget()
    try_that_each_has_a_budget()
    try_what_is_kept()
    try_refusals_at_once()
    with tempfile.TemporaryDirectory() as top:
        try_the_model(top)
        try_ctrl_c(top)
        try_ctrl_c_of_the_tries(top)
        try_the_compiler(top)
        try_tools_without(top)
        try_a_space(top)
    return TALLY
