"""What `./prove` installs, and what it says that it did not check, with an apt-get that only says what it was told."""
import contextlib
import importlib.machinery
import importlib.util
import os
import shlex
import shutil
import subprocess
import sys
import tempfile
import types

import copies
import needed
from tally import TOP, Tally

TALLY = Tally("set-up")
check = TALLY.check
# It notes its words and how the policy answers, has no package `rare`, and lets each other one bring its program.
APT_GET = """#!/bin/sh
{{ echo "$*"; {place}/policy && echo "services begin" || echo "policy $?"; }} >> {place}/log 2>&1
for word; do case $word in
    rare) exit 100 ;;
    first | second) printf '#!/bin/sh\\n' > {place}/bin/$word; /bin/chmod 755 {place}/bin/$word ;;
esac; done
"""


def put_program(text, path):
    with open(path, "w", encoding="utf-8") as it:
        it.write(text)
    os.chmod(path, 0o755)


@contextlib.contextmanager
def machine(place, has_apt_get=True, is_root=True):
    """A machine with these programs alone, and packages of its own."""
    os.makedirs(os.path.join(place, "bin"))
    if has_apt_get:
        put_program(APT_GET.format(place=shlex.quote(place)), os.path.join(place, "bin", "apt-get"))
    before, path = vars(needed).copy(), os.environ["PATH"]
    os.environ["PATH"] = os.path.join(place, "bin")
    needed.PACKAGES = {name: [name] for name in ("first", "second", "rare")}
    needed.POLICY = os.path.join(place, "policy")
    needed.os = types.SimpleNamespace(**{**vars(os), "geteuid": lambda: 0 if is_root else 1000})
    try:
        yield
    finally:
        os.environ["PATH"] = path
        vars(needed).update(before)


def provided(place, *programs, **machine_is):
    """What is said where these are asked for, and what apt-get was told."""
    said, log = [], os.path.join(place, "log")
    with machine(place, **machine_is):
        needed.provide(programs, said.append)
    told = open(log, encoding="utf-8").read() if os.path.exists(log) else ""
    return said, told


def named(said, program):
    return f"{program} is missing, so what needs it is skipped. On Debian, as root: apt-get install {program}" in said


def try_installing(top):
    place = os.path.join(top, "all")
    said, told = provided(place, "first", "second")
    check("what is missing is installed", len(said) == 1 and "installing first second" in said[0], said)
    check("each by its package", "install --no-install-recommends first\n" in told and "install --no-install-recommends second\n" in told, told)
    check("no service begins", "policy 101" in told and "services begin" not in told, told)
    check("the policy does not stay", not os.path.exists(os.path.join(place, "policy")))
    said, told = provided(os.path.join(top, "some"), "rare", "second")
    check("what cannot be had is named", named(said, "rare") and not named(said, "second"), said)
    check("and keeps nothing else from coming", os.path.exists(os.path.join(top, "some", "bin", "second")), told)


def try_a_policy(top):
    place = os.path.join(top, "policy")
    os.makedirs(place)
    put_program("#!/bin/sh\nexit 0\n", os.path.join(place, "policy"))
    _, told = provided(place, "first")
    check("a policy that is there stays", "services begin" in told and os.path.exists(os.path.join(place, "policy")), told)


def try_naming(top):
    for what, machine_is in [("no apt-get", {"has_apt_get": False}), ("no root", {"is_root": False})]:
        said, told = provided(os.path.join(top, what.replace(" ", "-")), "first", **machine_is)
        check(f"with {what} it is named alone", len(said) == 1 and named(said, "first") and told == "", (said, told))


@contextlib.contextmanager
def path_of(folder):
    before, os.environ["PATH"] = os.environ["PATH"], folder
    try:
        yield
    finally:
        os.environ["PATH"] = before


def try_what_is_lacking(top):
    """A path with no program, one without git, and a folder that is no clone."""
    programs, git = os.path.join(top, "programs"), shutil.which("git")
    os.makedirs(programs)
    with path_of(programs):
        check("without rt it says so", "rt is missing" in (needed.lacking(TOP) or ""))
        done = subprocess.run([sys.executable, os.path.join(TOP, "prove")], capture_output=True, text=True)
        check("and prove ends with that line", done.returncode == 1 and done.stderr == f"prove: {needed.lacking(TOP)}\n", done.stderr)
        put_program("#!/bin/sh\n", os.path.join(programs, "rt"))
        check("without git it says so", "git is missing" in (needed.lacking(TOP) or ""))
        os.symlink(git, os.path.join(programs, "git"))
        check("where nothing is lacking it says nothing", needed.lacking(TOP) is None, needed.lacking(TOP))
        check("a folder that is no clone is told as such", "does not read it as a clone" in (needed.lacking(top) or ""), needed.lacking(top))


def prove():
    """The script as a module."""
    return module_of(os.path.join(TOP, "prove"))


def module_of(path):
    """A script as a module."""
    loader = importlib.machinery.SourceFileLoader(os.path.basename(path), path)
    module = importlib.util.module_from_spec(importlib.util.spec_from_loader(loader.name, loader))
    loader.exec_module(module)
    return module


def try_what_was_not_checked(top):
    """A tool that lacks its program, a part whose crates wrong/tried knows, and one that was stopped."""
    script = prove()
    done = subprocess.run([sys.executable, os.path.join(TOP, "tools", "model")], capture_output=True, text=True, env={"PATH": top})
    model = script.Part("the model of waiting", [])
    model.lines, model.is_over = done.stdout.splitlines(keepends=True), True
    model.judge(0)
    wrong = script.Part("wrong bodies", [])
    wrong.lines, wrong.is_over = ["r2d2: 3 bodies; it is as wrong/tried says\n", "examples: 6 bodies; it is not as wrong/tried says\n", "9 passed, 0 failed\n"], True
    stopped = script.Part("the blocks of code", [])
    said = list(script.not_checked([model, wrong, stopped], []))
    wanted = [
        f"the model of waiting, {model.skipped} of it: the model of waiting is skipped: spin is missing",
        "wrong bodies: of r2d2 all but three each, which were refused before, as wrong/tried says",
        "the blocks of code: stopped, since another part failed",
    ]
    check("what was not checked is said", model.skipped > 0 and said[:3] == wanted and len(said) == 5, said)
    whole = script.Part("the model of waiting", [])
    whole.lines, whole.is_over = ["wrong: nothing is skipped, all is found: passed\n", "60 passed, 0 failed, 0 skipped\n"], True
    whole.judge(0)
    check("and nothing of what was", len(list(script.not_checked([whole], []))) == 2)


def try_the_tests_that_it_names():
    """A test in a crate would be proved, twice as long as the crate: those of the core stand in a folder, of which each test counts."""
    script, folders = prove(), copies.names()
    check("each folder that prove names has tests", set(script.POOL_TESTS) <= set(folders), script.POOL_TESTS)
    check("the core's tests are among them", {"core_tests", "inside_pool_machine"} <= set(script.POOL_TESTS), script.POOL_TESTS)
    in_crates = [name for name in script.crates() if copies.count_in(os.path.join(TOP, "crates", name, "src"))]
    check("no crate has tests that are proved", in_crates == [], in_crates)


def tried():
    with tempfile.TemporaryDirectory() as top:
        try_installing(top)
        try_a_policy(top)
        try_naming(top)
        try_what_was_not_checked(top)
        try_what_is_lacking(top)
    try_the_tests_that_it_names()
    return TALLY
