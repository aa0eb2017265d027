"""Copies of the repository in which the tests of tests/ stand as crates: `tools/run-tests`, `tools/wrong/try` and
`tools/refuse/try` have it in common.

tests/NAME/ is the source of a crate NAME, whose line tests/libraries.txt has; tests/pool_bench and tests/schedules are programs.
tests/inside_NAME/ is laid over the source of the crate NAME of crates/, for what only that crate can see; each `tests.rs` in it becomes
a module of the file that it is named for. The files end in .rs here and in .rt in the copy, and those of proofs in .proof and in .antt,
since `rt ci` takes each .rt and each .antt file for one that a check reads."""
import collections
import contextlib
import os
import re
import shutil
import signal
import subprocess
import sys
import tempfile
import threading
import time

import needed
import trying

TOP = os.path.dirname(os.path.dirname(os.path.realpath(__file__)))
TESTS = os.path.join(TOP, "tests")
INSIDE = "inside_"
# Folders whose lib.rs names modules of others, where they have no such file themselves.
OTHERS = {"metrics": ["stage"], "verdicts": ["metrics", "stage"]}
# Modules of the tests that stand among the crates, since they are proved there.
LAID = {"crates/pool/src/surface/pool_uses.rt": "crates/examples/src/pool_uses.rt"}
# The crate in which several folders of tests stand together, each as a module.
TOGETHER = "all_tests"
HEAD_OF_CRATE = r"^(//!|#!\[).*\n"
SECONDS = "400"


def names():
    """The folders of tests, those with the most tests first."""
    folders = [name for name in os.listdir(TESTS) if count_of(files_of(name).values())]
    return sorted(folders, key=lambda name: (-count_of(files_of(name).values()), name))


def programs():
    """The folders that are programs, with no test."""
    lines = open(os.path.join(TESTS, "libraries.txt"), encoding="utf-8").read().splitlines()
    return sorted({line.split(":")[0] for line in lines if not line.startswith("#")} - set(names()))


def write(path, text):
    with open(path, "w", encoding="utf-8") as it:
        it.write(text)


def crate_of(name):
    """The crate whose tests they are, in the copy."""
    return name.removeprefix(INSIDE)


def sources(folder):
    for place, _, files in os.walk(folder):
        for file in files:
            if file.endswith((".rs", ".rt", ".proof")):
                yield os.path.join(place, file)


def count_of(files):
    """How many tests the files have."""
    return sum(len(re.findall(r"^\s*#\[test\]", open(file, encoding="utf-8").read(), re.M)) for file in files)


def count_in(folder):
    """How many tests its files have."""
    return count_of(sources(folder))


def needed_by(copy, crate, modules):
    """The modules at the top of a crate of tests that these of it stand on, they themselves among them."""
    source, needed, left = os.path.join(copy, "crates", crate, "src"), set(), list(modules)
    while left:
        name = left.pop()
        file = os.path.join(source, name + ".rt")
        if name in needed or not os.path.exists(file):
            continue
        needed.add(name)
        for file in [file, *sources(os.path.join(source, name))]:
            left += re.findall(r"\bcrate::(\w+)", open(file, encoding="utf-8").read())
    return needed


def modules_for(copy, name, tests):
    """The modules at the top of a crate of tests that these tests need; None where they need all of it."""
    root = os.path.join(copy, place_of(name, "lib.rs"))
    if name.startswith(INSIDE) or not all("::" in it for it in tests) or not tests or not os.path.exists(root):
        return None
    return needed_by(copy, crate_of(name), {it.partition("::")[0] for it in tests})


@contextlib.contextmanager
def only_what_they_need(copy, name, tests):
    """Leaves of a crate of tests what these tests need: the whole of it takes several times as long to compile."""
    root, needed = os.path.join(copy, place_of(name, "lib.rs")), modules_for(copy, name, tests)
    if needed is None:
        yield
        return
    text = open(root, encoding="utf-8").read()
    write(root, re.sub(r"^(?:#\[cfg\(test\)\]\n)?mod (\w+);\n", lambda it: it[0] * (it[1] in needed), text, flags=re.M))
    unused = [file for file in sources(os.path.dirname(root)) if top_of(os.path.dirname(root), file) not in needed | {"lib"}]
    for file in unused:
        os.rename(file, file + ".unused")
    try:
        yield
    finally:
        write(root, text)
        for file in unused:
            os.rename(file + ".unused", file)


def top_of(source, file):
    """The module at the top that a file belongs to."""
    return os.path.splitext(os.path.relpath(file, source).split(os.sep)[0])[0]


def files_of(name):
    """The files of a folder of tests, with those of others whose modules it names, by their places in it."""
    folder = os.path.join(TESTS, name)
    files = {os.path.relpath(source, folder): source for source in sources(folder)}
    for other in OTHERS.get(name, []):
        theirs = os.path.join(TESTS, other)
        named = re.findall(r"^mod (\w+);", open(files["lib.rs"], encoding="utf-8").read(), re.M)
        lacking = set(named) - {top_of(folder, os.path.join(folder, place)) for place in files}
        files |= {os.path.relpath(it, theirs): it for it in sources(theirs) if top_of(theirs, it) in lacking}
    return files


def listed():
    """The files of the repository, without what runs have left in it."""
    said = subprocess.run(["git", "-C", TOP, "ls-files", "-co", "--exclude-standard"], check=True, capture_output=True, text=True)
    return [file for file in said.stdout.splitlines() if os.path.lexists(os.path.join(TOP, file))]


def are_together(names):
    """Those of the folders that can stand in one crate, so that what they stand on is compiled once: with those whose modules they name,
    and have none by the same name in the place of one."""
    fit = [name for name in names if not name.startswith(INSIDE)]
    return [name for name in fit if all(it in fit and tops_of(name) & tops_of(it) <= {"lib"} for it in OTHERS.get(name, []))]


def libraries_of(name):
    """What the crate of a folder of tests stands on."""
    lines = open(os.path.join(TESTS, "libraries.txt"), encoding="utf-8").read().splitlines()
    return next(line.partition(":")[2].split() for line in lines if line.startswith(name + ":"))


def tops_of(name):
    """The modules at the top of a folder of tests that stand in it."""
    folder = os.path.join(TESTS, name)
    return {top_of(folder, file) for file in sources(folder)}


def as_module(name, text, is_root):
    """The text of a file of a folder of tests where that is a module and no crate. Modules of other folders are those of the others."""
    def named(found):
        owner = next(it for it in [name, *OTHERS.get(name, [])] if found[1] in tops_of(it))
        return f"pub(crate) mod {found[1]};" if owner == name else f"use crate::{owner}::{found[1]};"

    text = re.sub(r"\bcrate::(?=\w)", f"crate::{name}::", re.sub(HEAD_OF_CRATE, "", text, flags=re.M))
    return re.sub(r"^mod (\w+);", named, text, flags=re.M) if is_root else text


def put_together(copy, names):
    """Puts a crate into the copy in which these folders of tests stand together."""
    crates = os.path.join(copy, "crates")
    for name in names:
        source, owned = os.path.join(crates, name, "src"), tops_of(name)
        for file in sources(source):
            if top_of(source, file) in owned:
                place = os.path.relpath(file, source)
                is_root = place == "lib.rt"
                text = open(file, encoding="utf-8").read()
                path = os.path.join(crates, TOGETHER, "src", f"{name}.rt" if is_root else os.path.join(name, place))
                os.makedirs(os.path.dirname(path), exist_ok=True)
                write(path, as_module(name, text, is_root))
    modules = "".join(f"\n#[cfg(test)]\nmod {name};" for name in sorted(names))
    write(os.path.join(crates, TOGETHER, "src", "lib.rt"), f"//! Tests of several folders.\n#![tactic(auto)]\n{modules}\n")
    libraries = sorted({it for name in names for it in libraries_of(name)})
    with open(os.path.join(copy, "crates.txt"), "a", encoding="utf-8") as it:
        it.write(f"{TOGETHER}: {' '.join(libraries)}\n")


def put(source, copy, file):
    os.makedirs(os.path.dirname(os.path.join(copy, file)) or copy, exist_ok=True)
    shutil.copy(source, os.path.join(copy, file), follow_symlinks=False)


def place_of(name, file):
    """Where a file of tests/NAME goes in the copy."""
    if file.endswith(".proof"):
        return os.path.join("crates", crate_of(name), file.removesuffix(".proof") + ".antt")
    return os.path.join("crates", crate_of(name), "src", re.sub(r"\.rs$", ".rt", file))


def root_of(source):
    """The first file of a crate, a library's or a program's."""
    return next(file for file in (source + "/lib.rt", source + "/main.rt") if os.path.exists(file))


def add_tests(copy, name):
    """Puts the tests of a folder into the copy."""
    for place, source in files_of(name).items():
        file = place_of(name, place)
        put(source, copy, file)
        if name.startswith(INSIDE) and os.path.basename(source) == "tests.rs":
            above = os.path.dirname(os.path.join(copy, file))
            parent = root_of(above) if above.endswith("/src") else above + ".rt"
            with open(parent, "a", encoding="utf-8") as it:
                it.write("\n#[cfg(test)]\nmod tests;\n")


def lay(copy, file, source):
    """Puts a module that is proved in the repository among the tests: without what only the head of a crate may say."""
    text = open(os.path.join(TOP, source), encoding="utf-8").read()
    with open(os.path.join(copy, file), "w", encoding="utf-8") as it:
        it.write(re.sub(HEAD_OF_CRATE, "", text, flags=re.M))


def fill(copy):
    for file in listed():
        if not file.startswith("tests/"):
            put(os.path.join(TOP, file), copy, file)
    for name in names() + programs():
        add_tests(copy, name)
    for file, source in LAID.items():
        lay(copy, file, source)
    with open(os.path.join(copy, "crates.txt"), "a", encoding="utf-8") as it:
        it.write(open(os.path.join(TESTS, "libraries.txt"), encoding="utf-8").read())
    # By it `rt` knows the top of a repository.
    os.makedirs(os.path.join(copy, ".git"))


class Runs:
    """The programs that were started, so that none of them is left where the script is stopped."""

    def __init__(self):
        self.running = set()
        self.lock = threading.Lock()
        self.is_over = False

    def run(self, words, **how):
        """How the program ended, and what it said."""
        with self.lock:
            if self.is_over:
                return 1, "stopped"
            streams = {"stdin": subprocess.DEVNULL, "stdout": subprocess.PIPE, "stderr": subprocess.STDOUT}
            process = subprocess.Popen(words, errors="replace", **streams, **how)
            self.running.add(process)
        said, _ = process.communicate()
        with self.lock:
            self.running.discard(process)
        return process.returncode, said

    def stop(self):
        with self.lock:
            self.is_over = True
            for process in self.running:
                process.terminate()
        for process in list(self.running):
            process.wait()


class Copy:
    """A copy of the repository, with its tests as crates."""

    def __init__(self, folder):
        self.folder = os.path.join(folder, "copy")
        # What the compiler puts aside while it works.
        self.aside = os.path.join(folder, "aside")
        self.runs = Runs()
        self.locks = collections.defaultdict(threading.Lock)
        os.makedirs(self.folder)
        os.makedirs(self.aside)
        fill(self.folder)

    def crate(self, name):
        return os.path.join(self.folder, "crates", crate_of(name))

    def put_program(self, name, text, below):
        """Puts a program into the copy, above these crates: in the place of one with this name."""
        source, listed = os.path.join(self.crate(name), "src", "main.rt"), os.path.join(self.folder, "crates.txt")
        os.makedirs(os.path.dirname(source), exist_ok=True)
        others = [line for line in open(listed, encoding="utf-8") if not line.startswith(name + ":")]
        write(source, text)
        write(listed, "".join(others) + f"{name}: {' '.join(below)}\n")

    def count(self, name):
        """How many tests there are."""
        return count_in(os.path.join(self.crate(name), "src"))

    def run_tests(self, name, flags=(), only=None):
        """The tests of a folder, or one of them, without proof: the status, and what was said."""
        words = trying.command("--test", "--seconds", SECONDS, *flags, *(["--", only] if only else []))
        with self.locks[name], only_what_they_need(self.folder, name, [only] if only else []):
            return self.runs.run(words, cwd=self.crate(name), env={**os.environ, "TMPDIR": self.aside})


def outcomes(said):
    """What became of each test, by its name: `ok`, or another word."""
    return dict(re.findall(r"^test (\S+) \.\.\. (\w+)", said, re.M))


def raise_exit(number, _):
    sys.exit(128 + number)


@contextlib.contextmanager
def copied():
    """A copy that is gone at the end, with all that was started in it, also where the script is stopped."""
    lacking = needed.lacking(TOP, trying.RT)
    if lacking:
        sys.exit(lacking)
    for number in (signal.SIGTERM, signal.SIGHUP):
        signal.signal(number, raise_exit)
    with tempfile.TemporaryDirectory(prefix="tests-") as folder:
        copy = Copy(folder)
        try:
            yield copy
        finally:
            copy.runs.stop()
