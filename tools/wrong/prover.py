"""The wrong bodies that the prover must refuse, each at a goal of the function that it changes.

Those of different functions are tried by one check: a proof cites the contracts of what it calls, and not the bodies, so a change of one
function cannot refuse another one's goals. A body counts as refused where a goal of its own function fails for its values, in a check
that could read everything. What was not seen refused so is tried again in smaller batches, at last alone.

A check asks for the functions that were changed, over the libraries below where they lie in out/ and are newer than their sources, and
else over their sources, of which it reads the contracts alone. So nothing is built.
"""
import functools
import glob
import hashlib
import importlib.machinery
import importlib.util
import itertools
import os
import re
import shutil
import signal
import subprocess
import sys
import tempfile
import time
from concurrent.futures import ThreadPoolExecutor

import form

TOP = os.path.dirname(os.path.dirname(os.path.dirname(os.path.realpath(__file__))))
TRIED = os.path.join(TOP, "wrong", "tried")
PARTS = ("src", "specs", "proofs")
HEAD = "# The crates whose wrong bodies the prover all refused, with a sum of what that rests on, and by which logic: written by tools/wrong/try prover --all.\n"
# Of a crate whose bodies are known to be refused so many are tried again; and so many functions are few for one check.
DRAWN, FEW = 3, 3
# The most memory that a check was seen to take, in bytes.
ONE_CHECK = 4_000_000_000

# A place that the prover tells of, and what it says there.
PLACE = re.compile(r"(?:note: )?(?:\./)?((?:src|specs|proofs)/\S+?):(\d+):\d+: (.*)")
# A goal of the code whose answer stands in a proof file, and no longer proves it.
ANSWERED = re.compile(r"error: `(?:returns|invariant_of|loop|overflow|[\w-]+-(?:requires|preserved))")
# A text that the prover could not read, where an edit that only makes a statement false reads well.
UNREAD = re.compile(r"is not in scope|has no field|is no name|operand is missing|expected the end|cannot continue")
# A function that is asked for, and that the prover knows by another name, or several by that name.
UNKNOWN = re.compile(r"has no function `([^`]*)`")
SEVERAL = re.compile(r"several functions are named `([^`]*)`: help: (.*)")
# What a type means to a clause.
MODEL = re.compile(r"^impl\b[^{;]*\bModel for (\w+)[^{]*\{.*?^\}", re.M | re.S)
WORD = re.compile(r"\w+")
TYPE = re.compile(r"^(?:pub(?:\([^)]*\))? )?(?:struct|enum) (\w+)", re.M)
ALIAS = re.compile(r"^(?:pub(?:\([^)]*\))? )?type (\w+)<", re.M)
IMPL = re.compile(r"^impl\b[^{;]*?\b(\w+)<([^<>]*)> (?:where[^{]*)?\{", re.M)
DEFINED = re.compile(r"\bRattle\.(\w+)\.specs((?:\.\w+)+)")
# A proof file that names what an edit took away.
NAMES = re.compile(r"has no field|is not in scope|has no `|was not admitted")


class Edit:
    """A wrong body in a copy: the changes of it there, and the functions that they are in."""

    def __init__(self, body, crates):
        self.name, self.body = body.name, body
        self.spots, self.why = body.spots(crates)
        self.functions = list(dict.fromkeys(key_of(it.function) for it in self.spots or [] if it.function))
        # A change outside of all, as in a struct or a macro, may reach others: it is tried alone.
        self.is_alone = any(it.function is None for it in self.spots or [])

    def owns(self, file, row, texts):
        """Whether a row is of its functions, as they are in these texts."""
        return not self.functions or any(it.holds(file, row) for it in self.functions_in(texts))

    def functions_in(self, texts):
        return [it for file in {key[0] for key in self.functions} for it in form.functions_of(file, texts[file]) if key_of(it) in self.functions]

    def asked(self):
        """The functions to check, by their paths; where it is in none, the modules."""
        modules = {"::".join(form.module_of(it.file)) for it in self.spots}
        return {"::".join(path) for _, path in self.functions} or modules


def key_of(function):
    return function.file, tuple(function.path)


def batches(edits):
    """Puts edits together that can be tried by one check."""
    made = []
    for edit in edits:
        home = next((it for it in made if do_fit([*it, edit])), None)
        if home is None:
            made.append([edit])
        else:
            home.append(edit)
    return made


def do_fit(edits):
    functions = [function for edit in edits for function in edit.functions]
    return len(functions) == len(set(functions)) and not any(it.is_alone for it in edits)


def drawn(bodies, seed, crates):
    """Some of the bodies, drawn by the seed, and where they can be such as one check tries together."""
    order = sorted(bodies, key=lambda it: hashlib.sha256(f"{seed} {it.crate} {it.name}".encode()).digest())
    edits = [Edit(it, crates) for it in order]
    return [it.body for it in sum(batches(edits), [])[:DRAWN]]


class Said:
    """What the prover said of a batch."""

    def __init__(self, status, output, changed, texts):
        # The sources of the crate as they were read.
        self.texts = texts
        lines = [it.removeprefix("so far: ") for it in output.rstrip("\n").split("\n")]
        self.last = next((it for it in reversed(lines) if not it.startswith("rt: ")), "")
        # Where it tells of a fault: the file, the row, and its words with the lines that go on from them.
        self.told = []
        for at, line in enumerate(lines):
            found = PLACE.match(line)
            if found and (": error" in line or line.startswith("note: ")):
                more = itertools.takewhile(lambda it: it.startswith("  "), itertools.islice(lines, at + 1, None))
                self.told.append((found[1], int(found[2]), " ".join([found[3], *more]), line))
        self.unread = [it for it in self.told if is_unread(it, changed)]
        is_judged = any(it.startswith(("logic=not-proved", "only=")) for it in lines)
        self.is_verdict = status == 1 and is_judged and not self.unread and "Run the lower steps again" not in output
        self.is_proved = status == 0

    def refusal_of(self, edit):
        """The goal of its own function that failed for its values, if there is one."""
        own = [it for it in self.told if edit.owns(*it[:2], self.texts)]
        first = next((it for it in own if not is_for_a_name(it)), None)
        return first[3] if self.is_verdict and first and is_goal(first) else None

    def blames(self, edit):
        return any(edit.owns(*it[:2], self.texts) for it in self.unread or self.told)

    def strays(self, batch):
        """The goals that failed although none of these is in their function."""
        own = lambda it: any(edit.owns(*it[:2], self.texts) for edit in batch)
        return [it[3] for it in self.told if is_goal(it) and not is_for_a_name(it) and not own(it)]

    def first(self):
        """What stands first of what it told."""
        return (self.unread or self.told or [[self.last]])[0][-1]

    def why_not(self, edit):
        if self.is_proved:
            return "the crate is still proved with it"
        if self.unread:
            return f"the prover cannot read the edited text: {self.first()}"
        if not self.is_verdict:
            return f"no verdict: {self.first()}"
        own = next((it for it in self.told if edit.owns(*it[:2], self.texts)), None)
        return f"refused for a name alone: {own[3]}" if own else f"refused, but at no goal of its function: {self.last}"


def is_unread(told, changed):
    file, _, what, _ = told
    found = re.match(r"error: (?:(`[^`]*`): )?(.*)", what)
    if not found or file not in changed and not file.startswith(("src/", "specs/")):
        return False
    return not found[1] or bool(UNREAD.search(re.sub(r"`[^`]*`", "", found[2])))


def is_for_a_name(told):
    return told[0].startswith("proofs/") and bool(NAMES.search(told[2]))


def is_goal(told):
    return told[0].startswith("src/") or told[0].startswith("proofs/") and bool(ANSWERED.match(told[2]))


def read(*path):
    with open(os.path.join(*path), encoding="utf-8") as file:
        return file.read()


class Repository:
    """Which crates there are, what each stands on, and what the prover's answers rest on."""

    def __init__(self):
        lines = [line.partition("#")[0] for line in read(TOP, "crates.txt").splitlines()]
        self.lines = {line.split()[0].rstrip(":"): line for line in lines if line.strip()}

    def below(self, crate):
        """The repository's libraries that it stands on, lowest first."""
        found = []
        for name in self.lines[crate].partition(":")[2].split():
            if name in self.lines:
                found += [it for it in [*self.below(name), name] if it not in found]
        return found

    def files(self, crate, parts=PARTS):
        found = [file for part in parts for file in glob.glob(os.path.join(TOP, "crates", crate, part, "**"), recursive=True)]
        return sorted(it for it in found if os.path.isfile(it))

    def sum_of(self, crate, rules, mine):
        """A sum of the bodies, of the crate, and of what its clauses mean by the crates below. Where a contract below says less, the crate's
        own proof fails; where one says more, a body that broke a clause still breaks it."""
        total = hashlib.sha256(rules.encode())
        definitions, models = self.meant_by(crate)
        for path in [*(it.path for it in mine), *definitions, *self.files(crate)]:
            total.update(repr((os.path.relpath(path, TOP), read(path))).encode())
        total.update(repr(models).encode())
        total.update(repr([self.lines[it] for it in [*self.below(crate), crate]]).encode())
        return total.hexdigest()

    def meant_by(self, crate):
        """The definitions below that a crate's files reach, and the models of those types below that they name."""
        below, own = self.below(crate), "".join(read(it) for it in self.files(crate))
        words = set(WORD.findall(own))
        models = [found for name in below for it in self.files(name, ("src",)) for found in MODEL.finditer(read(it))]
        models = [it[0] for it in models if it[1] in words]
        reached, left = set(), [own, *models]
        while left:
            new = {self.defined_in(*it) for it in DEFINED.findall(left.pop()) if it[0] in below} - reached - {None}
            reached |= new
            left += [read(it) for it in new]
        return sorted(reached), models

    def defined_in(self, crate, path):
        """The file of definitions that such a path leads into."""
        names = path.strip(".").split(".")
        places = [os.path.join(TOP, "crates", crate, "specs", *names[:count]) + ".antt" for count in range(len(names), 0, -1)]
        return next((it for it in places if os.path.isfile(it)), None)


@functools.lru_cache(maxsize=None)
def logic():
    """The rules by which the toolchain proves. Kits that have the same refuse the same: a false goal has no proof by them."""
    said = subprocess.run(["rt", "version"], capture_output=True, text=True, check=True).stdout
    return re.search(r"logic \w+", said)[0]


def commit():
    words = ["git", "-C", TOP, "rev-parse", "HEAD"]
    return subprocess.run(words, capture_output=True, text=True, check=True).stdout.strip()


class Room:
    """A folder for copies of the repository, one for each crate, and what runs in them."""

    def __init__(self, repository, are_proved):
        self.repository, self.are_proved = repository, are_proved
        self.running, self.is_stopped = set(), False
        self.folder = tempfile.mkdtemp(prefix="wrong-")

    def clear(self, *_):
        self.is_stopped = True
        for process in list(self.running):
            process.terminate()
            process.wait()
        for _ in range(20):
            shutil.rmtree(self.folder, ignore_errors=True)
            if not os.path.exists(self.folder):
                break
            time.sleep(0.2)

    def bench_of(self, crate):
        """A copy of what a crate is made from, with the libraries below it where they are built."""
        below = self.repository.below(crate)
        top = os.path.join(self.folder, crate)
        os.makedirs(os.path.join(top, ".git"))
        shutil.copy(os.path.join(TOP, "HANDLES"), top)
        with open(os.path.join(top, "crates.txt"), "w", encoding="utf-8") as file:
            file.writelines(self.repository.lines[it] + "\n" for it in [*below, crate])
        for name in [*below, crate]:
            os.makedirs(os.path.join(top, "crates", name))
            for path in self.repository.files(name):
                to = os.path.join(top, os.path.relpath(path, TOP))
                os.makedirs(os.path.dirname(to), exist_ok=True)
                shutil.copy(path, to)
        are_built = all(self.is_built(it) for it in below)
        for name in below if are_built else []:
            built = os.path.join("crates", name, "out", "rlib")
            shutil.copytree(os.path.join(TOP, built), os.path.join(top, built), copy_function=link)
        return os.path.join(top, "crates", crate), are_built

    def is_built(self, name):
        """Whether the library in out/ is that of the sources here. What the gate kept of an earlier run is older than they are."""
        built = os.path.join(TOP, "crates", name, "out", "rlib")
        sources = [file for it in [*self.repository.below(name), name] for file in self.repository.files(it)]
        return os.path.isdir(os.path.join(built, f"{name}.rlib")) and (self.are_proved or is_newer(built, [*sources, toolchain()]))

    def run(self, words, folder):
        if self.is_stopped:
            sys.exit(1)
        how = {"stdin": subprocess.DEVNULL, "stdout": subprocess.PIPE, "stderr": subprocess.STDOUT}
        process = subprocess.Popen(words, cwd=folder, text=True, errors="replace", **how)
        self.running.add(process)
        output = process.communicate()[0]
        self.running.discard(process)
        if self.is_stopped:
            sys.exit(1)
        return process.returncode, output


def link(path, to):
    try:
        os.link(path, to)
    except OSError:
        shutil.copy2(path, to)


def is_newer(folder, files):
    made = [it for it in glob.glob(os.path.join(folder, "**"), recursive=True) if os.path.isfile(it)]
    return max(map(os.path.getmtime, files)) < min(map(os.path.getmtime, made))


def toolchain():
    return os.path.realpath(shutil.which("rt"))


@functools.lru_cache(maxsize=None)
def rtlib():
    """What rt itself knows of crates: by which words it calls the prover."""
    sys.dont_write_bytecode = True
    path = os.path.join(os.path.dirname(toolchain()), "rtlib.py")
    loader = importlib.machinery.SourceFileLoader("rtlib", path)
    module = importlib.util.module_from_spec(importlib.util.spec_from_loader("rtlib", loader))
    loader.exec_module(module)
    return module


class Bench:
    """The copy in which the wrong bodies of one crate are tried."""

    def __init__(self, room, crate):
        self.room, self.crate = room, crate
        self.folder, are_built = room.bench_of(crate)
        self.ends, self.crates = {}, form.Crates(os.path.join(room.folder, crate))
        # The functions that the prover knows by another name than edits ask for: each that it does not know costs a reading of all.
        self.names = {**dict(names_by_type(crate, self.crates.of(crate))), **dict(names_by_alias(self.crates.of(crate)))}
        crate = rtlib().Crate(self.folder, rtlib().root_above(self.folder), {})
        self.words_of = lambda jobs: crate.words(["--jobs", jobs], as_source=not are_built)

    def try_all(self, bodies):
        """How each ended: the goal that refused it, or none, with why not."""
        edits = [Edit(it, self.crates) for it in bodies]
        self.ends = {it: (None, it.why) for it in edits if it.why}
        for batch in batches([it for it in edits if not it.why]):
            self.settle(batch)
        return self.ends

    def settle(self, batch):
        """Tries a batch, and what was not seen refused again in smaller ones."""
        said = self.check(batch)
        for edit in batch:
            self.ends[edit] = (said.refusal_of(edit), said.why_not(edit))
        left = [it for it in batch if not self.ends[it][0]]
        if len(batch) > 1:
            for part in smaller(left, batch, said):
                self.settle(part)

    def check(self, batch):
        start, right = time.monotonic(), self.crates.of(self.crate)
        made = self.crates.with_spots([it for edit in batch for it in edit.spots])
        changed = {file: text for (_, file), text in made.items()}
        self.write(changed)
        status, output = self.prove({it for edit in batch for it in edit.asked()})
        self.write({file: right[file] for file in changed})
        said = Said(status, output, set(changed), {**right, **changed})
        self.tell(batch, said, time.monotonic() - start)
        return said

    def prove(self, only):
        """Asks for these functions. Where the prover knows one by another name, or several by this one, it asks for all that end so."""
        asked = {name for it in only for name in self.names.get(it, [it])}
        # (a second job takes a seventh more of the processor, which pays where it is asked for many)
        words = [rtlib().RATTLE, "check", *self.words_of("1" if len(only) <= FEW else "2")]
        words += [word for it in sorted(asked) for word in ("--only", it)]
        status, output = self.room.run([*words, "--incremental", os.path.join(self.folder, "out", "checked")], self.folder)
        unknown, several = UNKNOWN.search(output), SEVERAL.search(output)
        name = (unknown or several or [None, None])[1]
        better = name and ([name.rpartition("::")[2]] if unknown else re.findall("`([^`]*)`", several[2]))
        if name not in asked or better == [name]:
            return status, output
        for it in only:
            mine = self.names.get(it, [it])
            if name in mine:
                self.names[it] = [*better, *(other for other in mine if other != name)]
        return self.prove(only)

    def tell(self, batch, said, seconds):
        refused = sum(bool(said.refusal_of(it)) for it in batch)
        what = batch[0].name if len(batch) == 1 else f"{len(batch)} bodies"
        how = "" if said.is_verdict or said.is_proved else f"; no verdict: {said.first()[:160]}"
        print(f"{self.crate}: {what} in {seconds:.0f} s, {refused} refused{how}", flush=True)
        if said.is_verdict and not batch[0].is_alone:
            for line in said.strays(batch):
                print(f"{self.crate}: this fails, and nothing was changed there: {line[:160]}", flush=True)

    def write(self, texts):
        for file, text in texts.items():
            with open(os.path.join(self.folder, file), "w", encoding="utf-8") as it:
                it.write(text)


def names_by_type(crate, texts):
    """The functions of a type of the crate, which the prover names by where that stands, or where an impl for some types alone does: another
    crate may have one of the same name."""
    homes = {name: form.module_of(file) for file, text in texts.items() for name in TYPE.findall(text)}
    for file, text in texts.items():
        for it in form.functions_of(file, text):
            if it.owner in homes:
                home = form.module_of(file) if it.types else homes[it.owner]
                yield "::".join(it.path), ["::".join([crate, *home, it.owner + it.types, it.name])]


def names_by_alias(texts):
    """The functions of an impl for an alias of a type, which the prover names with all that the alias is given."""
    aliases = {name for text in texts.values() for name in ALIAS.findall(text)}
    for file, text in texts.items():
        given = {name: "".join(f"+{it}" for it in WORD.findall(found)) for name, found in IMPL.findall(text) if name in aliases}
        for it in form.functions_of(file, text):
            if it.owner in given and not it.types:
                yield "::".join(it.path), ["::".join([it.owner + given[it.owner], it.name])]


def smaller(left, batch, said):
    """The batches in which to try again what was not seen refused."""
    if len(left) < len(batch):
        return [left] if left else []
    blamed = [it for it in batch if said.blames(it)]
    if 0 < len(blamed) < len(batch):
        return [[it for it in batch if it not in blamed], *([it] for it in blamed)]
    return [batch[: len(batch) // 2], batch[len(batch) // 2 :]]


def tried():
    """What wrong/tried says: crates, each with a sum and a logic."""
    lines = read(TRIED).splitlines() if os.path.exists(TRIED) else []
    return {tuple(line.split(" ", 2)) for line in lines if line and not line.startswith("#")}


def renew(sums, refused, failed):
    """Writes down the rows of the crates whose bodies were all refused. Forgotten is what was of other files, and a crate of which one was
    not refused."""
    rows = [row for row in tried() | refused if row[0] not in failed and sums.get(row[0]) == row[1:]]
    rows.sort(key=lambda row: list(sums).index(row[0]))
    with open(TRIED, "w", encoding="utf-8") as file:
        file.writelines([HEAD, *(" ".join(row) + "\n" for row in rows)])


def at_once(wanted):
    """How many checks the machine can hold."""
    free = int(re.search(r"MemAvailable:\s+(\d+)", read("/proc/meminfo"))[1]) * 1024
    return max(1, min(wanted, free // ONE_CHECK))


def try_crate(room, crate, bodies):
    start = time.monotonic()
    ends = Bench(room, crate).try_all(bodies)
    bad = [(it, why) for it, (refusal, why) in ends.items() if not refusal]
    for edit, why in bad:
        print(f"{crate}/{edit.name}: NOT REFUSED: {why}", flush=True)
    print(f"{crate}: {len(bodies) - len(bad)} of {len(bodies)} refused, {time.monotonic() - start:.0f} s", flush=True)
    return len(bad)


def of_crates():
    """The bodies that the prover must refuse, by crates in the order of crates.txt."""
    found = {name: [] for name in Repository().lines}
    for it in form.bodies(TOP):
        if it.is_seen_by("prover"):
            found[it.crate].append(it)
    return {name: bodies for name, bodies in found.items() if bodies}


def chosen_of(crate, bodies, is_known, given):
    """All of a crate's, or some: of one that wrong/tried knows as it is."""
    return drawn(bodies, given.seed or commit(), form.Crates(TOP)) if is_known and not given.all else bodies


def try_all(given):
    """How many passed, and how many did not."""
    repository, all_bodies = Repository(), of_crates()
    # (sums of what is tried: files may change while that goes on)
    sums = {crate: (repository.sum_of(crate, logic(), mine), logic()) for crate, mine in all_bodies.items()}
    known, chosen = tried(), {}
    for crate in given.names or all_bodies:
        is_known = (crate, *sums[crate]) in known
        chosen[crate] = chosen_of(crate, all_bodies[crate], is_known, given)
        print(f"{crate}: {len(chosen[crate])} bodies; it is {'as' if is_known else 'not as'} wrong/tried says", flush=True)
    # (the longest first)
    crates = sorted(chosen, key=lambda it: -sum(os.path.getsize(file) for file in repository.files(it)))
    room = Room(repository, given.proved)

    def interrupted(*_):
        room.clear()
        os._exit(130)

    for it in (signal.SIGINT, signal.SIGTERM):
        signal.signal(it, interrupted)
    try:
        with ThreadPoolExecutor(at_once(given.jobs)) as pool:
            failed = dict(zip(crates, pool.map(lambda it: try_crate(room, it, chosen[it]), crates)))
    finally:
        room.clear()
    if given.all:
        renew(sums, {(it, *sums[it]) for it in crates if not failed[it]}, [it for it in crates if failed[it]])
    bad = sum(failed.values())
    return sum(map(len, chosen.values())) - bad, bad
