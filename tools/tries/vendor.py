"""The script `vendor`, on folders of its own."""
import filecmp
import os
import re
import shutil
import subprocess
import tempfile

import trying
from copies import Runs
from tally import TOP, Tally

TALLY = Tally("vendor")
check = TALLY.check

PROGRAM = """//! A pool of numbers.
#![tactic(auto)]

use r2d2::{Builder, ManageConnection};
use std::alloc::AllocError;

#[derive(Drop)]
struct Sevens;

impl ManageConnection for Sevens {
    type Connection = u32;

    type Error = AllocError;

    type Extension = ();

    fn connect(&self) -> Result<u32, AllocError> {
        Ok(7)
    }

    fn is_valid(&self, _number: &mut u32) -> Result<(), AllocError> {
        Ok(())
    }

    fn has_broken(&self, _number: &mut u32) -> bool {
        false
    }
}

fn main(rt: HostRuntime) -> Result<(), anyhow::Error> {
    let pool = Builder::new().max_size(1).build(rt, Sevens)?;
    let number = pool.get()?;
    println!(rt; "lent {}: {:?}", *number, pool.state())?;
    Ok(())
}
"""


def read(*path):
    with open(os.path.join(*path), encoding="utf-8") as file:
        return file.read()


def write(text, *path):
    with open(os.path.join(*path), "w", encoding="utf-8") as file:
        file.write(text)


def answers(what, status, line, *words):
    """Runs `vendor`, and holds its status and a line of what it says against what is wanted."""
    done = subprocess.run([os.path.join(TOP, "vendor"), *words], stdout=subprocess.PIPE, stderr=subprocess.STDOUT, text=True)
    check(what, done.returncode == status and line in done.stdout.splitlines(), done)


def files(folder):
    """The files of a folder, with what they hold."""
    found = {}
    for place, _, names in os.walk(folder):
        for name in names:
            with open(os.path.join(place, name), "rb") as file:
                found[os.path.relpath(os.path.join(place, name), folder)] = file.read()
    return found


def ours_of(crate):
    """The files of a crate, but for what checks keep; those of an adapter under the names that they get."""
    adapter = os.path.join(TOP, "adapters", crate)
    if os.path.isdir(adapter):
        return {os.path.join("src", re.sub(r"\.rs$", ".rt", path)): text for path, text in files(adapter).items()}
    return {path: text for path, text in files(os.path.join(TOP, "crates", crate)).items() if not path.startswith("out/")}


def arrives(mine, crate):
    """Every file of a crate is there as it is here."""
    ours = ours_of(crate)
    theirs = files(os.path.join(mine, "crates", crate))
    differ = {path for path in ours.keys() | theirs.keys() if ours.get(path) != theirs.get(path)}
    check(f"{crate} arrives", ours and all(os.path.basename(path).startswith("LICENSE-") for path in differ), differ)
    is_licensed = filecmp.cmp(os.path.join(TOP, "LICENSE-MIT"), os.path.join(mine, "crates", crate, "LICENSE-MIT"), False)
    check(f"the licence of {crate} arrives", is_licensed)


def runs(mine):
    """The pool runs there, in a program of its owner's."""
    folder = os.path.join(mine, "crates", "numbers")
    os.makedirs(os.path.join(folder, "src"))
    write(PROGRAM, folder, "src", "main.rt")
    write(read(mine, "crates.txt") + "numbers: r2d2 anyhow\n", mine, "crates.txt")
    status, said = Runs().run(trying.command(), cwd=folder)
    is_written = "lent 7: State { connections: 1, idle_connections: 0 }" in said.splitlines()
    check("the pool runs there", status == 0 and is_written, said[-2000:])


def try_an_empty_folder(mine, lines):
    os.mkdir(mine)
    answers("an empty folder", 0, "put there: crates/r2d2", mine)
    for crate in ("pool_machine", "r2d2_core", "pool_state", "r2d2"):
        arrives(mine, crate)
    check("the lines arrive", read(mine, "crates.txt") == lines, read(mine, "crates.txt"))
    check("the handles arrive", read(mine, "HANDLES") == read(TOP, "HANDLES"))
    before = files(mine)
    answers("a second call is refused", 1, "vendor: crates/r2d2 is already there", mine)
    check("a second call does nothing", files(mine) == before)
    runs(mine)


def try_a_repository(theirs, lines):
    """A repository with a crate of its own, whose last line has no line feed."""
    os.mkdir(theirs)
    write("# mine\nown: anyhow", theirs, "crates.txt")
    shutil.copy(os.path.join(TOP, "HANDLES"), theirs)
    answers("a repository with crates", 0, "put there: crates.txt: four lines more", theirs)
    check("its lines stay", read(theirs, "crates.txt") == "# mine\nown: anyhow\n" + lines, read(theirs, "crates.txt"))


def try_reports(logged):
    """With what writes reports of the journal as text."""
    os.mkdir(logged)
    answers("with reports", 0, "put there: crates.txt: made, with five lines", "--reports", logged)
    lines = re.findall(r"^(?:r2d2|pool_machine|r2d2_core|pool_state|pool_reports)[ :].*\n", read(TOP, "crates.txt"), re.M)
    check("the lines of all arrive", sorted(read(logged, "crates.txt").splitlines(True)) == sorted(lines), read(logged, "crates.txt"))
    arrives(logged, "pool_reports")


def try_metrics(measured):
    """With what counts and times, which stands on what writes reports."""
    os.mkdir(measured)
    answers("with metrics", 0, "put there: crates.txt: made, with six lines", "--metrics", measured)
    arrives(measured, "pool_metrics")
    arrives(measured, "pool_reports")


def try_options(place):
    """With all that there is beside the pool."""
    mine, crates = os.path.join(place, "all"), ["pool_tasks", "r2d2_async", "tokio_timer", "loop_timer", "pool_metrics", "pool_reports", "deadline", "server_url", "redis_codec", "redis",
                                                 "postgres_codec", "postgres", "tokio_socket", "redis_tasks", "postgres_tasks"]
    os.mkdir(mine)
    words = ["--postgres", "--async", "--redis", "--reports", mine, "--metrics"]
    answers("with all options", 0, "put there: HANDLES: made; it reads 'Handles allowed: Threads, Wait, Net.'", *words)
    for crate in ["pool_machine", "r2d2_core", "pool_state", "r2d2", *crates]:
        arrives(mine, crate)
    listed = [line.partition(":")[0].split()[0] for line in read(mine, "crates.txt").splitlines()]
    check("each has its line", sorted(listed) == sorted(["pool_machine", "r2d2_core", "pool_state", "r2d2", *crates]), listed)


def try_later(place):
    """Into a repository that has the pool comes what else is asked for. What is there stays."""
    mine = os.path.join(place, "later")
    os.mkdir(mine)
    answers("the pool at first", 0, "put there: crates/r2d2", mine)
    # (a proof, and a program of its owner's, who has Net allowed)
    for path in (("crates", "r2d2", "out"), ("crates", "hello")):
        os.makedirs(os.path.join(mine, *path))
        write("mine", mine, *path, "mine")
    write("Handles allowed: Threads, Wait, Net.\n", mine, "HANDLES")
    before = files(mine)
    for what, option, added in [
        ("tasks", "--async", ["pool_tasks", "r2d2_async", "tokio_timer", "loop_timer"]), ("Redis for them", "--redis", ["redis_codec", "deadline", "server_url", "redis", "tokio_socket", "redis_tasks"]),
        ("reports", "--reports", ["pool_reports"]),
    ]:
        if option == "--redis":
            write("mine", mine, "crates", "tokio_timer", "src", "lib.rt")
            before = files(mine)
        words = ["--async", "--redis", mine] if option == "--redis" else [option, mine]
        answers(f"{what} later", 0, "already there: crates/r2d2_core", *words)
        for crate in added:
            arrives(mine, crate)
        now = files(mine)
        check(f"what was there before {what} stays", all(now.get(path) == text or path == "crates.txt" for path, text in before.items()), now.keys())
        check(f"its lines stay before {what}", now["crates.txt"].startswith(before["crates.txt"]), now["crates.txt"])
        before = now
    listed = [line.partition(":")[0].split()[0] for line in read(mine, "crates.txt").splitlines()]
    check("each has one line at last", len(listed) == len(set(listed)) == 15, listed)
    first = os.path.join(TOP, "adapters", "first_postgres_tasks", "main.rs")
    answers("a program of its owner's stays", 0, f"    cp {first} crates/hello_postgres_tasks/src/main.rt", "--async", "--postgres", mine)
    for crate in ("postgres_codec", "postgres", "postgres_tasks"):
        arrives(mine, crate)


def try_another_pool(place):
    """A pool that is not that of here is none to add to."""
    mine = os.path.join(place, "another")
    os.mkdir(mine)
    answers("a pool", 0, "put there: crates/r2d2", mine)
    path = os.path.join("crates", "pool_state", "src", "lib.rt")
    write(read(mine, path) + "// mine\n", mine, path)
    before = files(mine)
    answers("an edited pool is refused", 1, "vendor: crates/pool_state is already there, and differs from the one here", "--async", mine)
    write(read(TOP, path), mine, path)
    os.unlink(os.path.join(mine, "crates", "r2d2", "src", "lib.rt"))
    answers("a part of a pool is refused", 1, "vendor: crates/r2d2 is already there, and differs from the one here", "--async", mine)
    shutil.copy(os.path.join(TOP, "crates", "r2d2", "src", "lib.rt"), os.path.join(mine, "crates", "r2d2", "src"))
    write("", mine, "crates.txt")
    answers("a pool without lines is refused", 1, "vendor: crates/r2d2_core is already there, and crates.txt has no line for it", "--async", mine)
    check("refusals do nothing", files(mine).keys() == before.keys(), files(mine).keys() ^ before.keys())


def try_steps(place):
    """The steps name all that was asked for."""
    for options, firsts, pages in [
        (["--redis", "--postgres"], ["first_redis", "first_postgres"], ["redis", "postgres"]),
        (["--async", "--postgres"], ["first_postgres_tasks"], ["postgres"]),
        (["--async", "--redis", "--postgres", "--metrics", "--reports"], ["first_redis_tasks", "first_postgres_tasks"],
         ["redis", "postgres", "pool_metrics", "pool_reports"]),
        (["--metrics"], ["first_pool"], ["pool_metrics"]),
    ]:
        mine = os.path.join(place, "steps" + "".join(options))
        os.mkdir(mine)
        said = subprocess.run([os.path.join(TOP, "vendor"), *options, mine], stdout=subprocess.PIPE, text=True).stdout
        copied = re.findall(r"^    cp \S*/(first_\w+)(?:/src)?/main\.r[st] crates/(\w+)/src/main\.rt$", said, re.M)
        is_so = [first for first, _ in copied] == firsts and len({name for _, name in copied}) == len(firsts)
        check(f"the steps after {' '.join(options)}", is_so and re.findall(r"\.md shows (\w+)", said) == pages, said)
        guide = "TASKS" if "--async" in options else "GUIDE"
        check(f"where {' '.join(options)} goes on", re.findall(r"(\w+)\.md goes on from here", said) == [guide], said)


def try_an_adapter(place):
    """It opens sockets, so it needs more handles than the pool alone."""
    mine, first = os.path.join(place, "redis"), os.path.join(TOP, "adapters", "first_redis", "main.rs")
    os.mkdir(mine)
    shutil.copy(os.path.join(TOP, "HANDLES"), mine)
    said = "vendor: HANDLES says 'Handles allowed: Threads, Wait.', and must say 'Handles allowed: Threads, Wait, Net.'"
    answers("an adapter without Net is refused", 1, said, "--redis", mine)
    check("and is not there", os.listdir(mine) == ["HANDLES"], os.listdir(mine))
    os.unlink(os.path.join(mine, "HANDLES"))
    told = f"    cp {first} crates/hello/src/main.rt"
    answers("an adapter tells of its first program", 0, told, "--redis", mine)
    mine = os.path.join(place, "server")
    os.mkdir(mine)
    server = "Next, for a first program of your own, which expects a Redis at 127.0.0.1:6379:"
    answers("and which server that expects", 0, server, "--redis", mine)
    check("the first program is there", os.path.isfile(first))


def try_tasks(place):
    """Its first program is one of tasks, on tokio, which needs one handle more."""
    mine, first = os.path.join(place, "tasks"), os.path.join(TOP, "adapters", "first_tokio", "main.rs")
    os.mkdir(mine)
    write("Handles allowed: Print, Threads, Wait.\n", mine, "HANDLES")
    done = subprocess.run([os.path.join(TOP, "vendor"), "--async", mine], stdout=subprocess.PIPE, text=True)
    steps = [line.strip() for line in done.stdout.splitlines() if line.startswith("    ")]
    wanted = [
        f"cd {mine} && mkdir -p crates/hello/src", f"cp {first} crates/hello/src/main.rt",
        "echo 'hello: r2d2_async tokio_timer tokio futures anyhow' >> crates.txt",
        "echo 'Handles allowed: Print, Threads, Wait, Net.' > HANDLES    # tokio needs Net",
        "cd crates/hello && rt try    # compiles and runs it, without proof: some minutes of a processor each time",
    ]
    check("the steps to a first program of tasks", steps == wanted and os.path.isfile(first), steps)
    arrives(mine, "tokio_timer")


def try_servers_for_tasks(place):
    """Who wants a server and tasks gets what is for both, and its first program, of at most sixty lines, none of which is for a proof."""
    for name, server in (("redis", "a Redis at 127.0.0.1:6379"), ("postgres", "a PostgreSQL at 127.0.0.1:5432")):
        mine, first = os.path.join(place, f"{name}-for-tasks"), os.path.join(TOP, "adapters", f"first_{name}_tasks", "main.rs")
        os.mkdir(mine)
        done = subprocess.run([os.path.join(TOP, "vendor"), f"--{name}", "--async", mine], stdout=subprocess.PIPE, text=True)
        steps = [line.strip() for line in done.stdout.splitlines() if line.startswith("    ")]
        wanted = [
            f"cd {mine} && mkdir -p crates/hello/src", f"cp {first} crates/hello/src/main.rt",
            f"echo 'hello: r2d2_async {name}_tasks tokio_timer tokio futures anyhow' >> crates.txt",
            "cd crates/hello && rt try    # compiles and runs it, without proof: some minutes of a processor each time",
        ]
        check(f"the steps to a first program of tasks over {name}", steps == wanted, steps)
        check(f"the server that it expects is {server}", f"which expects {server}:" in done.stdout, done.stdout)
        for crate in (f"{name}_tasks", "tokio_socket", "tokio_timer", "deadline"):
            arrives(mine, crate)
        lines = read(first).splitlines()
        check(f"the first program of tasks over {name} is short", len(lines) <= 60 and not any("ghost" in line for line in lines), len(lines))
    mine = os.path.join(place, "redis")
    check("who wants no tasks does not get them", not any(os.path.exists(os.path.join(mine, "crates", crate)) for crate in ("redis_tasks", "tokio_socket")))


def try_refusals(place):
    strict, lines = os.path.join(place, "strict"), os.path.join(place, "lines")
    os.mkdir(strict)
    write("Handles allowed: none.\n", strict, "HANDLES")
    before = files(strict)
    said = "vendor: HANDLES says 'Handles allowed: none.', and must say 'Handles allowed: Threads, Wait.'"
    answers("too few handles are refused", 1, said, strict)
    check("and stay", files(strict) == before)
    # A line of crates.txt with no folder beside it.
    os.mkdir(lines)
    write("r2d2 may_wait=1: log\n", lines, "crates.txt")
    answers("a line that is there is refused", 1, "vendor: crates.txt already has a line for r2d2", lines)
    none = os.path.join(place, "none")
    answers("no folder is refused", 1, f"vendor: {none} is no folder", none)
    answers("itself is refused", 1, f"vendor: {TOP} is this repository itself", TOP)
    answers("no word shows how", 2, "Puts the pool into a repository of your own: vendor [OPTION..] FOLDER")
    answers("no such option", 2, "Puts the pool into a repository of your own: vendor [OPTION..] FOLDER", "--mysql", none)


def try_nobody_who_reads(mine):
    """What it says goes into a pipe that nobody reads any more."""
    os.mkdir(mine)
    end, begin = os.pipe()
    os.close(end)
    done = subprocess.run([os.path.join(TOP, "vendor"), mine], stdout=begin, stderr=subprocess.PIPE)
    os.close(begin)
    check("all is there though nobody reads", done.stderr == b"" and os.path.exists(os.path.join(mine, "HANDLES")), done)


def tried():
    lines = "".join(re.findall(r"^(?:r2d2|pool_machine|r2d2_core|pool_state)[ :].*\n", read(TOP, "crates.txt"), re.M))
    with tempfile.TemporaryDirectory() as place:
        try_an_empty_folder(os.path.join(place, "mine"), lines)
        try_a_repository(os.path.join(place, "theirs"), lines)
        try_reports(os.path.join(place, "logged"))
        try_metrics(os.path.join(place, "measured"))
        try_options(place)
        try_later(place)
        try_another_pool(place)
        try_steps(place)
        try_an_adapter(place)
        try_tasks(place)
        try_servers_for_tasks(place)
        try_refusals(place)
        try_nobody_who_reads(os.path.join(place, "unread"))
    return TALLY
