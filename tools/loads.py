"""Commands at a real Redis on loopback, over our pool and adapter and over Rust's r2d2: `tools/times redis`."""
import os
import subprocess
import sys
import tempfile
from statistics import median

import unproved
from copies import TESTS, TOP
from priority import go_first, may_go_first

sys.path.append(os.path.join(TOP, "tools", "tries"))
import adapters
from servers import HOST, FleetingRedis

# A run is short, so that some meet no other work. (r2d2 has no check after an idle time: beside that stands what it does without checks.)
COMMANDS, RUNS = 4_000, 5
CHECKS, THREADS = ["never", "idle", "always"], [1, 4, 8, 16]
# What runs, and what it is given more.
WAYS = {"ours": [], "r2d2": ["quiet"], "r2d2, without looks": []}


def built(folder):
    """Our program, compiled as for a proved build."""
    mine, path = os.path.join(folder, "mine"), os.path.join(folder, "redis_load")
    adapters.repository(mine)
    crate = os.path.join(mine, "crates", "redis_load")
    adapters.put_source(os.path.join(TESTS, "redis_load"), crate)
    with open(os.path.join(mine, "crates.txt"), "a", encoding="utf-8") as it:
        it.write("redis_load: r2d2 redis\n")
    with unproved.Group() as group:
        unproved.compile_by(group, crate, path, unproved.as_proved)
    return path


def took(path, port, threads, checks, more, is_first):
    """The nanoseconds for each command."""
    words = [path, f"{HOST}:{port}", str(threads), checks, str(COMMANDS), *more]
    done = subprocess.run(words, stdout=subprocess.PIPE, check=True, preexec_fn=go_first if is_first else None)
    return int(done.stdout) / COMMANDS


def seen_at(server, paths, rounds):
    """The figures of each way, for each kind of checks and number of threads."""
    is_first, seen = may_go_first(), {}
    server.start()
    if is_first:
        go_first(server.process.pid)
    for number in range(rounds * RUNS):
        # (what runs first meets what others left)
        ways = list(WAYS)[:: -1 if number % 2 else 1]
        for checks, threads, way in ((a, b, c) for a in CHECKS for b in THREADS for c in ways):
            figure = took(paths[way], server.port, threads, checks, WAYS[way], is_first)
            seen.setdefault((checks, threads), {}).setdefault(way, []).append(figure)
    return seen, is_first


def share(ours, theirs):
    """The throughput of ours beside theirs, by pairs of runs that met the same other work."""
    return median(other / own for own, other in zip(ours, theirs))


def time_redis(rounds, theirs, say):
    if not FleetingRedis.is_there():
        sys.exit(f"times: redis-server is missing: apt-get install {FleetingRedis.PACKAGE}")
    with tempfile.TemporaryDirectory() as folder:
        program = theirs.build(folder)
        say("compiling ours")
        paths = {way: program for way in WAYS} | {"ours": built(folder)}
        server, start = FleetingRedis(os.path.join(folder, "server")), os.getloadavg()[0]
        try:
            seen, is_first = seen_at(server, paths, rounds)
        finally:
            server.end()
        end = os.getloadavg()[0]
    print("UNPROVED: ours is compiled as for a proved build, but not proved")
    print("| checks | threads | ours, ns | r2d2, ns | without looks, ns | of r2d2's throughput | of that without looks |")
    print("|---|---:|---:|---:|---:|---:|---:|")
    for (checks, threads), ways in seen.items():
        looks, bare = (share(ways["ours"], ways[way]) for way in list(WAYS)[1:])
        each = " | ".join(f"{min(ways[way]):,.0f}/{median(ways[way]):,.0f}" for way in WAYS)
        print(f"| {checks} | {threads} | {each} | {looks:.2f} | {bare:.2f} |")
    how = "at a real-time priority" if is_first else "at no priority of their own"
    print(f"\nthe least and the median of {rounds * RUNS} runs, {how}, cores {len(os.sched_getaffinity(0))}, load {start:.1f} at the start and {end:.1f} at the end")
