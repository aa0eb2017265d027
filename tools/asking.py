"""Tasks that ask a real PostgreSQL, for `tools/times servers`: tests/server_bench over our pool and adapter, and tools/peers over
tokio-postgres, by the same queries, in turn."""
import os
import re
import subprocess
import sys
import tempfile
import threading
from datetime import datetime, timezone

import unproved

sys.path.insert(0, os.path.join(os.path.dirname(os.path.realpath(__file__)), "tries"))
from adapters import put_source
from copies import TESTS
from servers import HOST, Postgres
from tally import TOP

LIBRARIES = "r2d2 r2d2_async postgres_tasks tokio_timer tokio futures"
# What is asked, by the word for it.
REQUESTS = {
    "read": "a query", "value": "one with a value, prepared once", "text": "the same, prepared each time",
    "write": "a transaction of three", "reset": "the same, and a reset of the session",
}
TASKS, SECONDS = 100, 8
# An outage: the server is killed after so many seconds, and begins anew so many later.
BEFORE, AWAY, AFTER = 2, 5, 8
READY = re.compile(r"^(\S+ \S+) UTC .*ready to accept connections$", re.MULTILINE)


def ours(folder):
    """The path of our program, compiled as a proved one is."""
    mine, path = os.path.join(folder, "mine"), os.path.join(folder, "ours", "server_bench")
    subprocess.run(["git", "init", "-q", mine], check=True)
    subprocess.run([os.path.join(TOP, "vendor"), "--async", "--postgres", mine], check=True, stdout=subprocess.DEVNULL)
    put_source(os.path.join(TESTS, "server_bench"), os.path.join(mine, "crates", "server_bench"))
    with open(os.path.join(mine, "crates.txt"), "a", encoding="utf-8") as file:
        file.write(f"server_bench: {LIBRARIES}\n")
    unproved.compile_program(os.path.join(mine, "crates", "server_bench"), path, unproved.as_proved)
    return path


def begun(path, server, request, seconds):
    """Either program, as it asks."""
    kind = ["serve"] if os.path.basename(path) == "peers" else []
    words = [path, *kind, f"{HOST}:{server.port}", request, str(TASKS), str(seconds * 1000)]
    return subprocess.Popen(words, stdin=subprocess.DEVNULL, stdout=subprocess.PIPE, text=True)


def counts(process):
    """What a program tells, and the microseconds that it took of the processors."""
    said = process.stdout.read()
    _, status, used = os.wait4(process.pid, 0)
    process.returncode = os.waitstatus_to_exitcode(status)
    if process.returncode:
        sys.exit(f"times: {process.args[0]} ended with the status {process.returncode}")
    told = {name: int(number) for name, number in re.findall(r"(\w+)=(\d+)", said)}
    return {**told, "used": (used.ru_utime + used.ru_stime) * 1e6}


def rate(path, server, request):
    """Requests a second, the longest of them in milliseconds, and what each took of the processors, in microseconds. (On a busy machine some
    wait for too long.)"""
    told = counts(begun(path, server, request, SECONDS))
    if (told["failed"] + told["timeouts"]) * 1000 > told["served"]:
        sys.exit(f"times: {os.path.basename(path)}, {request}: {told}")
    return told["served"] / SECONDS, told["longest"] / 1000, told["used"] / told["served"]


def outage(path, server):
    """By how much a caller overran its second of waiting, and how long after the server was ready anyone was served, in milliseconds."""
    process = begun(path, server, "read", BEFORE + AWAY + AFTER)
    pause = threading.Event().wait
    pause(BEFORE)
    server.crash()
    pause(AWAY)
    server.start()
    told = counts(process)
    with open(os.path.join(server.folder, "log"), encoding="utf-8") as file:
        ready = READY.findall(file.read())[-1]
    moment = datetime.strptime(ready, "%Y-%m-%d %H:%M:%S.%f").replace(tzinfo=timezone.utc).timestamp() * 1000
    if told["to"] < moment:
        sys.exit(f"times: {os.path.basename(path)} was not served after an outage: {told}")
    return told["late"] / 1000, told["to"] - moment, told["timeouts"], told["failed"]


def median(numbers):
    return sorted(numbers)[len(numbers) // 2]


def timed(theirs, folder, rounds, say):
    programs = {"ours": ours(folder), "theirs": theirs}
    os.chmod(folder, 0o711)
    server = Postgres(os.path.join(folder, "postgres"))
    try:
        server.start().ask("CREATE TABLE noted (task int, at timestamptz DEFAULT now())")
        start, rates = os.getloadavg()[0], {}
        for number in range(rounds):
            say(f"round {number + 1} of {rounds}")
            for request in REQUESTS:
                for who, path in programs.items():
                    rates.setdefault((request, who), []).append(rate(path, server, request))
        outages = {who: [outage(path, server) for _ in range(min(rounds, 3))] for who, path in programs.items()}
        end = os.getloadavg()[0]
    finally:
        server.end()
    print_rates(rates)
    print_outages(outages)
    print(f"\nrounds {rounds}, tasks {TASKS}, cores {len(os.sched_getaffinity(0))}, load {start:.1f} at the start and {end:.1f} at the end")


def print_rates(rates):
    print("| asked | ours a second | theirs | ours/theirs | longest, ms | theirs | us | theirs |")
    print("|---|---:|---:|---:|---:|---:|---:|---:|")
    for request, what in REQUESTS.items():
        mine, other = (list(zip(*rates[request, who])) for who in ("ours", "theirs"))
        ratio = median([a / b for a, b in zip(mine[0], other[0])])
        cells = [f"{median(mine[0]):,.0f}", f"{median(other[0]):,.0f}", f"{ratio:.2f}"]
        cells += [f"{median(it):.0f}" for place in (1, 2) for it in (mine[place], other[place])]
        print(f"| {what} | " + " | ".join(cells) + " |")


def print_outages(outages):
    print("\n| a server that is away for 5 s | late by, ms | served after, ms | timeouts | failed |")
    print("|---|---:|---:|---:|---:|")
    for who, seen in outages.items():
        cells = [", ".join(f"{it:,.0f}" for it in column) for column in zip(*seen)]
        print(f"| {who} | " + " | ".join(cells) + " |")
