"""The adapters at a socket of this machine: what holds at an address holds there too."""
import contextlib
import os
import re
import signal
import socket
import time

from peer import DEADLINE, SLACK
from servers import SECONDS, Postgres, within

# Who may open no socket of another's.
NOBODY = ["setpriv", "--reuid=65534", "--regid=65534", "--clear-groups"] if os.geteuid() == 0 else []
# What is wrong with a path, and what is told of it. (A test of a user's own needs no other user.)
WRONG = [("absent", "No such file or directory"), ("deserted", "Connection refused"), ("forbidden", "Permission denied"), ("x" * 108, "path must be shorter than SUN_LEN")]


# What one caller leaves, and how the next one asks for it and is told that it is gone.
LEFT = {"redis": ("SELECT 3", "CLIENT INFO", " db=0 "), "postgres": ("SET statement_timeout = 12345", "SHOW statement_timeout", 'Some("0")')}


def bind(folder, name, rights):
    path = os.path.join(folder, name)
    it = socket.socket(socket.AF_UNIX)
    it.bind(path)
    os.chmod(path, rights)
    return it


@contextlib.contextmanager
def wrong_sockets(folder):
    """A socket that nobody listens at, one that nobody else may open, and one whose queue is full."""
    os.makedirs(folder)
    os.chmod(folder, 0o711)
    bind(folder, "deserted", 0o777).close()
    with bind(folder, "forbidden", 0) as forbidden, bind(folder, "full", 0o777) as full, socket.socket(socket.AF_UNIX) as first:
        forbidden.listen()
        full.listen(0)
        first.connect(os.path.join(folder, "full"))
        yield


def try_local(trial):
    service = trial.service(trial.server.path())
    try_counted(trial, service)
    try_wrong(trial)
    try_late(trial)
    try_reset(trial)
    trial.check("at a path the service ends", service.end() == 0)


def try_counted(trial, service):
    """What is acknowledged there is counted, also where the server goes and comes back."""
    before = trial.server.total()
    counts = service.goes(400)
    trial.check("at a path all is counted", (counts["done"], trial.server.total() - before) == (400, 400), counts)
    trial.check("at a path one is left open", service.ask("open") == "true")
    counts = service.goes(40)
    is_so = (counts["done"], counts["failed"], counts["wrong"]) == (440, 0, 0) and trial.server.total() == before + 440
    trial.check("at a path nobody meets what was left open", is_so, counts)
    service.begins(1000)
    killed = trial.server.kill_connections()
    trial.server.crash()
    time.sleep(0.5)
    trial.server.start()
    counts, told = service.rests(), trial.server.total() - before
    is_so = killed > 0 and counts["wrong"] == 0 and counts["done"] <= told <= counts["done"] + counts["failed"]
    trial.check("at a path, killed and restarted", is_so, (counts, told))
    after = service.goes(40)
    trial.check("at a path all is well after that", after["done"] == counts["done"] + 40, (counts, after))


def told_at(trial, path, runner=()):
    """What the caller of a service that waits for half a second is told there, and how long that took."""
    service = trial.at(path, f"{trial.kind.NAME}-never", runner=runner)
    told = late(service, "get")
    service.end()
    return told


def try_wrong(trial):
    folder = os.path.join(trial.server.folder, "wrong")
    with wrong_sockets(folder):
        for name, wanted in WRONG:
            path = os.path.join(folder, name)
            told, _ = told_at(trial, path, runner=NOBODY)
            trial.check(f"a path that is wrong: {wanted}", path in told and wanted in told, told)
        path = os.path.join(folder, "full")
        # (a `get` waits for three seconds, and its openings for half a one)
        told, lasted = told_at(trial, path, runner=NOBODY)
        is_so = f"no answer in 500 ms from {path}" in told and lasted < 3 + DEADLINE + SLACK
        trial.check("a path whose queue is full", is_so, (told, lasted))


def try_late(trial):
    """A server that stands still is left there by the same deadline, and what it was asked is cancelled."""
    path, is_postgres = trial.server.path(), trial.kind is Postgres
    service = trial.at(path, f"{trial.kind.NAME}-never")
    service.ask("get")
    if is_postgres:
        told, lasted = late(service, "run SELECT pg_sleep(60)")
        runs = "SELECT count(*) FROM pg_stat_activity WHERE query LIKE 'SELECT pg_sleep%' AND state = 'active'"
        trial.check("at a path a late query is cancelled", within(SECONDS / 10, lambda: trial.server.ask(runs) == "0"), trial.server.ask(runs))
    else:
        trial.server.process.send_signal(signal.SIGSTOP)
        told, lasted = late(service, "run PING")
        trial.server.process.send_signal(signal.SIGCONT)
    wanted = rf"! no answer in 500 ms from {re.escape(path)}"
    trial.check("at a path: silence: the text", re.search(wanted, told), told)
    trial.check("at a path: silence: the deadline", lasted < DEADLINE * 1.1 + SLACK, lasted)
    again = service.ask("run SELECT 1" if is_postgres else "run PING")
    trial.check("at a path another one is opened after that", re.search("1|PONG", again), again)
    service.end()
    if is_postgres:
        try_names(trial)


def try_reset(trial):
    left, line, wanted = LEFT[trial.kind.NAME]
    for mode in ("never", "if-marked", "always"):
        service = trial.at(trial.server.path(), f"{trial.kind.NAME}-{mode}")
        service.ask(f"run {left}")
        told = service.ask(f"run {line}")
        trial.check(f"at a path, {mode}: what is left is {'seen' if mode == 'never' else 'not seen'}", (wanted in told) == (mode != "never"), told)
        service.end()


def late(service, line):
    begun = time.monotonic()
    told = service.ask(line)
    return told, time.monotonic() - begun


def try_names(trial):
    """The folder and the port, as libpq names a socket, and a login by a password there."""
    server = trial.server
    told = trial.at(f"{server.folder}:{server.port}", "postgres", "trusted").ask("get")
    trial.check("a folder and a port", told == "lent", told)
    told = trial.at(server.path(), "postgres", "salted", "kept").ask("get")
    trial.check("at a path a login by a password", told == "lent", told)
