"""What the scripted peers in the place of Redis and of PostgreSQL have in common: they do what no real server does, or not when it is
asked to."""
import collections
import contextlib
import os
import re
import socket
import subprocess
import sys
import tempfile
import threading
import time

from servers import HOST

# The service waits for so long, and a tenth more is let pass; the rest is a busy machine's.
DEADLINE, SLACK = 0.5, 0.45
# How often an attempt is made at most.
TRIES = 4
# A name of two addresses, at the first of which nobody answers, and what runs a program that knows it.
NAME, NOBODY, BEHIND = "two.test", "127.0.0.2", "127.0.0.3"
RUNNER = ["unshare", "--mount", *([] if os.geteuid() == 0 else ["--map-root-user"]), "sh", "-c", 'mount --bind "$0" /etc/hosts && exec "$@"']
AT_TWO = "a name at whose first address nobody answers"
LOOK_UP = f"import socket; print(*(it[4][0] for it in socket.getaddrinfo('{NAME}', 1, type=socket.SOCK_STREAM)))"
LATE = r"no answer in 500 ms from 127\.0\.0\.1:\d+"


class Peer:
    """A port, at which each connection is served by a thread: by `take(connection, stream, number)`, until that returns or fails."""

    PATIENCE = 6 * DEADLINE

    def __init__(self, host=HOST):
        self.count, self.asked = 0, []
        self.listener = socket.create_server((host, 0))
        self.port = self.listener.getsockname()[1]
        threading.Thread(target=self.accept, daemon=True).start()

    def accept(self):
        with contextlib.suppress(OSError):
            while True:
                connection = self.listener.accept()[0]
                self.count += 1
                threading.Thread(target=self.serve, args=[connection, self.count], daemon=True).start()

    def serve(self, connection, number):
        connection.setsockopt(socket.IPPROTO_TCP, socket.TCP_NODELAY, 1)
        # So who waits for ever is told so, and the check fails.
        connection.settimeout(self.PATIENCE)
        with contextlib.suppress(OSError, ValueError), connection, connection.makefile("rb") as stream:
            self.take(connection, stream, number)

    def close(self):
        self.listener.close()


def sends(*pieces, pause=0.0):
    """A peer that answers so, piece by piece."""
    def play(connection, words, number):
        for piece in pieces:
            connection.sendall(piece)
            time.sleep(pause)
    return play


def sends_forever(begin, piece, pause=0.0):
    """For ever, to one whose deadline is long over by then."""
    def play(connection, words, number):
        end = time.monotonic() + 6 * DEADLINE
        connection.sendall(begin)
        while time.monotonic() < end:
            connection.sendall(piece)
            if pause:
                time.sleep(pause)
        connection.shutdown(socket.SHUT_RDWR)
    return play


def each_byte(answer):
    return [answer[i:i + 1] for i in range(len(answer))]


@contextlib.contextmanager
def service_at(trial, peer, kind, *words):
    service = trial.at(peer.port, kind, *words)
    try:
        yield peer, service
    finally:
        service.end()
        peer.close()


@contextlib.contextmanager
def nobody_at(port):
    """An address that takes no connection, and refuses none: its queue is full."""
    with socket.socket() as listener, socket.socket() as first:
        listener.bind((NOBODY, port))
        listener.listen(0)
        first.connect((NOBODY, port))
        yield


def try_two_addresses(trial, peer, kind, *words):
    """A peer is behind. An opening shares its time among the addresses of a name: where the first one does not answer, it goes on to the next."""
    with tempfile.NamedTemporaryFile("w") as hosts, nobody_at(peer.port):
        hosts.write(f"{NOBODY} {NAME}\n{BEHIND} {NAME}\n")
        hosts.flush()
        runner = [*RUNNER, hosts.name]
        looked_up = subprocess.run([*runner, sys.executable, "-c", LOOK_UP], stdout=subprocess.PIPE, stderr=subprocess.DEVNULL, text=True)
        if looked_up.stdout.split() != [NOBODY, BEHIND]:
            trial.tally.skip("no name can be given two addresses here")
            return
        service = trial.at(peer.port, kind, *words, name=NAME, runner=runner)
        told = service.ask("get")
        trial.check(AT_TWO, told == "lent", told)
        service.end()
        peer.close()


def try_answer(trial, what, service, line, wanted):
    """What a caller is told, and when."""
    begun = time.monotonic()
    told = service.ask(line)
    lasted = time.monotonic() - begun
    trial.check(f"{what}: the text", re.search(rf"(^|! )({wanted}) ?(\| *)?$", told), told)
    trial.check(f"{what}: the deadline", lasted < DEADLINE * 1.1 + SLACK, lasted)


class Kept:
    """A trial whose checks are kept: one that held in some run of an attempt held."""

    def __init__(self, trial):
        self.trial, self.found, self.made = trial, {}, collections.Counter()

    def __getattr__(self, name):
        return getattr(self.trial, name)

    def check(self, what, holds, seen=""):
        # (two of an attempt may have one name)
        self.made[what] += 1
        key = what, self.made[what]
        if key not in self.found or not self.found[key][0]:
            self.found[key] = bool(holds), seen

    def check_each_time(self, what, holds, seen=""):
        """One that no busy machine excuses: it is to hold in each run."""
        self.made[what] += 1
        key = what, self.made[what]
        if key not in self.found or self.found[key][0]:
            self.found[key] = bool(holds), seen

    def do_hold(self):
        return all(holds for holds, _ in self.found.values())


def try_each(trial, attempts):
    """Makes each attempt, and again where a check of it failed: half a second is little where a machine does other things."""
    for attempt in attempts:
        kept = Kept(trial)
        for left in reversed(range(TRIES)):
            kept.made.clear()
            try:
                attempt(kept)
            except (RuntimeError, OSError):
                if not left:
                    raise
            else:
                if kept.do_hold():
                    break
        for (what, _), (holds, seen) in kept.found.items():
            trial.check(what, holds, seen)
