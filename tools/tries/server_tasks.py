"""The adapters for tasks: their first programs and a service of tasks, at real servers, and at peers that say nothing."""
import contextlib
import os
import re
import signal
import subprocess
import threading
import time

import postgres_peer
import postgres_sessions
import redis_peer
import redis_sessions
import trying
from copies import Runs
from peer import Peer, try_each
from servers import HOST, SECONDS, FleetingRedis, Postgres

# What a call waits for, and by how much it may be late, in milliseconds; on a busy machine one of some tries is enough.
DEADLINE, LATE, TRIES = 500, 50, 20
REQUESTS = 20_000
# Within so many seconds it serves again.
AGAIN = 0.5
# What each call waits for in an outage, in milliseconds: one for a connection, or for an answer, may wait for a check too.
PATIENCE = 300
# The outages: how long each lasts, in seconds.
KILLED, STOPPED, SILENT = 5, 10, 6


class SlowRedis(FleetingRedis):
    """One that stands still now and then, for longer than a caller waits."""

    def words(self):
        return [*super().words(), "--enable-debug-command", "local"]

    def stand_still(self):
        self.ask("DEBUG", "SLEEP", "0.01")


class SlowPostgres(Postgres):
    """One that stands still now and then, for longer than a caller waits: each of its processes."""

    def stand_still(self):
        with self.stopped():
            time.sleep(0.01)

    @contextlib.contextmanager
    def stopped(self):
        processes = [self.process.pid, *children_of(self.process.pid)]
        try:
            for process in processes:
                signal_to(process, signal.SIGSTOP)
            yield
        finally:
            for process in processes:
                signal_to(process, signal.SIGCONT)


def children_of(parent):
    found = []
    for name in filter(str.isdigit, os.listdir("/proc")):
        with contextlib.suppress(OSError, IndexError), open(f"/proc/{name}/stat") as it:
            if int(it.read().rpartition(")")[2].split()[1]) == parent:
                found.append(int(name))
    return found


def signal_to(process, number):
    # (it may have ended)
    with contextlib.suppress(ProcessLookupError):
        os.kill(process, number)


@contextlib.contextmanager
def standing_still(server):
    is_over = threading.Event()

    def stand_still():
        while not is_over.wait(0.05):
            with contextlib.suppress(OSError, ValueError):
                server.stand_still()

    thread = threading.Thread(target=stand_still)
    thread.start()
    try:
        yield
    finally:
        is_over.set()
        thread.join()


class QuietRedis(Peer):
    """Answers so many requests of each connection, and no more, or all but while it is quiet."""

    PATIENCE = SECONDS

    def __init__(self, answers=0, is_quiet=None):
        self.answers, self.is_quiet = answers, is_quiet or threading.Event()
        super().__init__()

    def take(self, connection, stream, number):
        left = self.answers
        while (words := redis_peer.words_of(stream)) is not None:
            if (left or not self.answers) and not self.is_quiet.is_set():
                connection.sendall(b"$%d\r\n%s\r\n" % (len(words[-1]), words[-1]) if words[0] == b"ECHO" else redis_peer.PONG)
                left -= 1


class QuietPostgres(Peer):
    """The same: a login is one answer."""

    PATIENCE = SECONDS

    def __init__(self, answers=0, is_quiet=None):
        self.answers, self.is_quiet = answers, is_quiet or threading.Event()
        super().__init__()

    def take(self, connection, stream, number):
        peer, left = postgres_peer, self.answers
        asked = peer.body_of(stream, stream.read(4))
        answer = peer.BEGUN + peer.message(b"K", b"\0" * 8) + peer.ready()
        while asked:
            if (left or not self.answers) and not self.is_quiet.is_set():
                connection.sendall(answer)
                left -= 1
            asked = peer.query_of(stream, {})[0]
            answer = peer.row(asked.split()[-1] if asked else b"") + peer.done(b"SELECT 1") + peer.ready()


class TaskTrial:
    """What is tried with the service of tasks, a program of these words. Each kind of server says what is its own."""

    def __init__(self, program, how, place, tally, service):
        self.program, self.how, self.tally, self.make = program, how, tally, service
        self.server, self.running = self.SERVER(os.path.join(place, f"{self.NAME}-of-tasks")), []

    def check(self, what, holds, seen=""):
        self.tally.check(f"{self.NAME} for tasks: {what}", holds, seen)

    def at(self, port, kind, *words, **how):
        return self.make(self.program, kind, port, *words, **how)

    def service_of(self, kind, *words):
        service = self.at(self.server.port, kind, *words)
        self.running.append(service)
        return service

    def run(self, mine):
        try:
            self.try_deadlines()
            self.try_peer()
            self.server.start()
            self.try_first(mine)
            try_each(self, [TaskTrial.try_cancelled])
            for outage in (self.restarted, self.stopped, self.silenced):
                self.try_outage(outage)
            self.try_sessions()
        finally:
            for it in self.running:
                it.process.kill()
                it.process.wait()
            self.server.end()

    def run_first(self, mine, change):
        """Runs the first program at this server."""
        folder = os.path.join(mine, "crates", f"first_{self.NAME}_tasks")
        path = os.path.join(folder, "src", "main.rt")
        with open(path, encoding="utf-8") as it:
            text = it.read()
        with open(path, "w", encoding="utf-8") as it:
            it.write(change(text))
        return Runs().run(trying.command(), cwd=folder)

    def throng(self, what, port, number):
        """Begins a throng of callers."""
        words = [self.program, f"{what}-{self.NAME}", f"{HOST}:{port}", str(number)]
        return subprocess.Popen(words, stdin=subprocess.DEVNULL, stdout=subprocess.PIPE, stderr=subprocess.STDOUT, text=True, env=self.how)

    def counts(self, process):
        """What a throng came to."""
        try:
            said, _ = process.communicate(timeout=5 * SECONDS)
        except subprocess.TimeoutExpired:
            process.kill()
            said, _ = process.communicate()
        counts = {name: int(number) for name, number in re.findall(r"(\w+)=(\d+)", said)}
        self.check("a throng ends", process.returncode == 0 and "to" in counts, said[-3000:])
        return counts

    def try_cancelled(self):
        """Callers drop their command where it takes longer than three milliseconds. No answer of it comes to another."""
        with standing_still(self.server):
            counts = self.counts(self.throng("cancel", self.server.port, REQUESTS))
        some = counts.get("given_up", 0)
        self.check("requests are given up", REQUESTS <= counts.get("asked", 0) and REQUESTS / 400 < some < REQUESTS / 2, counts)
        self.check_each_time("an answer of a request that was given up is nobody's", counts.get("wrong") == 0, counts)
        self.check("the others are answered", counts.get("answered") == counts.get("asked", 0) - some and counts.get("refused") == 0, counts)

    def try_outage(self, outage):
        """A server goes away for a while. Callers are told in time, and served soon after."""
        what, told = outage.__doc__, []
        for _ in range(8):
            down, up, counts = outage()
            since, until = counts.get("from", 0) / 1000, counts.get("to", 0) / 1000
            late = max(counts.get("longest_get", 0) - 2 * PATIENCE, counts.get("longest_request", 0) - PATIENCE)
            told.append((since <= down + 0.1 and down < until <= up + AGAIN, late <= LATE, round(until - up, 3), late, counts))
            if told[-1][0] and told[-1][1]:
                break
        self.check(f"{what}: served again soon", told[-1][0], told)
        self.check(f"{what}: callers are told in time", told[-1][1], told)
        self.check(f"{what}: nobody is told what another asked for", all(counts.get("wrong") == 0 for *_, counts in told), told)

    def watched(self, port, seconds, away, back):
        """When a server went away, was back, and what a throng came to meanwhile."""
        begun = time.monotonic()
        process = self.throng("outage", port, 1000 * (seconds + 3))
        time.sleep(1)
        away()
        down = time.monotonic() - begun
        time.sleep(seconds)
        back()
        up = time.monotonic() - begun
        return down, up, self.counts(process)

    def restarted(self):
        """killed for five seconds"""
        return self.watched(self.server.port, KILLED, self.server.crash, self.server.start)

    def stopped(self):
        """stopped for ten seconds"""
        with contextlib.ExitStack() as stack:
            def stop():
                stack.enter_context(self.stop())
            return self.watched(self.server.port, STOPPED, stop, stack.close)

    def silenced(self):
        """silent for six seconds"""
        is_quiet = threading.Event()
        peer = self.QUIET(is_quiet=is_quiet)
        try:
            return self.watched(peer.port, SILENT, is_quiet.set, is_quiet.clear)
        finally:
            peer.close()

    def try_deadlines(self):
        """At who says nothing each call ends at its deadline."""
        for what, answers in (("opening", 0), ("check", 1), ("command", 1)):
            peer, told = self.QUIET(answers=answers or -1), []
            if not answers:
                peer.is_quiet.set()
            service = self.at(peer.port, f"{self.NAME}-never", *self.USER)
            for _ in range(TRIES):
                told.append(service.ask(f"late {what}"))
                failed, millis = map(int, re.findall(r"=(\d+)", told[-1]))
                if failed == 8 and DEADLINE <= millis <= DEADLINE + LATE:
                    break
            self.check(f"at a silent server: the deadline of each {what}", failed == 8 and DEADLINE <= millis <= DEADLINE + LATE, told)
            service.end()
            peer.close()


class RedisTrial(TaskTrial):
    NAME, SERVER, QUIET, USER = "redis", SlowRedis, QuietRedis, []

    def try_peer(self):
        redis_peer.try_peer(self)

    def try_sessions(self):
        redis_sessions.try_sessions(self)
        self.try_primary()

    def try_primary(self):
        """A server that becomes a replica is left at a check where that is set, and none is opened to it."""
        primary = SlowRedis(os.path.join(os.path.dirname(self.server.folder), "primary"))
        service = self.service_of("redis-primary")
        try:
            primary.start()
            told = service.ask("run INCR primaries")
            self.check("a primary is served by", told == "Number(1) |", told)
            self.server.ask("REPLICAOF", HOST, str(primary.port))
            told = service.ask("late opening")
            self.check("no connection to a replica is opened", told.startswith("failed=8 "), told)
            told = service.ask("run GET primaries")
            self.check("a replica is left at a check", "the server is no primary" in told, told)
            told = self.service_of("redis-never").ask("get")
            self.check("where that is not set it is not", told == "lent", told)
            self.server.ask("REPLICAOF", "NO", "ONE")
            told = service.ask("run INCR primaries")
            self.check("once it is a primary again it serves", told == "Number(1) |" or told == "Number(2) |", told)
        finally:
            primary.end()

    def try_first(self, mine):
        """A hundred tasks count, each once."""
        status, said = self.run_first(mine, lambda text: text.replace("127.0.0.1:6379", f"{HOST}:{self.server.port}"))
        visits = self.server.ask("GET", "visits")
        self.check("the first program", status == 0 and "100" in said.splitlines() and visits == b"100", (visits, said[-3000:]))

    @contextlib.contextmanager
    def stop(self):
        self.server.process.send_signal(signal.SIGSTOP)
        try:
            yield
        finally:
            self.server.process.send_signal(signal.SIGCONT)


class PostgresTrial(TaskTrial):
    NAME, SERVER, QUIET, USER = "postgres", SlowPostgres, QuietPostgres, ["somebody"]

    def try_deadlines(self):
        super().try_deadlines()
        peer, told = QuietPostgres(answers=2), []
        service = self.at(peer.port, "kept-never", *self.USER)
        for _ in range(TRIES):
            told.append(service.ask("late check-after-command"))
            failed, millis = map(int, re.findall(r"=(\d+)", told[-1]))
            if failed == 8 and DEADLINE <= millis <= DEADLINE + LATE or millis > 4 * DEADLINE:
                break
        is_so = failed == 8 and DEADLINE <= millis <= DEADLINE + LATE
        self.check("at a silent server: the deadline of a check after a longer command's", is_so, told)
        service.end()
        peer.close()

    def try_peer(self):
        postgres_peer.try_tasks_peer(self)

    def try_sessions(self):
        self.try_logins()
        self.try_errors()
        postgres_sessions.try_sessions(self)

    def try_first(self, mine):
        """A hundred tasks ask, each once."""
        def change(text):
            text = text.replace("127.0.0.1:5432", f"{HOST}:{self.server.port}")
            return text.replace('rt, address, "postgres"', 'rt, address, "salted"').replace('"secret"', '"kept"')
        status, said = self.run_first(mine, change)
        self.check("the first program", status == 0 and "100" in said.splitlines(), said[-3000:])

    def stop(self):
        return self.server.stopped()

    def try_logins(self):
        told = self.service_of("postgres-salted", "salted", "kept").ask("get")
        self.check("a login of salted", told == "lent", told)
        hashed = [self.service_of(kind, "hashed", "kept").ask("get") for kind in ("postgres", "postgres-md5")]
        self.check("a login of hashed, where that is allowed", "asks for MD5" in hashed[0] and hashed[1] == "lent", hashed)
        wrong = self.service_of("postgres-salted", "salted", "lost")
        told = wrong.ask("get")
        self.check("a wrong password", "the login was refused (SQLSTATE 28P01)" in told and "lost" not in told + "".join(wrong.said), told)
        told = self.service_of("postgres-never", "salted").ask("get")
        self.check("no password", "asks for a password, and there is none" in told, told)
        told = self.service_of("postgres-never", "trusted", "kept").ask("get")
        self.check("no question for the password that there is", "asked for no proof of the password" in told, told)

    def try_errors(self):
        """What is bound is a value; an error has its state, and breaks nothing."""
        service, evil = self.service_of("calm-never", "trusted"), "Robert'); DROP TABLE counts; --"
        name = service.ask("run SELECT pg_backend_pid()")
        for what, line, wanted in [
            ("values are bound", f"SELECT $1::int + 1, $2, $3::text IS NULL, $4, $5::text || '' <- 41,{evil},NULL,,\u00e9", f'[Some("42"), Some("{evil}"), Some("t"), Some(""), Some("\u00e9")]'),
            ("a NULL is told", "SELECT NULL, 1", '[None, Some("1")]'),
            ("a query with values counts rows", "# UPDATE counts SET n = n + $1::int WHERE thread < $2 AND $3 <- 0,3,true", "3 rows"),
            ("a query counts rows", "# UPDATE counts SET n = n", "8 rows"),
            ("a value of another type", "SELECT 1 / $1::int <- x", "! postgres: invalid input syntax for type integer: \"x\" (SQLSTATE 22P02)"),
            ("a division by zero", "SELECT 1 / 0", "! postgres: division by zero (SQLSTATE 22012)"),
            ("a key that is there already", "# INSERT INTO counts VALUES (0, 0)", "(SQLSTATE 23505)"),
            ("a table that there is not", "SELECT it FROM nowhere", "(SQLSTATE 42P01)"),
            ("a value too few", "SELECT $1::int, $2::int <- 1", "SQLSTATE 08P01"),
        ]:
            told = service.ask(f"run {line}")
            self.check(what, wanted in told, told)
            if what == "a table that there is not":
                now = service.ask("run SELECT pg_backend_pid()")
                self.check("errors break nothing", now == name, (name, now))
        self.check("that service ends", service.end() == 0)


TRIALS = {"redis": RedisTrial, "postgres": PostgresTrial}
