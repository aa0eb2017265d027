"""The adapters of adapters/, in a repository that `vendor` makes: a service over each is driven against a real server on
loopback, of Debian's packages redis-server and postgresql, and one of tasks. Where a server is not installed nobody has tried that
adapter. And scripted peers in the place of both, and the first program over tokio, which need no server; and the service over HTTP."""
import contextlib
import os
import re
import signal
import subprocess
import tempfile
import threading

import between
import drawn_peer
import local_sockets
import postgres_peer
import postgres_sessions
import redis_peer
import redis_sessions
import server_tasks
import trying
import urls
import web_service
from copies import Runs, TESTS
from servers import HOST, SECONDS, Forwarder, Postgres, Redis, within
from tally import TOP, Tally

SERVERS = [Redis, Postgres]
# The first programs, with what each stands on.
FIRST = {
    "first_redis": "r2d2 redis anyhow", "first_postgres": "r2d2 postgres anyhow", "first_tokio": "r2d2_async tokio_timer tokio futures anyhow",
    "first_redis_tasks": "r2d2_async redis_tasks tokio_timer tokio futures anyhow",
    "first_postgres_tasks": "r2d2_async postgres_tasks tokio_timer tokio futures anyhow",
}
# The program over HTTP, and what it stands on.
OVER_HTTP = ("web_service", "r2d2 r2d2_async postgres_tasks pool_metrics tokio_timer tokio futures hyper http_body_util bytes anyhow")
# The services, each with its folder of tests and what it stands on.
SERVICES = {
    "service": ("adapters", "r2d2 redis postgres"),
    "service_of_tasks": ("server_tasks", "r2d2 r2d2_async redis_tasks postgres_tasks tokio_timer tokio futures"),
}
CONNECTIONS = 4
# Whether queries are tried that wait at a locked table: where a machine is busy, as beside proofs, cancels come too late.
IS_CALM = False
# What a caller of Redis may leave to the next one.
LEFT = ["multi", "watch", "subscribe", "monitor"]
# The service's checks read no memory that has ended; it keeps what its threads have, which is no leak.
SETTINGS = {"ASAN_OPTIONS": "detect_leaks=0:quarantine_size_mb=1"}


def write(text, *path):
    os.makedirs(os.path.dirname(os.path.join(*path)), exist_ok=True)
    with open(os.path.join(*path), "w", encoding="utf-8") as it:
        it.write(text)


def put_source(source, crate):
    """Puts the files of a folder into a crate, under the names that a check reads."""
    for file in os.listdir(source):
        with open(os.path.join(source, file), encoding="utf-8") as it:
            write(it.read(), crate, "src", os.path.splitext(file)[0] + ".rt")


def repository(mine):
    """A repository with both pools, the adapters, the first programs and the services."""
    os.makedirs(mine)
    subprocess.run(["git", "init", "-q", mine], check=True)
    subprocess.run([os.path.join(TOP, "vendor"), "--async", "--redis", "--postgres", "--metrics", mine], check=True, stdout=subprocess.DEVNULL)
    lines = ""
    for name, (tests, libraries) in SERVICES.items():
        put_source(os.path.join(TESTS, tests), os.path.join(mine, "crates", name))
        lines += f"{name}: {libraries}\n"
    for name, libraries in [*FIRST.items(), OVER_HTTP]:
        put_source(os.path.join(TOP, "adapters", name), os.path.join(mine, "crates", name))
        lines += f"{name}: {libraries}\n"
    with open(os.path.join(mine, "crates.txt"), "a", encoding="utf-8") as it:
        it.write(lines)


def built(name, mine, aside, tally):
    """A service, built without proof. It hands itself out."""
    program = os.path.join(aside, name)
    how = {"cwd": os.path.join(mine, "crates", name), "env": {**os.environ, "TMPDIR": aside}}
    _, said = Runs().run(trying.command("--", program), **how)
    is_built = os.path.exists(program)
    tally.check(f"the {name} is built".replace("_", " "), is_built, said[-3000:])
    if is_built:
        # (who may not open a socket may run it)
        os.chmod(program, 0o755)
    return program if is_built else None


class Service:
    """The service at a port, of this machine or of a name, or at a path, and what runs it."""

    def __init__(self, program, kind, port, *words, name=HOST, runner=()):
        address = port if isinstance(port, str) else f"{name}:{port}"
        words, how = [*runner, program, kind, address, *words], {"text": True, "env": SETTINGS, "bufsize": 1}
        self.process = subprocess.Popen(words, stdin=subprocess.PIPE, stdout=subprocess.PIPE, stderr=subprocess.STDOUT, **how)
        self.said, self.asked = [], 0

    def ask(self, line):
        """The answer to a line."""
        try:
            self.process.stdin.write(line + "\n")
            self.process.stdin.flush()
        except OSError:
            pass
        for answer in self.process.stdout:
            if answer.startswith("= "):
                return answer[2:].strip()
            self.said.append(answer)
        raise RuntimeError("the service has ended: " + "".join(self.said)[-2000:])

    def counts(self):
        return {name: int(number) for name, number in re.findall(r"(\w+)=(\d+)", self.ask("tell"))}

    def begins(self, count):
        """Lets it do so much more."""
        self.asked += count
        self.ask(f"go {count}")

    def rests(self):
        """What it counts once all of that was done, or failed."""
        def is_done():
            counts = self.counts()
            return sum(counts[name] for name in ("done", "failed", "timeouts", "closed")) == self.asked and counts["lent"] == 0
        within(SECONDS, is_done)
        return self.counts()

    def goes(self, count):
        self.begins(count)
        return self.rests()

    def end(self):
        with contextlib.suppress(OSError):
            self.process.stdin.close()
        try:
            return self.process.wait(SECONDS)
        except subprocess.TimeoutExpired:
            self.process.kill()
            return self.process.wait()


class Peers:
    """What is tried with a scripted peer in the place of a server."""

    def __init__(self, program, tally, name):
        self.program, self.tally, self.name = program, tally, name

    def check(self, what, holds, seen=""):
        self.tally.check(f"{self.name}, a scripted peer: {what}", holds, seen)

    def at(self, port, kind, *words, **how):
        return Service(self.program, kind, port, *words, **how)


class Trial:
    """What is tried with one kind of server."""

    def __init__(self, kind, program, place, tally):
        self.kind, self.program, self.tally = kind, program, tally
        self.server = kind(os.path.join(place, kind.NAME))
        self.other = Postgres(os.path.join(place, "other"), self.server) if kind is Postgres else Redis(os.path.join(place, "other"))
        self.words = ["trusted"] if kind is Postgres else []
        self.running = []

    def check(self, what, holds, seen=""):
        self.tally.check(f"{self.kind.NAME}: {what}", holds, seen)

    def service(self, port, *words):
        return self.at(port, self.kind.NAME, *(words or self.words))

    def at(self, port, kind, *words, runner=()):
        service = Service(self.program, kind, port, *(words or self.words), runner=runner)
        self.running.append(service)
        return service

    def service_of(self, kind, *words):
        service = Service(self.program, kind, self.server.port, *words)
        self.running.append(service)
        return service

    def at_url(self, url):
        service = Service(self.program, f"{self.kind.NAME}-url", url)
        self.running.append(service)
        return service

    def run(self):
        try:
            self.server.start()
            self.forwarder = Forwarder(self.server.port)
            service = self.service(self.forwarder.port)
            self.try_counts(service)
            self.try_left_open(service)
            self.try_killed_connections(service)
            self.try_crash(service)
            self.try_move(service)
            self.try_drain(service)
            local_sockets.try_local(self)
            if self.kind is Postgres:
                self.try_logins()
                urls.try_postgres(self)
                self.try_values()
                postgres_sessions.try_sessions(self)
                between.try_bouncers(self)
                between.try_read_only(self)
                if IS_CALM:
                    self.try_locked()
            else:
                for what in LEFT:
                    self.try_left_unchecked(what)
                redis_sessions.try_sessions(self)
                between.try_sentinel(self)
                self.try_silence()
                self.try_password()
                urls.try_redis(self)
        finally:
            for it in self.running:
                it.process.kill()
                it.process.wait()
            for it in (self.server, self.other):
                it.end()

    def is_told_exactly(self, what, counts, server):
        """What was acknowledged is what the server counts, but for what nobody knows of."""
        is_so = counts["wrong"] == 0 and counts["timeouts"] == 0 and counts["done"] <= server.total() <= counts["done"] + counts["failed"]
        self.check(what, is_so, (counts, server.total()))

    def has_what_the_pool_has(self, service, server):
        """The server's connections are those of the pool."""
        def are_the_same():
            counts = service.counts()
            return counts["idle"] + counts["lent"] == server.connections() == CONNECTIONS
        self.check("its connections are the pool's", within(SECONDS, are_the_same), (service.counts(), server.connections()))

    def try_counts(self, service):
        counts = service.goes(400)
        self.check("all is counted", (counts["done"], counts["failed"]) == (400, 0), counts)
        self.is_told_exactly("what is acknowledged is what the server counts", counts, self.server)
        self.has_what_the_pool_has(service, self.server)
        names = self.server.names()
        self.check("a refusal is an error, and no more", service.ask("refuse") == "true")
        service.goes(40)
        self.check("ordinary answers close nothing", len(names & self.server.names()) == CONNECTIONS, names)

    def try_left_open(self, service):
        """A transaction that a caller left open reaches nobody."""
        before = self.server.total()
        self.check("one is left open", service.ask("open") == "true")
        counts = service.goes(40)
        self.check("nobody meets what was left open", counts["failed"] == 0 and counts["wrong"] == 0, counts)
        self.check("what was left open is not counted", self.server.total() == before + 40, (before, self.server.total()))

    def try_left_unchecked(self, what):
        """What a caller left reaches nobody, though no check comes before the next lending: the connection is closed as it comes
        back."""
        service = self.service_of("redis-unchecked-for-an-hour")
        service.goes(40)
        self.check(f"{what} is left", service.ask(f"open {what}") == "true")
        # So a transaction fails that begins where this is watched.
        self.server.ask("SET", "watched", what)
        self.server.ask("SET", "more", "0")
        is_taken, more = service.ask("transact") == "true", self.server.ask("GET", "more")
        self.check(f"a transaction after {what}", is_taken and more == b"1", (is_taken, more))
        self.check(f"{what} is left again", service.ask(f"open {what}") == "true")
        counts = service.goes(400)
        self.check(f"answers after {what}", (counts["done"], counts["failed"], counts["wrong"]) == (440, 0, 0), counts)
        self.check(f"the service after {what} ends", service.end() == 0)

    def try_killed_connections(self, service):
        service.begins(2000)
        killed = sum(self.server.kill_connections() for _ in range(3))
        self.check("connections are killed", killed > 0, killed)
        self.is_told_exactly("killed connections", service.rests(), self.server)
        self.works_again("after that", service, self.server)

    def try_silence(self):
        """A server stands still for longer than a read waits. What it answers late is no answer to another request, and each
        connection that waits for one is closed as it comes back: no check before a lending is needed for that."""
        service = self.service_of("redis-unchecked")
        begun = {**service.goes(40), "total": self.server.total()}
        self.server.process.send_signal(signal.SIGSTOP)
        service.begins(8)
        is_seen = within(SECONDS, lambda: service.counts()["failed"] >= CONNECTIONS)
        self.server.process.send_signal(signal.SIGCONT)
        counts = service.rests()
        self.check("reads run out of time", is_seen and begun["failed"] == 0, counts)
        after = service.goes(200)
        self.check("each that did is closed", (after["failed"], after["done"]) == (counts["failed"], counts["done"] + 200), (counts, after))
        self.check("no answer is another's", after["wrong"] == 0, after)
        told = self.server.total() - begun["total"]
        self.check("a server that stood still", after["done"] - 40 <= told <= after["done"] - 40 + after["failed"], (after, told))
        self.check("that service ends", service.end() == 0)

    def try_crash(self, service):
        service.begins(2000)
        self.server.crash()
        threading.Event().wait(1)
        self.server.start()
        self.is_told_exactly("killed and restarted", service.rests(), self.server)
        self.works_again("after that", service, self.server)

    def works_again(self, what, service, server):
        before = service.counts()
        counts = service.goes(100)
        is_so = counts["done"] == before["done"] + 100 and counts["failed"] == before["failed"]
        self.check(f"{what} all is well", is_so, (before, counts))
        self.has_what_the_pool_has(service, server)

    def try_move(self, service):
        """Another server takes its place. `evict` closes what the pool has at the one before, and what is there is left alone."""
        before, counted = self.server.total(), service.counts()
        self.other.start()
        behind = self.other.total()
        self.forwarder.target = self.other.port
        self.check("all idle connections are evicted", int(service.ask("evict")) == CONNECTIONS)
        counts = service.goes(200)
        is_so = counts["done"] == counted["done"] + 200 and counts["failed"] == counted["failed"]
        self.check("the new server counts on", is_so and self.other.total() == behind + 200, (counted, counts, behind, self.other.total()))
        self.check("the old one counts nothing more", self.server.total() == before, (before, self.server.total()))
        self.check("nobody is at the old one", within(SECONDS, lambda: self.server.connections() == 0), self.server.connections())
        self.has_what_the_pool_has(service, self.other)

    def try_drain(self, service):
        self.check("drained", service.ask("drain 10000") == "drained")
        self.check("nobody is connected any more", within(SECONDS, lambda: self.other.connections() == 0), self.other.connections())
        self.check("callers are told so", "closed" in service.ask("get"))
        self.check("the service ends", service.end() == 0)

    def try_password(self):
        self.server.ask("CONFIG", "SET", "requirepass", "kept")
        self.check("a password", self.service(self.server.port, "kept").ask("get") == "lent")
        self.check("a wrong password", "WRONGPASS" in self.service(self.server.port, "lost").ask("get"))
        self.check("no password", "NOAUTH" in self.service(self.server.port).ask("get"))

    def try_logins(self):
        self.check("a login of salted", self.service(self.server.port, "salted", "kept").ask("get") == "lent")
        hashed = [self.service_of(kind, "hashed", "kept").ask("get") for kind in ("postgres", "postgres-md5")]
        self.check("a login of hashed, where that is allowed", "asks for MD5" in hashed[0] and hashed[1] == "lent", hashed)
        wrong = self.service(self.server.port, "salted", "lost").ask("get")
        self.check("a wrong password", "SQLSTATE 28P01" in wrong, wrong)
        none = self.service(self.server.port, "salted").ask("get")
        self.check("no password", "asks for a password, and there is none" in none, none)

    def try_values(self):
        """What is bound to a query is a value, whatever it says."""
        service, evil = self.service_of("calm-never", *self.words), "Robert'); DROP TABLE counts; --"
        for what, line, wanted in [
            ("values are bound", f"SELECT $1::int + 1, $2, $3::text IS NULL, $4, $5::text || '' <- 41,{evil},NULL,,\u00e9", f'[Some("42"), Some("{evil}"), Some("t"), Some(""), Some("\u00e9")]'),
            ("a query with values counts rows", "# UPDATE counts SET n = n + $1::int WHERE thread < $2 AND $3 <- 0,3,true", "3 rows"),
            ("a value of another type", "SELECT 1 / $1::int <- x", "! postgres: invalid input syntax for type integer: \"x\" (SQLSTATE 22P02)"),
            ("a value too few", "SELECT $1::int, $2::int <- 1", "SQLSTATE 08P01"),
            ("two statements with values", "SELECT 1; SELECT 2 <- 1", "SQLSTATE 42601"),
            ("a query like it again", "SELECT $1::int <- 7", '[Some("7")]'),
            ("more rows than are allowed", "SELECT generate_series(1, 100001)", "! postgres: an answer is larger than the limits allow"),
            ("the same one by one", "> SELECT generate_series(1, 100001)", '100001 one by one, the last Some([Some("100001")])'),
            ("none one by one", "> SELECT 1 WHERE false", "0 one by one, the last None"),
            ("a hundred one by one", "> SELECT generate_series(1, 100)", '100 one by one, the last Some([Some("100")])'),
            ("a COPY", "COPY (VALUES (1, 'a b'), (2, NULL)) TO STDOUT ;; SELECT 3", '[Some("1\\ta b\\n")] [Some("2\\t\\\\N\\n")] | [Some("3")]'),
            ("a COPY counts its lines", "# COPY (VALUES (1), (2), (3)) TO STDOUT (FORMAT csv)", "3 rows"),
            ("a COPY of nothing", "# COPY (SELECT 1 WHERE false) TO STDOUT ;; SELECT 3", '0 rows | [Some("3")]'),
            ("a COPY of more lines than are allowed", "COPY (SELECT generate_series(1, 100001)) TO STDOUT", "! postgres: an answer is larger than the limits allow"),
            ("a COPY that fails", "COPY (SELECT 1 / (3 - n) FROM generate_series(1, 3) n) TO STDOUT ;; SELECT 3", 'division by zero (SQLSTATE 22012) | [Some("3")]'),
            ("a COPY that is no text", "COPY (SELECT 1) TO STDOUT (FORMAT binary)", "! postgres: a message that is not understood"),
            ("a COPY of the client's lines", "COPY counts FROM STDIN", "! postgres: a message that is not understood"),
            ("a query after all of them", "SELECT 1", '[Some("1")]'),
            ("two statements one by one", "> SELECT 1; SELECT 2 ;; SELECT 3", "SQLSTATE 42601"),
            ("one by one within a transaction", "BEGIN ;; > VALUES (7), (8) ;; > VALUES (9) ;; COMMIT", '2 one by one, the last Some([Some("8")]) | 1 one by one, the last Some([Some("9")])'),
        ]:
            told = service.ask(f"run {line}")
            self.check(what, wanted in told, told)

    def try_locked(self):
        """Queries that wait for a lock are cancelled: the server is not left with what their callers have given up. On a busy machine one of
        some tries is enough, as a cancel has little time."""
        for _ in range(4):
            service = self.service_of("postgres-eight", *self.words)
            seen = self.locked(service)
            if all(is_so for _, is_so, _ in seen):
                break
        for what, is_so, shown in seen:
            self.check(what, is_so, shown)

    def locked(self, service):
        """What is to be checked of a service whose queries wait for a lock, with whether it is so, and what was seen."""
        before, total = service.goes(40), self.server.total()
        locks = "BEGIN; LOCK TABLE counts; SELECT pg_sleep(6)"
        holder = subprocess.Popen(self.server.words_of(locks), stdin=subprocess.DEVNULL, stdout=subprocess.DEVNULL)
        is_locked = within(SECONDS, lambda: self.server.ask("SELECT count(*) FROM pg_locks WHERE mode = 'AccessExclusiveLock'") != "0")
        service.begins(200)
        most = 0
        while holder.poll() is None:
            # (without the holder)
            most = max(most, self.server.connections() - 1)
        counts = service.rests()
        told = self.server.total() - total
        again = service.goes(40)
        return [
            ("queries run out of time at a lock", is_locked and counts["failed"] >= 8 and before["failed"] == 0, (before, counts)),
            ("a locked table leaves the server with no more than two connections for each", 8 <= most <= 16, most),
            ("no query is counted that was cancelled", told == counts["done"] - before["done"], (before, counts, told)),
            ("after that all is well", again["failed"] == counts["failed"], (counts, again)),
        ]


def try_servers(kinds, mine, place, tally):
    """The service of a repository at these servers."""
    aside = os.path.join(place, "aside")
    os.mkdir(aside)
    program = built("service", mine, aside, tally)
    if program:
        redis_peer.try_peer(Peers(program, tally, "redis"))
        drawn_peer.try_redis(Peers(program, tally, "redis"))
        postgres_peer.try_peer(Peers(program, tally, "postgres"))
        drawn_peer.try_postgres(Peers(program, tally, "postgres"))
        try_tasks_of(kinds, mine, aside, place, tally)
    for kind in kinds if program else []:
        folder = os.path.join(place, f"with_{kind.NAME}")
        os.mkdir(folder)
        os.chmod(place, 0o711)
        try:
            Trial(kind, program, folder, tally).run()
        except (RuntimeError, OSError, ValueError, subprocess.SubprocessError) as error:
            tally.check(kind.NAME, False, error)


def try_tasks_of(kinds, mine, aside, place, tally):
    """The service of tasks, at each server."""
    program = built("service_of_tasks", mine, aside, tally) if kinds else None
    for kind in kinds if program else []:
        folder = os.path.join(place, f"tasks_with_{kind.NAME}")
        os.mkdir(folder)
        os.chmod(place, 0o711)
        try:
            server_tasks.TRIALS[kind.NAME](program, SETTINGS, folder, tally, Service).run(mine)
        except (RuntimeError, OSError, ValueError, subprocess.SubprocessError) as error:
            tally.check(f"{kind.NAME} for tasks", False, error)


def those_there(tally):
    """The servers that are installed."""
    for kind in SERVERS:
        if not kind.is_there():
            tally.skip(f"{kind.PACKAGE} is not installed")
    return [kind for kind in SERVERS if kind.is_there()]


def try_tokio(mine, tally):
    """The pool for tasks lends over tokio's runtime."""
    status, said = Runs().run(trying.command(), cwd=os.path.join(mine, "crates", "first_tokio"))
    tally.check("the first program over tokio", status == 0 and "7" in said.splitlines(), said[-3000:])


def tried():
    tally = Tally("adapters")
    kinds = those_there(tally)
    with tempfile.TemporaryDirectory(prefix="adapters-") as place:
        mine = os.path.join(place, "mine")
        repository(mine)
        try_tokio(mine, tally)
        try_servers(kinds, mine, place, tally)
        if Postgres in kinds:
            web_service.try_service(mine, place, tally)
    return tally
