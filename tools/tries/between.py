"""What stands between pools and their server: PgBouncer, before PostgreSQL, and Redis Sentinel, which moves the primary. Each is a Debian
package of its own; where one is not installed nobody has tried that."""
import os
import shutil
import socket
import subprocess

import postgres_sessions
from servers import HOST, SECONDS, FleetingRedis, Forwarder, Postgres, Server, within

# Where Debian puts it, which is on the path of root alone.
BOUNCER = shutil.which("pgbouncer") or "/usr/sbin/pgbouncer"
INI = """[databases]
* = host={host} port={server}
[pgbouncer]
listen_addr={host}
listen_port={port}
unix_socket_dir=
auth_type={login}
auth_file={folder}/users
pool_mode={mode}
default_pool_size={size}
server_round_robin=1
"""
CONF = """port {port}
bind {host}
dir {folder}
sentinel monitor mine {host} {primary} 1
sentinel down-after-milliseconds mine 1000
sentinel failover-timeout mine 5000
"""
# What a session keeps beyond a transaction, and how it is asked for.
LEFT, ASKED, FRESH = "SET statement_timeout = 12345", "SHOW statement_timeout", '[Some("0")] |'


class PgBouncer(Server):
    """One before a PostgreSQL, in a mode, with so many connections to it."""

    def __init__(self, folder, server, mode, size, login="trust"):
        super().__init__(folder)
        self.server = server
        if server.user:
            shutil.chown(folder, "postgres", "postgres")
        with open(os.path.join(folder, "users"), "w") as it:
            it.write("".join(f'"{user}" "kept"\n' for user in ("postgres", "trusted", "salted")))
        with open(os.path.join(folder, "ini"), "w") as it:
            it.write(INI.format(host=HOST, server=server.port, port=self.port, folder=folder, mode=mode, size=size, login=login))

    def words(self):
        return [BOUNCER, os.path.join(self.folder, "ini")]

    def how(self):
        return self.server.user

    def begin(self):
        """A session, which obeys lines, and is begun once it has answered one."""
        words = [Postgres.program("psql"), "-h", HOST, "-p", str(self.port), "-U", "postgres", "-Atq", "postgres"]
        return subprocess.Popen(words, stdin=subprocess.PIPE, stdout=subprocess.PIPE, text=True)

    def total(self):
        socket.create_connection((HOST, self.port), 5).close()


def say(session, line):
    session.stdin.write(line + "\n")
    session.stdin.flush()
    return session.stdout.readline()


class Sentinel(FleetingRedis):
    """One that watches a primary."""

    def __init__(self, folder, primary):
        super().__init__(folder)
        with open(os.path.join(folder, "conf"), "w") as it:
            it.write(CONF.format(host=HOST, port=self.port, folder=folder, primary=primary.port))

    def words(self):
        return ["redis-sentinel", os.path.join(self.folder, "conf")]

    def total(self):
        return self.ask("PING")

    def knows(self):
        """What it says of the primary."""
        return self.ask("INFO", "sentinel").decode()

    def is_at(self, server):
        return f"address={HOST}:{server.port}," in self.knows()


def try_bouncers(trial):
    """Two machines' pools before one server, in each of PgBouncer's modes."""
    if not os.path.exists(BOUNCER):
        trial.tally.skip("pgbouncer is not installed")
        return
    for mode, size in (("session", 8), ("transaction", 2)):
        bouncer = PgBouncer(os.path.join(trial.server.folder, mode), trial.server, mode, size)
        try:
            bouncer.start()
            try_shared(trial, bouncer, mode, size)
            try_kept(trial, bouncer, mode)
            try_cancelled(trial, bouncer, mode)
        finally:
            bouncer.end()
    bouncer = PgBouncer(os.path.join(trial.server.folder, "proof"), trial.server, "session", 4, "scram-sha-256")
    try:
        bouncer.start()
        told = [trial.at(bouncer.port, "postgres-salted", "salted", password).ask("get") for password in ("kept", "lost")]
        trial.check("PgBouncer proves that it knows the password", told[0] == "lent" and "SQLSTATE" in told[1], told)
    finally:
        bouncer.end()


def try_shared(trial, bouncer, mode, size):
    """What both pools were told is what the server counts, also where its connections are killed, and PgBouncer is."""
    services = [trial.at(bouncer.port, "calm") for _ in range(2)]
    before = trial.server.total()
    for what in ("calm", "killed", "restarted"):
        told = [service.counts()["done"] for service in services]
        at_first, failed = trial.server.total(), [service.counts()["failed"] for service in services]
        for service in services:
            service.begins(300)
        if what == "killed":
            trial.server.kill_connections()
        if what == "restarted":
            bouncer.end()
            bouncer.start()
        counts = [service.rests() for service in services]
        done = sum(it["done"] for it in counts) - sum(told)
        lost = sum(it["failed"] for it in counts) - sum(failed)
        added = trial.server.total() - at_first
        is_so = done <= added <= done + lost and not any(it["timeouts"] for it in counts) and (lost == 0 or what != "calm")
        trial.check(f"two pools at PgBouncer, by {mode}, {what}", is_so and done + lost == 600, (counts, added))
    trial.check(f"at the server PgBouncer has no more than {size}, by {mode}", trial.server.connections() <= size + 1, trial.server.connections())
    # (a pool is told no count of the other's)
    trial.check(f"all that was told by {mode} was counted", trial.server.total() > before)
    for service in services:
        service.end()


def with_two_open(bouncer):
    """PgBouncer has two idle connections to its server: the second was opened while a transaction was on the first."""
    one, other = bouncer.begin(), bouncer.begin()
    for session, line in ((one, "BEGIN; SELECT 1;"), (other, "SELECT 1;"), (one, "COMMIT; SELECT 1;")):
        say(session, line)
    for session in (one, other):
        session.stdin.close()
        session.wait()


def try_kept(trial, bouncer, mode):
    """A session is one caller's, by sessions. By transactions it is everybody's, and what a reset is to bring back it may miss; but no caller
    meets another's transaction, and values are bound."""
    for reset in postgres_sessions.MODES:
        if mode == "transaction":
            with_two_open(bouncer)
        service = trial.at(bouncer.port, f"calm-{reset}", "postgres")
        service.ask(f"run {LEFT}")
        seen = [service.ask(f"run {ASKED}") for _ in range(2)]
        is_fresh = all(it == FRESH for it in seen)
        wanted = mode == "session" and reset != "never"
        trial.check(f"by {mode}, {reset}: what is kept is {'not seen' if wanted else 'seen'}", is_fresh == wanted, seen)
        service.ask("run DISCARD ALL")
        service.ask("run DISCARD ALL")
        told = service.ask("run SELECT $1::int + 1 <- 41")
        trial.check(f"by {mode}, {reset}: values are bound", told == '[Some("42")] |', told)
        service.ask("run BEGIN")
        told = service.ask("run SELECT now() <> statement_timestamp()")
        trial.check(f"by {mode}, {reset}: no transaction is met", told == '[Some("f")] |', told)
        service.end()


def try_cancelled(trial, bouncer, mode):
    service = trial.at(bouncer.port, "postgres-never")
    told = service.ask("run SELECT pg_sleep(60)")
    runs = "SELECT count(*) FROM pg_stat_activity WHERE query LIKE 'SELECT pg_sleep%' AND state = 'active'"
    is_over = within(SECONDS / 6, lambda: trial.server.ask(runs) == "0")
    trial.check(f"by {mode} a late query is cancelled", "no answer in 500 ms" in told and is_over, told)
    service.end()


def try_sentinel(trial):
    """A name behind which the primary stands, as where the one who has the name follows Sentinel."""
    if not shutil.which("redis-sentinel"):
        trial.tally.skip("redis-sentinel is not installed")
        return
    one, two = (FleetingRedis(os.path.join(trial.server.folder, name)) for name in ("one", "two"))
    sentinel = Sentinel(os.path.join(trial.server.folder, "sentinel"), one)
    try:
        one.start()
        two.start().ask("REPLICAOF", HOST, str(one.port))
        sentinel.start()
        has_replica = within(SECONDS, lambda: "slaves=1" in sentinel.knows() and b"state=online" in one.ask("INFO", "replication"))
        trial.check("Sentinel knows the replica", has_replica, sentinel.knows())
        try_primaries(trial, one, two, sentinel)
    finally:
        for it in (sentinel, one, two):
            it.end()


def is_replica(server):
    return b"role:slave" in server.ask("INFO", "replication")


def try_primaries(trial, one, two, sentinel):
    forwarder = Forwarder(one.port)
    service = trial.at(forwarder.port, "redis")
    counts = service.goes(200)
    trial.check("at a primary", (counts["done"], one.total()) == (200, 200), counts)
    sentinel.ask("SENTINEL", "FAILOVER", "mine")
    # (until the old one is told so it takes what nobody keeps)
    is_moved = within(SECONDS, lambda: sentinel.is_at(two) and is_replica(one))
    forwarder.target = two.port
    counts = service.goes(200)
    done, failed = counts["done"] - 200, counts["failed"]
    is_so = is_moved and counts["wrong"] == 0 and failed <= 4 and done + failed == 200 and two.total() == 200 + done
    trial.check("Sentinel moves the primary", is_so, (counts, two.total()))
    service.begins(400)
    two.crash()
    is_moved = within(SECONDS, lambda: sentinel.is_at(one) and not is_replica(one))
    forwarder.target = one.port
    counts = service.rests()
    trial.check("a primary that was killed: callers wait for the next", is_moved and counts["timeouts"] == 0, counts)
    after = service.goes(200)
    trial.check("after that all is well", after["done"] == counts["done"] + 200, (counts, after))
    try_by_hand(trial, one, two, forwarder, service)
    trial.check("the service at primaries ends", service.end() == 0)


def try_by_hand(trial, one, two, forwarder, service):
    """A primary that becomes a replica and closes no connection: each is left as it refuses to write, or where that is set, before."""
    two.start()
    careful = trial.at(forwarder.port, "redis-primary")
    careful.goes(40)
    forwarder.target = two.port
    before = service.counts()
    one.ask("REPLICAOF", HOST, str(two.port))
    counts = service.goes(200)
    failed = counts["failed"] - before["failed"]
    is_so = 0 < failed <= 4 and counts["done"] - before["done"] == 200 - failed
    trial.check("a primary that is demoted is left", is_so, (before, counts))
    counts = careful.goes(200)
    trial.check("where that is set nobody is refused by it", (counts["done"], counts["failed"]) == (240, 0), counts)
    forwarder.target = one.port
    careful.ask("evict")
    told = careful.ask("get")
    trial.check("no connection to a replica is opened then", "the server is no primary" in told, told)
    trial.check("that service ends", careful.end() == 0)


def try_read_only(trial):
    """A PostgreSQL that takes no writes for a time is left where that is set, and served by after it."""
    service = trial.at(trial.server.port, "postgres-primary", "postgres")
    counts = service.goes(40)
    set_read_only(trial.server, "on")
    told = service.ask("get")
    trial.check("a server that takes no writes is left", "the server takes no writes" in told and counts["failed"] == 0, told)
    set_read_only(trial.server, "off")
    counts = service.goes(40)
    trial.check("once it takes them it serves", (counts["done"], counts["failed"]) == (80, 0), counts)
    trial.check("the service of a primary ends", service.end() == 0)


def set_read_only(server, how):
    server.ask(f"ALTER SYSTEM SET default_transaction_read_only = {how}")
    server.ask("SELECT pg_reload_conf()")
    within(SECONDS, lambda: server.ask("SHOW default_transaction_read_only") == how)
