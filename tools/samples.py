"""Reports of pools that a small simulation plays: callers come, hold a connection, and bring it back; connecting takes its time, and fails
while the database is away. `pool-audit` judges them, so all words about them are the program's. `tools/pages samples` writes what it makes
of those in tests/pages, for a page."""
import collections
import heapq
import json
import os
import random
import subprocess
import tempfile

import programs

MS = 1_000_000
SECOND = 1000 * MS
MINUTE = 60 * SECOND


class Pool:
    """A pool that lends the newest idle connection, with a journal for the last `room` records."""

    def __init__(self, name, size, wanted, idle_timeout=None, timeout=5 * SECOND, reap_every=30 * SECOND, created_at=None, seed=1, room=1000):
        self.name, self.size, self.wanted, self.idle_timeout, self.timeout = name, size, wanted, idle_timeout, timeout
        self.reap_every, self.created_at, self.random, self.room = reap_every, created_at, random.Random(seed), room
        self.now, self.events, self.count, self.ids, self.pending = 0, [], 0, 0, 0
        self.idle, self.lent, self.births, self.since, self.waiting = [], [], {}, {}, collections.deque()
        self.opening_time = lambda pool: pool.random.randrange(20, 60) * MS
        self.is_away = lambda time: False
        self.calls, self.latest_failure, self.waiting_since = collections.Counter(), None, None
        self.records, self.bases, self.reports = [], [], []
        self.order(wanted)
        self.bases.append(self.base())
        if idle_timeout is not None:
            self.at(reap_every, self.reap)

    # What happens

    def at(self, time, act, *words):
        self.count += 1
        heapq.heappush(self.events, (time, self.count, act, words))

    def play(self, until):
        while self.events and self.events[0][0] <= until:
            self.now, _, act, words = heapq.heappop(self.events)
            act(*words)
        self.now = until

    def base(self):
        """What there is now, as a report has it before its records."""
        return {"at": self.now, "idle": [[it, self.births[it], self.since[it]] for it in self.idle],
                "lent": [[it, self.births[it]] for it in self.lent], **self.counts()}

    def counts(self):
        return {"connections": len(self.idle) + len(self.lent), "pending": self.pending, "closed": False}

    def note(self, kind, **fields):
        self.records.append({"kind": kind, "at": self.now, **fields})
        self.bases.append(self.base())

    def room_left(self):
        return self.size - len(self.lent) - len(self.idle) - self.pending

    def order(self, count):
        for _ in range(count):
            self.pending += 1
            self.at(self.now + self.opening_time(self), self.opened, 1)
        return count

    def top_up(self):
        return self.order(max(0, min(self.wanted - len(self.idle), self.room_left())))

    def opened(self, tries):
        if self.is_away(self.now):
            self.calls["failed_openings"] += 1
            self.latest_failure = self.now
            return self.at(self.now + min(200 * MS << tries, self.timeout // 2), self.opened, tries + 1)
        number, self.ids = self.ids, self.ids + 1
        self.pending -= 1
        self.births[number] = self.since[number] = self.now
        self.idle.append(number)
        self.note("admitted", id=number)
        return self.serve()

    def call(self, hold, breaks=False):
        """A caller that holds what it gets for this long, or never brings it back."""
        caller = [self.now + self.timeout, hold, breaks]
        if not self.waiting:
            self.waiting_since = self.now
        self.waiting.append(caller)
        self.at(caller[0], self.give_up, caller)
        if not self.serve() and self.room_left() > 0:
            self.note("ordered", ordered=self.order(1))

    def give_up(self, caller):
        if caller in self.waiting:
            self.waiting.remove(caller)
            self.calls["timeouts"] += 1

    def serve(self):
        served = False
        while self.waiting and self.idle:
            _, hold, breaks = self.waiting.popleft()
            number = self.idle.pop()
            self.lent.append(number)
            self.since[number] = self.now
            self.calls["takes"] += 1
            self.note("taken", id=number, ordered=self.top_up())
            if hold is not None:
                self.at(self.now + hold, self.back, number, breaks)
            served = True
        return served

    def back(self, number, breaks):
        self.lent.remove(number)
        if breaks or self.is_away(self.now):
            self.note("closed", id=number, ordered=self.top_up())
        else:
            self.idle.append(number)
            self.since[number] = self.now
            self.note("kept", id=number)
        self.serve()

    def reap(self):
        kept = [it for it in self.idle if self.now - self.since[it] < self.idle_timeout]
        reaped, self.idle = len(self.idle) - len(kept), kept
        ordered = self.top_up()
        if reaped or ordered:
            self.note("reaped", ordered=ordered)
        self.at(self.now + self.reap_every, self.reap)

    # What a service writes about it

    def status(self):
        calls = {it: self.calls[it] for it in ("timeouts", "refused", "failed_openings", "failed_checks")}
        since = self.waiting_since if self.waiting else None
        return {"connection_timeout": self.timeout, "waiting": len(self.waiting), "waiting_since": since, **calls,
                "latest_failure": self.latest_failure, "waits": None}

    def report(self, error=None, knows=True):
        """Writes a report; one that knows what callers met has a status."""
        records = self.records[-self.room:]
        lost = len(self.records) - len(records)
        limits = {"max_size": self.size, "min_idle": self.wanted, "max_lifetime": None, "idle_timeout": self.idle_timeout,
                  "connection_timeout": self.timeout, "reap_every": self.reap_every, "order": "newest_first"}
        loans = [[it, self.since[it]] for it in self.lent]
        origin = {"name": self.name, "created_at": self.created_at, "reported_at": self.now, "status": self.status() if knows else None,
                  "latest_error": error, "loans": loans if knows and loans else None}
        self.reports.append({
            "version": 1, **{it: value for it, value in origin.items() if value is not None}, "limits": limits, "base": self.bases[lost],
            "records": records, "lost": lost, "takes": self.calls["takes"], "idle": list(self.idle), "lent": list(self.lent),
            **self.counts()})
        return self.reports


def callers(pool, begin, end, pause, hold):
    """Callers at random times, one in each pause; each holds what it gets for some part of `hold`."""
    time = begin
    while time < end:
        time += int(pool.random.expovariate(1) * pause)
        pool.at(time, pool.call, int(hold * (.4 + pool.random.random())))


def calm_night():
    pool = Pool("orders", 6, 2, idle_timeout=10 * MINUTE, reap_every=30 * SECOND, created_at="2026-01-31T02:00:00Z", seed=4)
    callers(pool, 0, 55 * MINUTE, 40 * SECOND, 9 * SECOND)
    callers(pool, 20 * MINUTE, 22 * MINUTE, 6 * SECOND, 11 * SECOND)
    pool.play(60 * MINUTE)
    return pool.report()


def lost_database():
    pool = Pool("ledger", 4, 1, created_at="2026-01-31T12:00:00Z", timeout=1500 * MS, seed=8)
    pool.is_away = lambda time: 4 * SECOND < time < 9500 * MS
    callers(pool, 200 * MS, 13 * SECOND, 260 * MS, 400 * MS)
    pool.play(14 * SECOND)
    return pool.report(error="connection refused")


def burst():
    """A report without a status, by which nobody knows whether callers failed."""
    pool = Pool(None, 8, 2, idle_timeout=3 * SECOND, timeout=5 * SECOND, reap_every=SECOND, seed=3)
    callers(pool, 300 * MS, 500 * MS, 150 * MS, 250 * MS)
    for place in range(16):
        pool.at(2400 * MS + place * 20 * MS, pool.call, pool.random.randrange(280, 520) * MS, place == 9)
    callers(pool, 4500 * MS, 8 * SECOND, 650 * MS, 240 * MS)
    pool.play(8500 * MS)
    return pool.report(knows=False)


def leak():
    """Eight reports, a minute apart: one connection after the other is not brought back."""
    pool = Pool("numbers", 5, 0, created_at="2026-01-31T09:30:00Z", timeout=2 * SECOND, seed=5, room=900)
    callers(pool, 0, 8 * MINUTE, 380 * MS, 500 * MS)
    for place in range(5):
        pool.at((70 + 75 * place) * SECOND, pool.call, None)
    for minute in range(1, 9):
        pool.play(minute * MINUTE)
        pool.report()
    return pool.reports


def stuck():
    """The first report of the program's own input, with what callers met."""
    with open(os.path.join(programs.TOP, "crates", "pool_audit", "stdin"), encoding="utf-8") as file:
        report = json.loads(file.readline())
    calls = {"timeouts": 133, "refused": 0, "failed_openings": 0, "failed_checks": 0}
    return [{**report, "status": {"connection_timeout": 5 * SECOND, "waiting": 29, "waiting_since": 7804 * MS, **calls,
                                  "latest_failure": None, "waits": None}}]


def unsound():
    """A report that was altered."""
    pool = Pool("sessions", 4, 1, created_at="2026-01-31T12:00:00Z", seed=2)
    callers(pool, 0, 8 * SECOND, 300 * MS, 300 * MS)
    pool.play(8 * SECOND)
    report = pool.report()[0]
    report["records"][17] = {"kind": "kept", "at": report["records"][17]["at"], "id": 4}
    return [report]


def busy(records, lanes=40, seed=7):
    """A pool that made as many records, with callers all the time."""
    pool = Pool("busy", lanes, 4, created_at="2026-01-31T12:00:00Z", timeout=SECOND, idle_timeout=MINUTE, seed=seed, room=records)
    time = 0
    while len(pool.records) < records:
        callers(pool, time, time + 10 * SECOND, 30 * MS, 1100 * MS)
        time += 10 * SECOND
        pool.play(time)
    return pool.report()


SAMPLES = {"calm-night": calm_night, "lost-database": lost_database, "burst": burst, "leak": leak, "stuck": stuck,
           "pools": lambda: [*lost_database(), *calm_night(), *burst(), *unsound()]}


class Refused(Exception):
    """The program took a sample for no report."""


def judged(reports):
    """What the program makes of reports for a page, as text."""
    audit = programs.pool_audit("pool-audit")
    with tempfile.TemporaryFile() as lines:
        lines.write("".join(f"{json.dumps(it)}\n" for it in reports).encode())
        lines.seek(0)
        process = audit.start(["--html"], stdin=lines, stdout=subprocess.PIPE)
        text = process.stdout.read().decode()
    status, said = audit.ended(process)
    if status not in programs.JUDGED:
        raise Refused(f"status {status}: {said.decode()}")
    return text


# Of a report the page takes the figures of its summary beside the rest, and null for what is left out.
IN_SUMMARY = ["from", "until", "exhausted", "opened", "closed", "reaped", "most_lent", "calls"]
LEFT_OUT = ["record", "why", "concerns", "created_at", "waiting", "summary"]


def report_as_written(report):
    summary = {it: report[it] for it in IN_SUMMARY}
    if report["calls"] is not None:
        summary["calls"] = {"since": report["since"] or 0, **report["calls"]}
    rest = {it: value for it, value in report.items() if it not in [*IN_SUMMARY, "since"]}
    rest["summary"], rest["concerns"] = (summary, report["concerns"]) if report["sound"] else (None, None)
    return {it: value for it, value in rest.items() if value is not None or it not in LEFT_OUT}


def as_written(data):
    """Data as the program writes it: a report's figures stand in its summary."""
    if not data:
        return data
    return {"pools": [{**pool, "reports": [report_as_written(it) for it in pool["reports"]]} for pool in data["pools"]]}


def report_as_read(report):
    summary = report.get("summary") or {**dict.fromkeys(IN_SUMMARY, 0), "calls": None}
    calls = summary["calls"] and {it: value for it, value in summary["calls"].items() if it != "since"}
    since = summary["calls"] and (summary["calls"]["since"] or None)
    known = {**dict.fromkeys(LEFT_OUT), "concerns": [], **report, **summary, "calls": calls, "since": since}
    return {it: value for it, value in known.items() if it != "summary"}


def as_read(data):
    """The same with the figures beside the rest, as the page takes them."""
    return {"pools": [{**pool, "reports": [report_as_read(it) for it in pool["reports"]]} for pool in data["pools"]]}
