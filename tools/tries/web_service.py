"""The service over HTTP, adapters/web_service: under a load of wrk, while its PostgreSQL is killed and restarted, and a Prometheus reads
it; at a table that stands still, with more callers than may wait; and to its end, by a drain. What it acknowledged is held against the
rows, one by one."""
import collections
import contextlib
import glob
import http.client
import json
import os
import re
import shutil
import socket
import statistics
import subprocess
import threading
import time
import urllib.parse

import metrics
import unproved
from servers import HOST, SECONDS, Forwarder, Postgres, free_port, within

# The pool's size, how many may wait, and for how long, in milliseconds.
SIZE, WAITING, PATIENCE = 8, 64, 2000
SETTINGS = {"POOL_MAX_SIZE": str(SIZE), "POOL_MAX_WAITING": str(WAITING), "POOL_TIMEOUT_MS": str(PATIENCE)}
SCHEMA = """CREATE TABLE entries (key text NOT NULL, number bigserial); CREATE INDEX ON entries (key);
    CREATE TABLE totals (slot int PRIMARY KEY, entries bigint NOT NULL);
    INSERT INTO totals SELECT slot, 0 FROM generate_series(0, 15) slot"""
SCRIPT = os.path.join(os.path.dirname(os.path.realpath(__file__)), "load.lua")
# So many writes a load acknowledges at least, also on a slow machine.
MANY = 50
# A refusal that is at once takes less than this, in seconds, of those that wait for PATIENCE.
AT_ONCE = 0.25
# After an outage the health is told anew within this.
SOON = 2
SCRAPES = """global: {scrape_interval: 500ms, scrape_timeout: 400ms}
scrape_configs:
  - job_name: web_service
    static_configs: [{targets: ["%s:%d"]}]
"""


def asked(port, method, path, timeout=SECONDS):
    """The status and the text of an answer, and the seconds that it took."""
    connection, begun = http.client.HTTPConnection(HOST, port, timeout=timeout), time.monotonic()
    with contextlib.closing(connection):
        connection.request(method, path)
        answer = connection.getresponse()
        return answer.status, answer.read().decode(), time.monotonic() - begun


def of_pool(name, label=""):
    """A metric of the pool, for Prometheus."""
    return f'db_client_connection_{name}{{db_client_connection_pool_name="entries"{label and ","}{label}}}'


class Web:
    """The service, at two ports of its own."""

    def __init__(self, program, port):
        self.public, self.admin = free_port(), free_port()
        words = [program, f"{HOST}:{port}", f"{HOST}:{self.public}", f"{HOST}:{self.admin}"]
        how = {"stdin": subprocess.DEVNULL, "stdout": subprocess.PIPE, "stderr": subprocess.STDOUT, "text": True}
        self.process = subprocess.Popen(words, env={**os.environ, **SETTINGS}, **how)

    def is_healthy(self):
        with contextlib.suppress(OSError, http.client.HTTPException):
            return asked(self.admin, "GET", "/health")[0] == 200

    def page(self):
        return asked(self.admin, "GET", "/metrics")[1]

    def count(self, name):
        """A number of the page."""
        return sum(float(it) for it in re.findall(rf"^{name}(?:{{[^}}]*}})? (\S+)$", self.page(), re.MULTILINE))

    def answers(self, status):
        return int(re.search(rf'^http_answers_total{{status="{status}"}} (\d+)$', self.page(), re.MULTILINE)[1])

    def end(self):
        """Its status, and what it said."""
        try:
            said, _ = self.process.communicate(timeout=SECONDS)
        except subprocess.TimeoutExpired:
            self.process.kill()
            said, _ = self.process.communicate()
        return self.process.returncode, said


class Cutter(Forwarder):
    """One before the server that loses what is sent: after a cut each connection is closed at the next request, which the server does
    not get, or at the next answer, of which nobody hears though it was carried out."""

    def __init__(self, port):
        self.cuts = 0
        super().__init__(port)

    def pass_on(self, one, other):
        begun = self.cuts
        with contextlib.suppress(OSError):
            while (data := one.recv(65536)) and self.cuts == begun:
                other.sendall(data)
        for it in (one, other):
            with contextlib.suppress(OSError):
                it.shutdown(socket.SHUT_RDWR)
            it.close()

    def cut(self):
        self.cuts += 1


class Prometheus:
    """One that reads a service."""

    def __init__(self, folder, port):
        self.port, config = free_port(), os.path.join(folder, "prometheus.yml")
        with open(config, "w", encoding="utf-8") as file:
            file.write(SCRAPES % (HOST, port))
        words = ["prometheus", f"--config.file={config}", f"--storage.tsdb.path={folder}/prometheus", f"--web.listen-address={HOST}:{self.port}"]
        self.log = open(os.path.join(folder, "prometheus.log"), "w")
        self.process = subprocess.Popen(words, cwd=folder, stdin=subprocess.DEVNULL, stdout=self.log, stderr=self.log)

    def value(self, query):
        """What it answers to a query, or None for nothing."""
        with contextlib.suppress(OSError, http.client.HTTPException, ValueError):
            status, text, _ = asked(self.port, "GET", "/api/v1/query?query=" + urllib.parse.quote(query))
            found = json.loads(text)["data"]["result"] if status == 200 else []
            return float(found[0]["value"][1]) if found else None

    def end(self):
        self.process.terminate()
        self.process.wait()
        self.log.close()


class Load:
    """What wrk asks for so many seconds, over so many connections; the keys that it writes begin with a letter of their own."""

    def __init__(self, folder, port, prefix, connections, seconds):
        self.folder, self.prefix = folder, prefix
        words = ["wrk", "-t", "2", "-c", str(connections), "-d", f"{seconds}s", "-s", SCRIPT, f"http://{HOST}:{port}", "--", folder, prefix]
        self.process = subprocess.Popen(words, stdin=subprocess.DEVNULL, stdout=subprocess.PIPE, stderr=subprocess.STDOUT, text=True)

    def ends(self):
        said, _ = self.process.communicate(timeout=2 * SECONDS)
        if self.process.returncode:
            raise RuntimeError(said)
        return said


class Told:
    """What clients sent, and what they were told: all, or those whose keys begin so."""

    def __init__(self, folder, prefix="[a-z]"):
        self.sent, self.acknowledged, self.read, self.answers = set(), {}, [], collections.Counter()
        for path in glob.glob(os.path.join(folder, f"{prefix}[0-9]*")):
            with open(path, encoding="utf-8") as file:
                for line in file:
                    self.add(*line.split())

    def add(self, what, *words):
        if what == "sent":
            self.sent.add(words[0])
            return
        self.answers[int(what)] += 1
        if what == "201":
            self.acknowledged[words[0]] = words[1]
        elif what == "200":
            self.read.append(words)


class Trial:
    def __init__(self, program, place, tally):
        self.program, self.tally, self.folder = program, tally, os.path.join(place, "loads")
        os.mkdir(self.folder)
        self.server = Postgres(os.path.join(place, "postgres-of-web"))

    def check(self, what, holds, seen=""):
        self.tally.check(f"web service: {what}", holds, seen)

    def tell(self, text):
        print(f"{self.tally.name}: web service: {text}", flush=True)

    def run(self):
        self.server.start()
        self.server.ask(SCHEMA)
        self.web = Web(self.program, self.server.port)
        prometheus = Prometheus(self.folder, self.web.admin) if shutil.which("prometheus") else None
        try:
            self.check("it is healthy", within(SECONDS, self.web.is_healthy))
            self.try_pages()
            self.try_outages()
            self.try_cuts()
            self.try_overload()
            if prometheus:
                self.try_read(prometheus)
            else:
                self.tally.skip("prometheus is not installed")
            self.try_drain()
        finally:
            self.web.process.kill()
            self.web.process.wait()
            if prometheus:
                prometheus.end()
            self.server.end()

    def try_pages(self):
        """One entry, and what is no entry."""
        public = self.web.public
        answers = [asked(public, method, path)[:2] for method, path in [("GET", "/entries/one"), ("POST", "/entries/one"), ("GET", "/entries/one")]]
        number = self.server.ask("SELECT number FROM entries WHERE key = 'one'")
        wanted = [(404, "no such entry\n"), (201, f"one {number}\n"), (200, f"one {number}\n")]
        self.check("an entry is written, and read", answers == wanted, answers)
        others = [asked(public, "GET", "/")[0], asked(public, "DELETE", "/entries/one")[0], asked(public, "POST", "/drain")[0]]
        self.check("what is no request", others == [404, 405, 404], others)
        if shutil.which("promtool"):
            told = subprocess.run(["promtool", "check", "metrics"], input=self.web.page(), capture_output=True, text=True)
            odd = [line for line in (told.stdout + told.stderr).splitlines() if line != metrics.ODD]
            self.check("promtool takes its page", not odd, odd)

    def try_outages(self):
        """The server is killed twice, and once its connections are."""
        load, told = Load(self.folder, self.web.public, "a", 32, 14), []
        time.sleep(2)
        for _ in range(2):
            self.server.crash()
            is_ill = within(SOON, lambda: not self.web.is_healthy())
            time.sleep(1)
            still_ill = not self.web.is_healthy()
            self.server.start()
            told.append((is_ill and still_ill, within(SOON, self.web.is_healthy)))
            time.sleep(1.5)
        killed = sum(self.server.kill_connections() for _ in range(3))
        self.tell(" ".join(load.ends().split("Latency")[-1].split("Req/Sec")[0].split()) + " (latency: average, deviation, longest, within one)")
        self.check("its health tells of an outage", all(ill for ill, _ in told), told)
        self.check("its health tells of the end of an outage", all(well for _, well in told), told)
        self.check("connections are killed", killed > 0, killed)
        self.hold_against_rows("outages", "a")

    def hold_against_rows(self, what, prefix):
        """What was acknowledged is there, once; what else is there was sent, and is there once at most."""
        told, of_these = Told(self.folder), Told(self.folder, prefix)
        rows = [line.split("|") for line in self.server.ask("SELECT key, number FROM entries").splitlines()]
        keys = collections.Counter(key for key, _ in rows)
        lost = {key for key in told.acknowledged if keys[key] != 1} | {key for key, number in rows if told.acknowledged.get(key, number) != number}
        unknown = [key for key in keys if key not in told.acknowledged and key.startswith(prefix)]
        counted = int(self.server.ask("SELECT sum(entries) FROM totals"))
        self.check(f"{what}: many writes are acknowledged", len(of_these.acknowledged) > MANY, of_these.answers)
        self.check(f"{what}: each write that was acknowledged is there once", not lost, sorted(lost)[:9])
        self.check(f"{what}: each other one that is there was sent", set(unknown) <= told.sent and all(keys[it] == 1 for it in unknown), unknown[:9])
        self.check(f"{what}: what is counted is there", counted == len(rows), (counted, len(rows)))
        misread = [(key, number) for key, number in of_these.read if told.acknowledged.get(key) != number]
        self.check(f"{what}: what is read is what was written", not misread, misread[:9])
        self.check(f"{what}: what was acknowledged is found", not of_these.answers[404], of_these.answers)
        all_told = ", ".join(f"{count} of {status}" for status, count in sorted(of_these.answers.items()))
        self.tell(f"{what}: {all_told}; {len(of_these.acknowledged)} writes acknowledged, {len(unknown)} more are there")
        return unknown

    def try_cuts(self):
        """Requests to the server and answers of it are lost, again and again: nobody takes what was lost for made, or makes twice what was
        carried out."""
        cutter = Cutter(self.server.port)
        web = Web(self.program, cutter.port)
        try:
            within(SECONDS, web.is_healthy)
            load = Load(self.folder, web.public, "e", 16, 5)
            for _ in range(12):
                time.sleep(0.35)
                cutter.cut()
            load.ends()
            unknown = self.hold_against_rows("lost messages", "e")
            self.check("lost messages: some writes are there that were not acknowledged", len(unknown) > 0, unknown)
        finally:
            web.process.kill()
            web.process.wait()
            cutter.close()

    def holder(self, seconds):
        """Locks the table for so long."""
        words = self.server.words_of(f"BEGIN; LOCK TABLE entries; SELECT pg_sleep({seconds})")
        holder = subprocess.Popen(words, stdin=subprocess.DEVNULL, stdout=subprocess.DEVNULL)
        within(SECONDS, lambda: self.server.ask("SELECT count(*) FROM pg_locks WHERE mode = 'AccessExclusiveLock'") != "0")
        return holder

    def try_overload(self):
        """More callers come than may wait, at a table that stands still."""
        before = self.web.answers(503)
        holder, load, took = self.holder(2.5), Load(self.folder, self.web.public, "b", 100, 2), []
        time.sleep(0.5)
        while holder.poll() is None and len(took) < 2000:
            status, text, seconds = asked(self.web.public, "POST", "/entries/b9-nobody")
            if status == 503:
                took.append((seconds, text))
        load.ends()
        holder.wait()
        late = [seconds for seconds, _ in took]
        refused = self.web.answers(503) - before
        self.check("who is one too many is told so", len(took) > 20 and {text for _, text in took} == {"busy\n"}, took[:3])
        self.check("who is one too many is told so at once", took and max(late) < AT_ONCE, sorted(late)[-5:])
        if took:
            ms = [f"{it * 1000:.1f}" for it in (statistics.median(late), sorted(late)[len(late) * 99 // 100], max(late))]
            self.tell(f"{refused} answers of 503 in 2 s; {len(took)} were timed: median {ms[0]} ms, 99 of 100 {ms[1]} ms, longest {ms[2]} ms")
        self.check("it is healthy after that", within(SOON, self.web.is_healthy))
        self.check("each of them is in the metrics", self.web.answers(503) == self.web.count("db_client_connection_rejected_total"), self.web.page())

    def try_read(self, prometheus):
        """What a Prometheus has read."""
        used, web = of_pool("count", 'db_client_connection_state="used"'), self.web
        for what, query, holds in [
            ("it reads the service", 'up{job="web_service"}', lambda it: it == 1),
            ("connections were opened", of_pool("opened_total"), lambda it: it == web.count("db_client_connection_opened_total")),
            ("connections broke", of_pool("closed_total", 'reason="broken"'), lambda it: it > SIZE),
            ("openings failed", of_pool("failed_openings_total"), lambda it: it > 0),
            ("callers waited", f"max_over_time({of_pool('pending_requests')}[2m])", lambda it: it > 0),
            ("callers were refused", of_pool("rejected_total"), lambda it: it == web.answers(503)),
            ("the database was away", f"min_over_time(sum({of_pool('count')})[2m:500ms])", lambda it: it == 0),
            ("all were in use", f"max_over_time({used}[2m])", lambda it: it == SIZE),
            ("writes were acknowledged", 'http_answers_total{status="201"}', lambda it: it == web.answers(201)),
            ("times were measured", of_pool("use_time_seconds_count"), lambda it: it > 1000),
        ]:
            seen = []

            def is_so():
                seen.append(prometheus.value(query))
                return seen[-1] is not None and holds(seen[-1])

            self.check(f"Prometheus: {what}", within(10, is_so), seen[-3:])

    def is_refused(self):
        """Whether nobody is taken in any more."""
        try:
            with contextlib.suppress(TimeoutError, http.client.HTTPException):
                asked(self.web.public, "GET", "/entries/one", 0.2)
        except OSError:
            return True
        return False

    def try_drain(self):
        """The service ends as requests are under way, under a load: each is answered."""
        load, told, number = Load(self.folder, self.web.public, "c", 32, 5), [], 20
        time.sleep(1.5)
        holder = self.holder(1)

        def write(it):
            with contextlib.suppress(OSError, http.client.HTTPException):
                told.append(asked(self.web.public, "POST", f"/entries/d0-{it}"))

        threads = [threading.Thread(target=write, args=[it]) for it in range(number)]
        for it in threads:
            it.start()
        time.sleep(0.3)
        drained = asked(self.web.admin, "POST", "/drain")
        begun = time.monotonic()
        health = asked(self.web.admin, "GET", "/health")[:2]
        is_closed = within(SOON, self.is_refused)
        status, said = self.web.end()
        took = time.monotonic() - begun
        for it in threads:
            it.join()
        load.ends()
        holder.wait()
        self.check("a drain is taken", drained[:2] == (202, "draining\n"), drained)
        self.check("its health tells of the drain", health == (503, "draining\n"), health)
        self.check("nobody else is taken in", is_closed)
        self.check("each request under way is answered", [it[0] for it in told] == [201] * number, told)
        self.check("it ends well", (status, said.splitlines()[-1:]) == (0, ["drained"]), (status, said))
        self.check("nothing stays at the server", within(SECONDS, lambda: self.server.connections() == 0), self.server.connections())
        unknown = self.hold_against_rows("a drain", "c")
        self.check("a drain drops no request", not unknown, unknown[:9])
        self.tell(f"drained {took:.2f} s after that was asked for, of which the table stood still for 0.7 s")


def try_service(mine, place, tally):
    """The service of a repository."""
    program = os.path.join(place, "web_service", "program")
    if shutil.which("wrk") is None:
        tally.skip("wrk is not installed")
        return
    try:
        unproved.compile_program(os.path.join(mine, "crates", "web_service"), program)
        Trial(program, place, tally).run()
    except (RuntimeError, OSError, ValueError, subprocess.SubprocessError, unproved.Failed) as error:
        tally.check("the web service", False, error)
