"""Pools over a real Redis, under loads whose course is known, and what `pool-audit` says of their reports, held against what each call
met: tests/soaks is the program that calls. A time in which a caller failed is never well, what is bad has its cause named, and what is
well is accused of nothing. Where the machine is slow, what callers met decides. Moments are nanoseconds since a pool's making."""
import json
import os
import subprocess
import tempfile
import time
from datetime import datetime
from typing import Callable, NamedTuple

import soaks_wrong
import unproved
from adapters import put_source
from copies import TESTS
from servers import HOST, SECONDS, FleetingRedis, SlowForwarder, within
from tally import TOP, Tally

FAILED = ["timeouts", "refused"]
# For so many seconds after a trouble of the server its pool may still be at work on it.
SETTLING = 1


def restart(server):
    server.crash()
    time.sleep(1.5)
    server.start()


def kill_connections(server):
    for _ in range(40):
        server.kill_connections()
        time.sleep(0.05)


class Course(NamedTuple):
    """The program's words after the address (SIZE TIMEOUT RECORDS WAITING LIFETIME, and for each stretch LASTS CALLERS HOLD PAUSE), what its
    callers have to meet, and what is done to its server. Of a bad course some report begins with one of the causes, and nothing but these
    and the effects is named."""
    name: str
    words: str
    met: str = "served"
    causes: set = set()
    effects: set = set()
    meddle: Callable = None
    port_of: Callable = lambda server: server.port


EXHAUSTED, CLOSED = {"exhausted", "was_exhausted", "often_exhausted"}, {"checks_fail", "churn"}
OPENINGS, WAITED = {"nothing_opens", "openings_fail"}, {"timeouts", "long_waits"}
COURSES = [
    Course("calm", "8 20000 400 0 0  3000 4 5 5"),
    Course("a short burst", "4 20000 400 0 0  1300 2 5 5  400 16 20 1  1800 2 5 5"),
    Course("slow openings", "4 20000 400 0 1000  4500 4 5 5", port_of=lambda server: SlowForwarder(server.port).port),
    Course("a flood", "4 300 400 0 0  1000 4 5 5  2000 16 400 10  3000 4 5 5", "timeouts", EXHAUSTED | {"lent_for_long"}, WAITED),
    Course("a crowd", "4 20000 400 4 0  700 4 5 5  1500 16 50 20  2300 4 5 5", "refused", {"refused"}),
    Course("an outage", "4 600 400 0 0  6000 4 5 5", "timeouts", OPENINGS, EXHAUSTED | WAITED | CLOSED, restart),
    Course("churn", "4 20000 400 0 0  6000 4 5 5", "served", CLOSED, OPENINGS, kill_connections),
]


class Met(NamedTuple):
    """What was met, or done, at some moment between these two."""
    kind: str
    begun: int
    ended: int

    def is_within(self, since, until):
        return since < self.begun and self.ended <= until

    def touches(self, since, until):
        return since < self.ended and self.begun <= until


class Play:
    """A course, as the program told it: the reports, when each was made, what each call met, and what may be held against the pool."""

    def __init__(self, course, lines, times):
        self.course, self.reports = course, [json.loads(line) for line in lines if line.startswith("{")]
        told = [Met(kind, int(begun), int(ended)) for kind, begun, ended in (line.split() for line in lines if line[-1].isdigit())]
        self.made, self.calls = ([it for it in told if (it.kind == "report") == is_made] for is_made in (True, False))
        patience = self.reports[0]["status"]["connection_timeout"]
        self.troubles = [it for it in self.calls if it.kind in FAILED or 3 * (it.ended - it.begun) > patience]
        if course.meddle:
            created_at = self.reports[0]["created_at"]
            second = datetime.fromisoformat(created_at[:19] + "+00:00").timestamp() + float("0" + created_at[19:-1])
            self.troubles.append(Met("server", *(int((it - second) * 1e9) for it in times)))


def played(course, program, server, folder):
    path = os.path.join(folder, course.name)
    with open(path, "w+", encoding="utf-8") as log:
        address, how = f"{HOST}:{course.port_of(server)}", {"stdin": subprocess.DEVNULL, "stdout": log, "stderr": log}
        process = subprocess.Popen([program, address, *course.words.split()], **how)
        try:
            within(SECONDS, lambda: os.path.getsize(path) or process.poll() is not None)
            time.sleep(1.2 if course.meddle else 0)
            begun = time.time()
            if course.meddle:
                course.meddle(server)
            ended, status = time.time(), process.wait(SECONDS)
        finally:
            process.kill()
            process.wait()
        log.seek(0)
        lines = log.read().splitlines()
    if status != 0:
        raise RuntimeError(f"{course.name}: {lines[-5:]}")
    return Play(course, lines, (begun, ended + SETTLING))


def audited(reports, folder):
    """What `pool-audit` says of these reports: each answer, its status, and of how many it says in words that all is well."""
    path = os.path.join(folder, "reports")
    with open(path, "w", encoding="utf-8") as file:
        file.writelines(json.dumps(report) + "\n" for report in reports)
    how = {"stdin": subprocess.DEVNULL, "capture_output": True, "text": True}
    in_json, in_words = (subprocess.run([os.path.join(TOP, "pool-audit"), *form, path], **how) for form in (["--json"], []))
    return [json.loads(line) for line in in_json.stdout.splitlines()], in_json.returncode, in_words.stdout.count("\n  all well: ")


def kinds(answer):
    return [concern["kind"] for concern in answer["concerns"]]


def faults_of_time(play, answer, made, ends):
    """What is wrong with the answer to a report. `ends` are the moments at which those before it end, and when each was done: of a call
    that failed in between, one or the other tells."""
    summary, is_well = answer["summary"], answer["state"] == "well"
    calls, since, until = summary["calls"], summary["calls"]["since"], summary["until"]
    if since not in [0, *ends] or since > summary["from"] or not made.begun <= until <= made.ended:
        yield "its time is not the one from a report before to this one"
    for kind in FAILED:
        those = [it for it in play.calls if it.kind == kind]
        least, most = sum(it.is_within(ends.get(since, 0), until) for it in those), sum(it.touches(since, made.ended) for it in those)
        if not least <= calls[kind] <= most:
            yield f"it tells {calls[kind]} {kind} where there were {least} to {most}"
        if least and is_well:
            yield f"all is well though callers met {kind}"
        if (calls[kind] > 0) != (kind in kinds(answer)):
            yield f"{calls[kind]} {kind}, but the concerns are {kinds(answer)}"
    if calls["takes"] < sum(it.kind in ("served", "broken") and it.is_within(ends.get(since, 0), made.begun) for it in play.calls):
        yield "fewer takes than were served"
    if not is_well and not any(it.touches(since, made.ended) for it in play.troubles):
        yield f"it is accused of {kinds(answer)}, and nothing was wrong"


def faults(play, answers, status, wells):
    """What is wrong with what was said of a course."""
    course, ends, found, met = play.course, {}, [], {it.kind for it in play.calls}
    if len(answers) != len(play.made) or not all(it["sound"] for it in answers):
        return [f"not each report is sound: status {status}"]
    for place, (answer, made) in enumerate(zip(answers, play.made), 1):
        found += [f"report {place}: {fault}" for fault in faults_of_time(play, answer, made, ends)]
        ends[answer["summary"]["until"]] = made.ended
    if course.met not in met or "other" in met:
        found.append("its callers met something else")
    if course.causes and not course.causes & {kinds(it)[0] for it in answers if kinds(it)}:
        found.append("its cause is not named")
    if course.causes and not {kind for it in answers for kind in kinds(it)} <= course.causes | course.effects:
        found.append(f"what is none of it is named: {[kinds(it) for it in answers]}")
    states = ["concerned" if kinds(it) else "well" for it in answers]
    if [it["state"] for it in answers] != states or wells != states.count("well") or status != 7 * ("concerned" in states):
        found.append(f"its status is {status}, and {wells} are well in words")
    return found


def built(place):
    """The program, compiled with checks in a repository that `vendor` makes."""
    mine, program = os.path.join(place, "mine"), os.path.join(place, "program", "soaks")
    subprocess.run(["git", "init", "-q", mine], check=True)
    subprocess.run([os.path.join(TOP, "vendor"), "--metrics", "--redis", mine], check=True, stdout=subprocess.DEVNULL)
    put_source(os.path.join(TESTS, "soaks"), os.path.join(mine, "crates", "soaks"))
    with open(os.path.join(mine, "crates.txt"), "a", encoding="utf-8") as file:
        file.write("soaks: r2d2 redis pool_metrics anyhow\n")
    unproved.compile_program(os.path.join(mine, "crates", "soaks"), program)
    return program


def try_courses(place, tally):
    program, server, plays = built(place), FleetingRedis(os.path.join(place, "server")), {}
    try:
        server.start()
        for course in COURSES:
            plays[course.name] = played(course, program, server, place)
    finally:
        server.end()
    for name, play in plays.items():
        tally.check(name, not (found := faults(play, *audited(play.reports, place))), found)
    soaks_wrong.try_all(plays, lambda reports: audited(reports, place), faults, tally)


def tried():
    tally = Tally("soaks")
    if not FleetingRedis.is_there():
        tally.skip(f"{FleetingRedis.PACKAGE} is not installed")
        return tally
    with tempfile.TemporaryDirectory(prefix="soaks-") as place:
        try:
            try_courses(place, tally)
        except (RuntimeError, OSError, ValueError, subprocess.SubprocessError, unproved.Failed) as error:
            tally.check("all courses", False, error)
    return tally
