"""Peers whose answers are drawn: sound ones in pieces, and what a broken or hostile server may say. Nothing stops the service, each call is
over by its deadline, nothing is taken for what does not come, and no caller is told what another asked for. The seed is told; with it as
ADAPTERS_SEED in the environment the same is drawn again. (The codecs are fed with thousands of such: tests/codecs.)"""
import os
import random
import re
import socket
import time

from peer import DEADLINE, SLACK, service_at
from postgres_peer import TAKEN, PostgresPeer, done, message, ready, refusal, row
from redis_peer import RedisPeer
from servers import SECONDS, within

CASES = 120
# So much memory a case may take. (Of that the service's checks take more than half. What the codecs take is told exactly in tests/codecs.)
MOST = 8_000_000
NOTICE = message(b"N", b"VNOTICE\0Mnews\0\0")
LIES = [0, 1, 3, 4, 5, 255, 15_000_000, 0x7fffffff, 0xffffffff]


def redis_answer(draw, case):
    """A sound answer to this case, and what the caller is told of it."""
    name = f"v{case}\u00e9\r\n+".encode()
    return draw.choice([
        (b":%d\r\n" % case, f"Number({case})"),
        (b"*3\r\n:%d\r\n$-1\r\n*0\r\n" % case, f"List([Number({case}), Nothing, List([])])"),
        (b"$%d\r\n%s\r\n" % (len(name), name), f"v{case}\u00e9"),
        (b"%%1\r\n+key\r\n:%d\r\n" % case, f'List([Status("key"), Number({case})])'),
        (b"-ERR %d\r\n" % case, f"! redis: ERR {case}"),
    ])


def redis_lies(draw, answer):
    lengths = list(re.finditer(rb"(?<=[$*%])\d+", answer)) or [re.match(rb"", answer)]
    it = draw.choice(lengths)
    return answer[:it.start()] + draw.choice([b"", b"-2", b"99999999999999999999", b"0" * 40, *(b"%d" % lie for lie in LIES)]) + answer[it.end():]


def postgres_answer(draw, case):
    name = str(case).encode()
    told = f'[Some("{case}"), None, Some("")]'
    rows = row(name, None, b"")
    return draw.choice([
        (rows + done(b"SELECT 1") + ready(), told),
        (NOTICE + message(b"T", b"\0\0") + rows + NOTICE + done(b"SELECT 1") + ready(), told),
        (rows + done(b"SELECT 1") + row(name) + done(b"SELECT 1") + ready(), f'{told} [Some("{case}")]'),
        (TAKEN + rows + done(b"SELECT 1") + ready(), told),
        (rows + refusal(b"22012", name) + ready(), f"! postgres: {case} (SQLSTATE 22012)"),
    ])


def postgres_lies(draw, answer):
    at = draw.randrange(len(answer))
    return answer[:at] + draw.choice(LIES).to_bytes(4, "big") + answer[at + 4:]


def mutated(draw, answer):
    """Some bytes changed, left out or put in, or the end left out."""
    it = bytearray(answer)
    for _ in range(draw.randint(1, 4)):
        at, byte = draw.randrange(len(it) + 1), draw.choice([13, 10, 0, 255, 48, draw.randrange(256)])
        it[at:at + draw.randint(0, 1)] = bytes([byte] * draw.randint(0, 2))
    return bytes(it[:draw.randint(0, len(it))] if draw.random() < 0.2 else it)


def pieces(draw, answer, pause=0.01):
    """An answer in up to five pieces, with a pause before each."""
    cuts = sorted(draw.randint(0, len(answer)) for _ in range(draw.randint(0, 4)))
    return [(answer[a:b], draw.random() * pause) for a, b in zip([0, *cuts], [*cuts, len(answer)]) if a < b]


class Script:
    """What each case is answered with: pieces, and whether the connection ends behind them. Every other case is sound."""

    def __init__(self, seed, answer, lies):
        self.cases, self.begun, self.ended, draw = [], set(), set(), random.Random(seed)
        for case in range(CASES):
            sound, told = answer(draw, case)
            if case % 2 == 0:
                self.cases.append((pieces(draw, sound), False, told))
                continue
            how = draw.randrange(8)
            if how == 0:
                self.cases.append(([(bytes([byte]), 0.05) for byte in sound[:-1]], False, None))
            elif how == 1:
                self.cases.append((pieces(draw, sound + sound, 0.05), False, None))
            elif how == 2:
                self.cases.append((pieces(draw, sound[:draw.randrange(len(sound))]), True, None))
            elif how in (3, 4):
                self.cases.append((pieces(draw, lies(draw, sound)), False, None))
            elif how == 5:
                self.cases.append((pieces(draw, draw.randbytes(draw.randint(1, 300))), draw.random() < 0.5, None))
            else:
                self.cases.append((pieces(draw, mutated(draw, sound)), draw.random() < 0.2, None))

    def play(self, connection, asked, number):
        """Answers a request, which ends in the number of its case."""
        case = int(re.search(rb"(\d+)$", asked[-1] if isinstance(asked, list) else asked)[1])
        parts, is_end, _ = self.cases[case]
        self.begun.add(case)
        try:
            for part, pause in parts:
                time.sleep(pause)
                connection.sendall(part)
            if is_end:
                connection.shutdown(socket.SHUT_RDWR)
        finally:
            self.ended.add(case)

    def is_over(self, case):
        """Whether all of it was sent: what comes once the next request was sent, nobody can tell from its answer."""
        return case not in self.begun or case in self.ended


def taken(service):
    """How much memory it has, without its code."""
    with open(f"/proc/{service.process.pid}/status") as it:
        return int(re.search(r"RssAnon:\s*(\d+)", it.read())[1]) * 1024


def try_script(trial, script, service, line):
    late, wrong, grown = [], [], []
    service.ask("get")
    for case, (_, _, wanted) in enumerate(script.cases):
        before, begun = taken(service), time.monotonic()
        told = service.ask(f"run {line.format(case)}")
        lasted = time.monotonic() - begun
        within(SECONDS, lambda: script.is_over(case))
        if lasted > DEADLINE * 1.1 + SLACK:
            late.append((case, lasted, told))
        if taken(service) - before > MOST:
            grown.append((case, taken(service) - before))
        # (what the case before left may fail this one)
        is_failed = re.match(r"! (redis|postgres): bytes came that nobody asked for|! .* closed the connection|! .*(Broken pipe|reset)", told)
        if wanted is not None and told.removesuffix(" |") != wanted and not is_failed:
            wrong.append((case, told, wanted))
    return late, wrong, grown


def try_drawn(trial, name, peer_of, answer, lies, line, *words):
    seed = int(os.environ.get("ADAPTERS_SEED") or random.SystemRandom().randrange(1 << 32))
    script = Script(seed, answer, lies)
    try:
        with service_at(trial, peer_of(script.play), f"{name}-never", *words) as (_, service):
            late, wrong, grown = try_script(trial, script, service, line)
            is_well = service.end() == 0
    except RuntimeError as error:
        trial.check(f"drawn answers stop nothing (ADAPTERS_SEED={seed})", False, error)
        return
    trial.check(f"drawn answers stop nothing (ADAPTERS_SEED={seed})", is_well)
    # (of a busy machine's cases a few may be late)
    trial.check(f"drawn answers: the deadline (ADAPTERS_SEED={seed})", len(late) <= CASES // 40, late)
    trial.check(f"drawn answers: each caller is told its own (ADAPTERS_SEED={seed})", not wrong, wrong)
    trial.check(f"drawn answers: nothing is taken that does not come (ADAPTERS_SEED={seed})", not grown, grown)


def try_redis(trial):
    try_drawn(trial, "redis", RedisPeer, redis_answer, redis_lies, "GET case{}")


def try_postgres(trial):
    try_drawn(trial, "postgres", PostgresPeer, postgres_answer, postgres_lies, "SELECT {}", "somebody")
