"""A scripted peer in the place of PostgreSQL."""
import base64
import hashlib
import hmac
import io
import re
import socket
import struct
import time

from peer import BEHIND, DEADLINE, LATE, Peer, each_byte, sends, sends_forever, service_at, try_answer, try_each, try_two_addresses
from servers import HOST, SECONDS

CANCEL, SECRET = 80877102, b"hush"
PASSWORD = "hidden-word"
# The service takes so much: 64 KiB, and 100 rows.
LONG, MANY = 64 * 1024, 100


def message(kind, body=b""):
    return kind + struct.pack("!I", len(body) + 4) + body


def asks(what, text=b""):
    return message(b"R", struct.pack("!I", what) + text)


def row(*values):
    texts = (struct.pack("!i", -1) if it is None else struct.pack("!i", len(it)) + it for it in values)
    return message(b"D", struct.pack("!H", len(values)) + b"".join(texts))


def done(name):
    return message(b"C", name + b"\0")


def ready(how=b"I"):
    return message(b"Z", how)


def refusal(state, text, severity=b"ERROR"):
    return message(b"E", b"".join(it + b"\0" for it in (b"S" + severity, b"V" + severity, b"C" + state, b"M" + text, b"")))


NOTICE, SETTING = message(b"N", b"VNOTICE\0Mnews\0\0"), message(b"S", b"TimeZone\0UTC\0")
BEGUN, ONE = asks(0), row(b"1") + done(b"SELECT 1") + ready()
# The answers to what a reset asks.
RESET = {b"DISCARD ALL": done(b"DISCARD ALL") + ready(), b"ROLLBACK": done(b"ROLLBACK") + ready()}


def body_of(stream, length):
    if len(length) != 4:
        raise ValueError("the end")
    return stream.read(struct.unpack("!I", length)[0] - 4)


def message_of(stream, kind=b""):
    """The body of the next message, which is to be of this kind."""
    head = stream.read(5)
    if not head.startswith(kind):
        raise ValueError(head)
    return body_of(stream, head[1:])


def query_of(stream, kept):
    """The next query, with what was bound to it; the end is none. Before the text of a statement that is kept by a name there is a `+`, or a
    `=` where it was before, and before that the texts of those that are forgotten, each behind a `-`."""
    begin, words = stream.peek(1)[:1], []
    if begin not in (b"C", b"P", b"B"):
        query = message_of(stream, b"Q" if begin == b"Q" else b"X")[:-1]
        if query == b"DISCARD ALL":
            kept.clear()
        return query, None
    while stream.peek(1)[:1] == b"C":
        words += [b"-" + text for text in [kept.pop(message_of(stream, b"C")[1:-1], None)] if text]
    how = b"="
    if stream.peek(1)[:1] == b"P":
        name, text, types = message_of(stream, b"P").split(b"\0", 2)
        how = b"+" if name else b""
        if types != b"\0\0" or name in kept:
            raise ValueError(name)
        kept[name] = text
    portal, name, bound = message_of(stream, b"B").split(b"\0", 2)
    ends = (portal, bound[:2], bound[-2:], message_of(stream, b"E"), message_of(stream, b"S"))
    if ends != (b"", b"\0" * 2, b"\0" * 2, b"\0" * 5, b"") or name not in kept:
        raise ValueError(name, bound)
    words.append(how + (kept[name] if name else kept.pop(name)))
    return b" ".join(words), values_in(bound[2:-2])


def values_in(bound):
    """The values that these bytes are."""
    stream, values = io.BytesIO(bound), []
    for _ in range(*struct.unpack("!H", stream.read(2))):
        (length,) = struct.unpack("!i", stream.read(4))
        values.append(None if length < 0 else stream.read(length))
        if len(values[-1] or b"") != max(length, 0):
            raise ValueError(bound)
    if stream.read():
        raise ValueError(bound)
    return values


class PostgresPeer(Peer):
    """Takes each login by `login(peer, connection, stream, number)`, and answers each query by `play(connection, query, number)`: the number is
    that of the connection. What asks for the end of another's query is no connection of these."""

    def __init__(self, play, login=None, host=HOST):
        self.play, self.login, self.cancelled, self.ended = play, login, [], []
        # (the service's checks make the rounds of a login a hundred times as long)
        self.PATIENCE = SECONDS if login else Peer.PATIENCE
        super().__init__(host)

    def take(self, connection, stream, number):
        start = body_of(stream, stream.read(4))
        if struct.unpack("!I", start[:4])[0] == CANCEL:
            self.count -= 1
            # What was cancelled after its connection had ended is told from what was not.
            self.cancelled.append((start[4:], list(self.ended)))
            return
        key = struct.pack("!I", number) + SECRET
        if self.login:
            self.login(self, connection, stream, number)
        connection.sendall(BEGUN + SETTING + message(b"K", key) + ready())
        try:
            kept = {}
            while (asked := query_of(stream, kept))[0]:
                query, values = asked
                self.asked.append(query if values is None else asked)
                self.play(connection, query, number)
        finally:
            self.ended.append(key)


TOO_MUCH, NOT_UNDERSTOOD = "postgres: an answer is larger than the limits allow", "postgres: a message that is not understood"
VALUES = row(b"a", None, b"") + done(b"SELECT 1") + ready()
VALUES_TOLD = re.escape('[Some("a"), None, Some("")]')
TWO = row(b"1") + done(b"SELECT 1") + row(b"2") + row(b"3") + done(b"UPDATE 2") + done(b"SET") + done(b"INSERT 0 4") + ready()
# What is tried, what the peer does, and what the caller is told.
ANSWERS = [
    ("an answer byte by byte", sends(*each_byte(VALUES), pause=0.002), VALUES_TOLD),
    ("an answer in two pieces", sends(VALUES[:3], VALUES[3:], pause=0.02), VALUES_TOLD),
    ("two statements", sends(TWO), r'\[Some\("1"\)\] \[Some\("2"\)\] \[Some\("3"\)\]'),
    ("what is told between", sends(NOTICE + message(b"T", b"\0\0") + row(b"1") + SETTING + NOTICE + done(b"SELECT 1") + ready()), r'\[Some\("1"\)\]'),
    ("an empty query", sends(message(b"I") + ready()), ""),
    ("a row of no columns", sends(row() + done(b"SELECT 1") + ready()), r"\[\]"),
    ("as many rows as may come", sends(row(b"1") * MANY + done(b"SELECT 100") + ready()), r'(\[Some\("1"\)\] ?){100}'),
    ("a row more", sends(row(b"1") * (MANY + 1) + done(b"SELECT 101") + ready()), TOO_MUCH),
    ("silence", sends(), LATE),
    ("half an answer", sends(VALUES[:-1]), LATE),
    ("a row that drips", sends_forever(message(b"D", b"x" * 1000)[:9], b"x", 0.05), LATE),
    ("notices that drip", sends_forever(b"", NOTICE, 0.05), LATE),
    ("rows without an end", sends_forever(b"", row(b"1") * 64), TOO_MUCH),
    ("notices without an end", sends_forever(b"", NOTICE * 64), TOO_MUCH),
    ("nulls without an end", sends(row(*[None] * 3000)), TOO_MUCH),
    ("a row that is too large", sends(message(b"D", b"x" * LONG)), TOO_MUCH),
    ("a length of two gigabytes", sends(b"D\x7f\xff\xff\xff"), TOO_MUCH),
    ("a length that no machine has", sends(b"D\xff\xff\xff\xff"), TOO_MUCH),
    ("a length that is not its own", sends(b"D\0\0\0\3"), NOT_UNDERSTOOD),
    ("a text longer than its row", sends(message(b"D", b"\0\1\0\0\0\5abcd") + ready()), NOT_UNDERSTOOD),
    ("fewer columns than are told", sends(message(b"D", b"\0\2\0\0\0\1a") + ready()), NOT_UNDERSTOOD),
    ("more columns than are told", sends(message(b"D", b"\0\1\0\0\0\1abc") + ready()), NOT_UNDERSTOOD),
    ("a text that is no UTF-8", sends(row(b"\xff") + ready()), NOT_UNDERSTOOD),
    ("a statement's end without a zero", sends(message(b"C", b"SELECT 1") + ready()), NOT_UNDERSTOOD),
    ("a state that there is not", sends(ready(b"Q")), NOT_UNDERSTOOD),
    ("a message that there is not", sends(message(b"?") + ready()), NOT_UNDERSTOOD),
    ("a server that waits for data", sends(message(b"G", b"\0\0\0")), NOT_UNDERSTOOD),
    ("another protocol", sends(b"HTTP/1.1 400 Bad Request\r\n\r\n"), f"{NOT_UNDERSTOOD}|{TOO_MUCH}"),
    ("a refusal with control characters", sends(refusal(b"XX000", b"\x1b[31mred") + ready()), re.escape(r"postgres: \u{1b}[31mred (SQLSTATE XX000)")),
    ("a refusal that is no text", sends(refusal(b"XX000", b"\xff") + ready()), re.escape(r"postgres: \xff (SQLSTATE XX000)")),
]


def at_peer(trial, play, *words, kind="postgres-never", login=None):
    return service_at(trial, PostgresPeer(play, login), kind, *(words or ["somebody"]))


def try_answers(trial):
    for what, play, wanted in ANSWERS:
        with at_peer(trial, play) as (_, service):
            service.ask("get")
            try_answer(trial, what, service, "run SELECT it", wanted)
    with at_peer(trial, sends(TWO)) as (_, service):
        told = service.ask("run # SELECT it")
        trial.check("how many rows the statements were about", told == "7 rows |", told)


def try_doubled(trial):
    """An answer that comes twice is that of one query, whenever the second comes."""
    for pause in (0.0, 0.1):
        def play(connection, query, number, pause=pause):
            answer = row(query) + done(b"SELECT 1") + ready()
            is_doubled = query == b"one"
            # (without a pause both come in one piece)
            connection.sendall(answer * 2 if is_doubled and not pause else answer)
            if is_doubled and pause:
                time.sleep(pause)
                connection.sendall(answer)
        with at_peer(trial, play) as (_, service):
            told = [service.ask("run one")]
            # (it comes before the next query is sent: what comes after that, nobody can tell from its answer)
            time.sleep(2 * pause)
            told += [service.ask(f"run {word}") for word in ("two", "three")]
            is_so = "one" in told[0] and not any("one" in it for it in told[1:]) and "three" in told[2]
            trial.check(f"an answer that comes twice, the second {pause} s later", is_so, told)


def try_reset_in_time(trial):
    """The thread that returns a connection waits for no answer. The next caller's query does, by its own deadline."""
    def play(connection, query, number):
        if query in RESET:
            if number > 1:
                connection.sendall(RESET[query])
        else:
            connection.sendall(done(b"SET" if b"SET" in query else b"SELECT 0") + ready())
    with at_peer(trial, play, kind="postgres-if-marked") as (peer, service):
        begun = time.monotonic()
        told = service.ask("run SET it")
        lasted = time.monotonic() - begun
        trial.check("a return waits for no answer", told == "|" and lasted < DEADLINE / 2, (told, lasted))
        told = service.ask("run SELECT it")
        trial.check("a reset that is not answered", re.search(LATE, told) and b"SELECT it" not in peer.asked, (told, peer.asked))
        told = service.ask("run SELECT it")
        trial.check("after it another connection is lent", told == "|" and peer.count == 2, (told, peer.count))
    def refuses(connection, query, number):
        connection.sendall(refusal(b"25001", b"no") + ready() if query in RESET else done(b"SET") + ready())
    with at_peer(trial, refuses, kind="postgres-if-marked") as (peer, service):
        service.ask("run SET it")
        told = [service.ask("run SET it") for _ in range(2)]
        trial.check("a reset that is refused", "SQLSTATE 25001" in told[0] and told[1] == "|" and peer.count == 2, (told, peer.asked))


# A query, the name of its statement, and whether it is taken for one that leaves nothing.
MARKS = [
    ("SELECT n, count(*) FROM t WHERE (n > 1) AND n IN (1, 2) GROUP BY n", b"SELECT 1", True),
    ("UPDATE t SET n = coalesce(n, 0) + 1 WHERE id = 3 RETURNING n", b"UPDATE 1", True),
    ("DELETE FROM t", b"DELETE 3", True),
    ("SELECT mine(1)", b"SELECT 1", False),
    ("SELECT count (*), mine (1)", b"SELECT 1", False),
    ("SELECT evil.count(1)", b"SELECT 1", False),
    ("SELECT evil . count (1)", b"SELECT 1", False),
    ('SELECT "count" (1)', b"SELECT 1", False),
    ("SELECT 1 INTO pg_temp_3.t", b"SELECT 1", False),
    ("UPDATE t SET id = DEFAULT", b"UPDATE 1", False),
    ("WITH a AS (UPDATE t SET n = 1 RETURNING n), b AS (DELETE FROM u RETURNING n) SELECT n FROM a", b"SELECT 1", True),
    ("WITH a AS (UPDATE t SET id = DEFAULT RETURNING n) SELECT n FROM a", b"SELECT 1", False),
    ("WITH a AS (insert INTO t SELECT 1 RETURNING 1) SELECT 1", b"SELECT 1", False),
    ("WITH a AS (WITH b AS (SELECT 1)INSERT INTO t SELECT 1 RETURNING 1) DELETE FROM u", b"DELETE 1", False),
    ("WITH a AS (MERGE INTO t USING u ON true WHEN NOT MATCHED THEN INSERT VALUES (1) RETURNING 1) SELECT 1", b"SELECT 1", False),
    ("INSERT INTO t VALUES (1)", b"INSERT 0 1", False),
    ("SELECT 1", b"SET", False),
]


def try_marks(trial):
    """What is known to leave nothing is not reset; anything else is."""
    for query, name, is_plain in MARKS:
        answers = {**RESET, query.encode(): done(name) + ready()}
        def play(connection, asked, number, answers=answers):
            connection.sendall(answers.get(asked, ONE))
        with at_peer(trial, play, kind="postgres-if-marked") as (peer, service):
            service.ask(f"run {query}")
            service.ask("run SELECT 2")
            is_so = peer.asked == [query.encode(), *([] if is_plain else [b"DISCARD ALL"]), b"SELECT 2"]
            trial.check(f"{query}, {name.decode()}: {'no' if is_plain else 'a'} reset", is_so, peer.asked)
    for what, told in (("a setting that the server tells of", SETTING), ("a message to who listens", message(b"A", b"\0\0\0\1news\0\0")), ("a refusal", refusal(b"22012", b"no"))):
        def tells(connection, asked, number, told=told):
            connection.sendall(RESET.get(asked, told + ONE if asked == b"SELECT 1" else ONE))
        with at_peer(trial, tells, kind="postgres-if-marked") as (peer, service):
            service.ask("run SELECT 1")
            service.ask("run SELECT 2")
            trial.check(f"{what}: a reset", peer.asked == [b"SELECT 1", b"DISCARD ALL", b"SELECT 2"], peer.asked)


# A state, the severity, and whether the connection is left.
STATES = [(b"25006", b"ERROR", True), (b"57P01", b"ERROR", True), (b"57P02", b"ERROR", True), (b"57P03", b"ERROR", True), (b"08006", b"ERROR", True),
          (b"08P01", b"ERROR", True), (b"57P05", b"FATAL", True), (b"23505", b"ERROR", False), (b"57014", b"ERROR", False), (b"42501", b"ERROR", False)]


def try_states(trial):
    """The state decides what a refusal breaks, and not the text."""
    for state, severity, is_left in STATES:
        def play(connection, query, number, state=state, severity=severity):
            text = b"no" if is_left else b"FATAL 57P01: terminating connection, read-only"
            connection.sendall(refusal(state, text, severity) + ready() if number == 1 else ONE)
        with at_peer(trial, play) as (peer, service):
            told = service.ask("run SELECT 1")
            service.ask("run SELECT 1")
            is_so = f"(SQLSTATE {state.decode()})" in told and peer.count == (2 if is_left else 1)
            trial.check(f"the state {state.decode()} {'breaks' if is_left else 'does not break'} a connection", is_so, (told, peer.count))


def try_cancel(trial):
    """A query that takes too long is cancelled, by the key of its connection, before that ends."""
    # (a cancel has a twentieth of what the query has, which on a busy machine is little where that is half a second)
    with at_peer(trial, sends(), kind="calm-never", login=takes) as (peer, service):
        service.ask("run SELECT 1")
        keys = [key for key, _ in peer.cancelled]
        trial.check("a late query is cancelled", keys == [b"\0\0\0\1" + SECRET], peer.cancelled)
        trial.check("it is cancelled before its connection ends", not any(ended for _, ended in peer.cancelled), peer.cancelled)
    with at_peer(trial, sends(ONE)) as (peer, service):
        service.ask("run SELECT 1")
        trial.check("an answered query is not cancelled", not peer.cancelled, peer.cancelled)


def try_cancel_of_tasks(trial):
    """A query that takes too long, or whose future is dropped, is cancelled by the key of its connection, before another is opened. Nobody
    waits for that."""
    def never(connection, query, number):
        if number > 1:
            connection.sendall(ONE)
    for what, line in (("late", "run SELECT 1"), ("dropped", "drop SELECT 1")):
        with at_peer(trial, never) as (peer, service):
            told = service.ask(line)
            after = service.ask("run SELECT 1")
            keys = [key for key, _ in peer.cancelled]
            is_so = (re.search(LATE, told) if what == "late" else told == "dropped") and after == '[Some("1")] |'
            trial.check(f"a query that is {what} is cancelled", is_so and keys == [b"\0\0\0\1" + SECRET] and peer.count == 2, (told, after, peer.cancelled))
    with at_peer(trial, sends(ONE)) as (peer, service):
        told = [service.ask("run SELECT 1"), service.ask("evict"), service.ask("run SELECT 1")]
        trial.check("an answered query is not cancelled", told[2] == '[Some("1")] |' and peer.count == 2 and not peer.cancelled, (told, peer.cancelled))


def try_memory(trial):
    """A length that is told takes no memory: what comes does."""
    with at_peer(trial, sends(message(b"D", b"x" * 15_000_000)[:9]), kind="postgres-eight") as (_, service):
        def taken():
            with open(f"/proc/{service.process.pid}/statm") as it:
                return int(it.read().split()[1]) * 4096
        service.ask("go 1")
        time.sleep(0.1)
        before = taken()
        time.sleep(0.5)
        trial.check("a length that is told takes no memory", taken() - before < 4_000_000, (before, taken()))


def scram(nonce_of=lambda nonce: nonce + b"more", rounds=4096, sign=True, ends=True):
    """A login by SCRAM of a server that knows the password. One that fails is asked for once: the rounds take long."""
    def login(peer, connection, stream, number):
        if number > 1 and not (sign and ends):
            stream.read(1)
        connection.sendall(asks(10, b"SCRAM-SHA-256\0\0"))
        bare = message_of(stream).partition(b"n,,")[2]
        nonce = bare.partition(b"r=")[2]
        peer.asked.append(nonce)
        first = b"r=%s,s=%s,i=%d" % (nonce_of(nonce), base64.b64encode(b"salt"), rounds)
        connection.sendall(asks(11, first))
        last = message_of(stream).rpartition(b",p=")[0]
        salted = hashlib.pbkdf2_hmac("sha256", PASSWORD.encode(), b"salt", rounds)
        key = hmac.digest(salted, b"Server Key" if sign else b"Other Key", "sha256")
        signed = base64.b64encode(hmac.digest(key, b",".join((bare, first, last)), "sha256"))
        if ends:
            connection.sendall(asks(12, b"v=" + signed))
    return login


def says(*messages):
    """A login in which the server says this, and waits."""
    def login(peer, connection, stream, number):
        for it in messages:
            connection.sendall(it)
        stream.read(1)
    return login


def takes(peer, connection, stream, number):
    """A login that is taken at once, by a peer that has patience."""


def hashed(peer, connection, stream, number):
    """A login by MD5, of a server that knows the password."""
    connection.sendall(asks(5, b"salt"))
    inner = hashlib.md5(PASSWORD.encode() + b"somebody").hexdigest()
    peer.asked.append(message_of(stream))
    if peer.asked[-1] != b"md5" + hashlib.md5(inner.encode() + b"salt").hexdigest().encode() + b"\0":
        raise ValueError("another password")


def drips(peer, connection, stream, number):
    sends_forever(b"", NOTICE, 0.05)(connection, b"", 0)


def floods(peer, connection, stream, number):
    sends_forever(b"", NOTICE * 64)(connection, b"", 0)


NO_PROOF, FOREIGN = "postgres: the server asked for no proof of the password", "postgres: the server's nonce does not go on from this login's"
MD5 = "postgres: the server asks for MD5, by which it proves nothing itself"
ROUNDS = "postgres: the server asks for fewer rounds than 4096, or more than 1000000"
# What is tried, how the server takes the login, and what the caller is told.
LOGINS = [
    ("a login without a proof", None, NO_PROOF),
    ("a login by MD5", says(asks(5, b"salt")), MD5),
    ("a wrong signature", scram(sign=False), "postgres: the server does not know the password itself"),
    ("no signature", scram(ends=False), NOT_UNDERSTOOD),
    ("a foreign nonce", scram(lambda nonce: b"A" + nonce[1:] + b"more"), FOREIGN),
    ("a nonce that does not go on", scram(lambda nonce: nonce), FOREIGN),
    ("too few rounds", scram(rounds=4095), ROUNDS),
    ("too many rounds", scram(rounds=1_000_001), ROUNDS),
    ("rounds that take too long", scram(rounds=1_000_000), "postgres: the rounds of the login take too long"),
    ("a server that is ready at once", says(ready()), NOT_UNDERSTOOD),
    ("a password that is to be sent", says(asks(3)), "postgres: the server asks for a kind of login that this client has not"),
    ("a login that is not answered", says(), LATE),
    ("a login that drips", drips, LATE),
    ("a login without an end", floods, TOO_MUCH),
    ("a refusal that repeats the password", says(refusal(b"28P01", b"no: " + PASSWORD.encode(), b"FATAL")), re.escape("postgres: the login was refused (SQLSTATE 28P01)")),
]
# Passwords that a server's text may have in part, or in other letters; and what it repeats of them, as the state or the text of a refusal.
SECRETS = {
    "200 letters, a half of them": ("hidden" + "x" * 194, b"28P01", slice(100)), "a tab": ("hidden\tword", b"28P01", slice(None)),
    "capitals, some of them as the state": ("HIDDEN", b"HIDDE", slice(None)), "a word, as the state": ("hidden", b"hidden", slice(None)),
}


def try_logins(trial):
    for what, login, wanted in LOGINS:
        kind = "postgres-salted" if "signature" in what else "postgres-never"
        with at_peer(trial, sends(ONE), "somebody", PASSWORD, kind=kind, login=login) as (_, service):
            # (what the opening failed with is told once the `get` has waited for three seconds)
            told = service.ask("get")
            trial.check(f"{what}: the text", re.search(wanted, told), told)
            trial.check_each_time(f"{what}: nobody is told the password", PASSWORD not in told + "".join(service.said), (told, service.said))
    for what, (secret, state, part) in SECRETS.items():
        with at_peer(trial, sends(ONE), "somebody", secret, login=says(refusal(state, b"no: " + secret.encode()[part], b"FATAL"))) as (_, service):
            told = service.ask("get")
            is_so = "the login was refused (SQLSTATE" in told and not re.search("hid", told + "".join(service.said), re.IGNORECASE)
            trial.check_each_time(f"a refusal that repeats a password of {what}: nobody is told it", is_so, (told, service.said))
    with at_peer(trial, sends(ONE), "somebody", PASSWORD, kind="postgres-lenient") as (_, service):
        told = service.ask("get")
        trial.check("a login without a proof, where that is allowed", told == "lent", told)
    with at_peer(trial, sends(ONE), "somebody", PASSWORD, kind="postgres-lenient", login=says(asks(5, b"salt"))) as (_, service):
        told = service.ask("get")
        trial.check("a login by MD5, where one that proves nothing is allowed", MD5 in told, told)
    with at_peer(trial, sends(ONE), "somebody", PASSWORD, kind="postgres-md5", login=hashed) as (peer, service):
        told = service.ask("get")
        trial.check("a login by MD5, where that is allowed", told == "lent", (told, peer.asked))
    with at_peer(trial, sends(ONE), "somebody", PASSWORD, kind="postgres", login=scram()) as (peer, service):
        told = [service.ask("get"), service.ask("evict"), service.ask("get")]
        is_so = told[0] == told[2] == "lent" and len(set(peer.asked) - {b"SELECT 1"}) >= 2
        trial.check("a login with a proof, each with a nonce of its own", is_so, (told, peer.asked))


# What is bound, as a line of the service says it, and as it comes.
BOUND = [
    ("a,NULL,", [b"a", None, b""]), ("NULL", [None]), ("'; DROP TABLE t --,$1,\\", [b"'; DROP TABLE t --", b"$1", b"\\"]),
    ("\u00e9\u20ac,\U0001f600", ["\u00e9\u20ac".encode(), "\U0001f600".encode()]), (",".join(["x"] * 65535), [b"x"] * 65535),
]
TAKEN = message(b"1") + message(b"2")
KEPT = message(b"3") + TAKEN + ONE


def try_values(trial):
    """What is bound to a query comes as it is, each value apart from the text."""
    # (a peer that has patience: many values take the service long)
    for line, values in BOUND:
        with at_peer(trial, sends(TAKEN + VALUES), kind="calm-never", login=takes) as (peer, service):
            told = service.ask(f"run SELECT $1 <- {line}")
            is_so = re.fullmatch(VALUES_TOLD + r" \|", told) and peer.asked == [(b"SELECT $1", values)]
            trial.check(f"{line[:20]} is bound", is_so, (told, peer.asked))
    with at_peer(trial, sends(TAKEN + done(b"UPDATE 3") + ready()), kind="calm-never", login=takes) as (peer, service):
        told = service.ask("run #UPDATE t SET n = $1 <- 7;; SELECT 1 <- " + ",".join(["x"] * 65536) + ";; #UPDATE t <- 8")
        wanted = "3 rows | ! postgres: a query has more than 65535 values | 3 rows |"
        asked = [(b"UPDATE t SET n = $1", [b"7"]), (b"UPDATE t", [b"8"])]
        trial.check("how many rows a query with values was about", told == wanted and peer.asked == asked and peer.count == 1, (told, peer.asked))
    with at_peer(trial, sends(message(b"1") + refusal(b"22P02", b"no") + ready())) as (peer, service):
        told = [service.ask("run SELECT $1 <- x") for _ in range(2)]
        is_so = told == ["! postgres: no (SQLSTATE 22P02) |"] * 2 and peer.count == 1
        trial.check("a value that is refused breaks nothing", is_so, (told, peer.count))
    answers = {**RESET, b"SELECT mine($1)": TAKEN + ONE, b"SELECT max($1)": TAKEN + ONE}
    with at_peer(trial, lambda connection, query, number: connection.sendall(answers[query]), kind="postgres-if-marked") as (peer, service):
        for name in ("max", "mine", "max"):
            service.ask(f"run SELECT {name}($1) <- 1")
        asked = [it if isinstance(it, bytes) else it[0] for it in peer.asked]
        trial.check("a query with values marks as its words do", asked == [b"SELECT max($1)", b"SELECT mine($1)", b"DISCARD ALL", b"SELECT max($1)"], asked)


def try_statements(trial):
    """The peer keeps two statements, those that were asked for last, which are found by their texts."""
    one, two, three = ("SELECT $1", "SELECT $1, 2", "SELECT $1, 3")
    with at_peer(trial, sends(KEPT), kind="kept-never", login=takes) as (peer, service):
        for text in (one, one, two, one, three, two, three):
            service.ask(f"run {text} <- 1")
        wanted = [f"+{one}", f"={one}", f"+{two}", f"={one}", f"-{two} +{three}", f"-{one} +{two}", f"={three}"]
        trial.check("those that were asked for last are kept", [it.decode() for it, _ in peer.asked] == wanted, peer.asked)
        trial.check("each has its values", all(values == [b"1"] for _, values in peer.asked) and peer.count == 1, peer.asked)
    for state, others in ((b"0A000", "="), (b"22012", "="), (b"26000", f"-{two} +")):
        def play(connection, query, number, state=state):
            connection.sendall(message(b"2") + refusal(state, b"no") + ready() if query == b"=" + one.encode() else KEPT)
        with at_peer(trial, play, kind="kept-never", login=takes) as (peer, service):
            told = [service.ask(f"run {text} <- 1") for text in (one, two, one, one, two)]
            asked = [it.decode() for it, _ in peer.asked]
            is_so = asked == [f"+{one}", f"+{two}", f"={one}", f"-{one} +{one}", f"{others}{two}"] and "SQLSTATE" in told[2] and "SQLSTATE" not in told[3]
            trial.check(f"a statement that is refused with {state.decode()} is prepared anew", is_so, (asked, told))
    with at_peer(trial, sends(TAKEN + refusal(b"22012", b"no") + ready()), kind="kept-never", login=takes) as (peer, service):
        for text in (one, one, two, three):
            service.ask(f"run {text} <- 1")
        asked = [it.decode() for it, _ in peer.asked]
        trial.check("what was refused at first takes its place", asked == [f"+{one}", f"-{one} +{one}", f"+{two}", f"-{one} +{three}"], asked)
    with at_peer(trial, lambda connection, query, number: connection.sendall(RESET.get(query, KEPT)), kind="kept-if-marked", login=takes) as (peer, service):
        for line in (f"{one} <- 1", f"{one} <- 2", "SELECT mine($1) <- 1", f"{one} <- 3"):
            service.ask(f"run {line}")
        asked = [it if isinstance(it, bytes) else it[0] for it in peer.asked]
        trial.check("a reset ends the statements", asked == [b"+SELECT $1", b"=SELECT $1", b"+SELECT mine($1)", b"DISCARD ALL", b"+SELECT $1"], asked)


def try_patience(trial):
    """Each query has its own time: that of the one before does not end it."""
    def plays(connection, query, number):
        time.sleep(0.6 * DEADLINE)
        connection.sendall(ONE)
    for _ in range(4):
        with at_peer(trial, plays) as (peer, service):
            told = service.ask("run SELECT 1;; SELECT 1;; SELECT 1")
        if told == '[Some("1")] | ' * 2 + '[Some("1")] |':
            break
    trial.check("each query has its own time", told == '[Some("1")] | ' * 2 + '[Some("1")] |', told)


def try_ends(trial):
    """Who goes away, and what is no query."""
    with at_peer(trial, lambda connection, query, number: connection.shutdown(socket.SHUT_RDWR)) as (_, service):
        service.ask("get")
        told = service.ask("run SELECT 1")
        trial.check("a connection that is closed", re.search(r"! 127\.0\.0\.1:\d+ closed the connection", told), told)
    with at_peer(trial, sends(ONE)) as (peer, service):
        told = service.ask("run SELECT 1;; SELECT \0;; SELECT 1")
        wanted = '[Some("1")] | ! postgres: a query or a name has a zero byte in it | [Some("1")] |'
        trial.check("a query with a zero byte", told == wanted and len(peer.asked) == 2 and peer.count == 1, (told, peer.asked))
    try_two_addresses(trial, PostgresPeer(sends(ONE), host=BEHIND), "postgres-never", "somebody")


# What is tried with each adapter.
OF_BOTH = (try_answers, try_doubled, try_reset_in_time, try_marks, try_states, try_logins, try_values, try_statements, try_patience, try_ends)


def try_peer(trial):
    try_each(trial, (*OF_BOTH, try_cancel, try_memory))


def try_tasks_peer(trial):
    try_each(trial, (*OF_BOTH, try_cancel_of_tasks))
