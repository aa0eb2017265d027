"""A scripted peer in the place of Redis."""
import re
import socket
import time

from peer import BEHIND, DEADLINE, LATE, Peer, each_byte, sends, sends_forever, service_at, try_answer, try_each, try_two_addresses
from servers import HOST

PONG = b"+PONG\r\n"
# 16 MiB is the most of one answer.
HUGE = b"$16777217\r\n"


def words_of(stream):
    """The words of the next request; none at the end."""
    line = stream.readline()
    if not line:
        return None
    words = []
    for _ in range(int(line[1:])):
        length = int(stream.readline()[1:])
        words.append(stream.read(length + 2)[:-2])
    return words


class RedisPeer(Peer):
    """Answers each PING, and any other request by `play(connection, words, number)`: the number is that of the connection."""

    def __init__(self, play, greeting=PONG, host=HOST):
        self.play, self.greeting = play, greeting
        super().__init__(host)

    def take(self, connection, stream, number):
        while (words := words_of(stream)) is not None:
            self.asked.append(words)
            if words == [b"PING"]:
                connection.sendall(self.greeting)
            else:
                self.play(connection, words, number)


NESTED = b"*4\r\n:-7\r\n$3\r\na\r\n\r\n*2\r\n+word\r\n$-1\r\n-ERR no\r\n"
NESTED_TOLD = 'List([Number(-7), Value([97, 13, 10]), List([Status("word"), Nothing]), Refused("ERR no")])'
TOO_MUCH, NOT_UNDERSTOOD = "redis: a reply is larger than the limits allow", "redis: a reply that is not understood"
# What is tried, what the peer does, and what the caller is told.
ANSWERS = [
    ("an answer byte by byte", sends(*each_byte(NESTED), pause=0.002), re.escape(NESTED_TOLD)),
    ("an empty list and an empty value", sends(b"*2\r\n*0\r\n$0\r\n\r\n"), re.escape("List([List([]), Value([])])")),
    ("a map", sends(b"%1\r\n+key\r\n_\r\n"), re.escape('List([Status("key"), Nothing])')),
    ("no list", sends(b"*-1\r\n"), "Nothing"),
    ("the least number", sends(b":-9223372036854775808\r\n"), r"Number\(-9223372036854775808\)"),
    ("a number that is too large", sends(b":9223372036854775808\r\n"), NOT_UNDERSTOOD),
    ("silence", sends(), LATE),
    ("half an answer", sends(b"$5\r\nab"), LATE),
    ("a value that drips", sends_forever(b"$1000\r\n", b"x", 0.05), LATE),
    ("a list that drips", sends_forever(b"*1000\r\n", b":1\r\n", 0.05), LATE),
    ("a line without an end", sends_forever(b"+", b"x" * 65536), f"{TOO_MUCH}|{LATE}"),
    ("a list without an end", sends_forever(b"*1000000000000\r\n", b":1\r\n" * 4096), TOO_MUCH),
    ("lists in lists without an end", sends_forever(b"", b"*1\r\n" * 64), TOO_MUCH),
    ("a value that is too large", sends(HUGE), TOO_MUCH),
    ("a length that no machine has", sends(b"$999999999999999999\r\n"), f"{TOO_MUCH}|{NOT_UNDERSTOOD}"),
    ("a length below zero", sends(b"$-2\r\n"), NOT_UNDERSTOOD),
    ("a length of letters", sends(b"*two\r\n"), NOT_UNDERSTOOD),
    ("a length that is too small", sends(b"$3\r\nabcdef\r\n"), NOT_UNDERSTOOD),
    ("another protocol", sends(b"HTTP/1.1 400 Bad Request\r\n\r\n"), NOT_UNDERSTOOD),
    ("a refusal with control characters", sends(b"-ERR \x1b[31m\x00red\r\n"), re.escape(r"! redis: ERR \u{1b}[31m\u{0}red")),
    ("a refusal that is no text", sends(b"-ERR \xff\xfe\r\n"), re.escape(r"! redis: ERR \xff\xfe")),
]


def at_peer(trial, play, *words, kind="redis-never", greeting=PONG):
    return service_at(trial, RedisPeer(play, greeting), kind, *words)


def try_answers(trial):
    for what, play, wanted in ANSWERS:
        with at_peer(trial, play) as (_, service):
            service.ask("get")
            try_answer(trial, what, service, "run GET it", wanted)


def try_doubled(trial):
    """An answer that comes twice is that of one command, whenever the second comes."""
    for pause in (0.0, 0.1):
        def play(connection, words, number, pause=pause):
            answer = b"$%d\r\n%s\r\n" % (len(words[1]), words[1])
            is_doubled = words[1] == b"one"
            # (without a pause both come in one piece)
            connection.sendall(answer * 2 if is_doubled and not pause else answer)
            if is_doubled and pause:
                time.sleep(pause)
                connection.sendall(answer)
        with at_peer(trial, play) as (peer, service):
            first = service.ask("run GET one")
            # (it comes before the next request is sent: what comes after that, nobody can tell from its answer)
            time.sleep(2 * pause)
            told = [service.ask(f"run GET {word}") for word in ("two", "three")]
            is_so = first == "one |" and not any("one" in it for it in told) and told[-1] == "three |"
            trial.check(f"an answer that comes twice, the second {pause} s later", is_so, (first, told))


def try_reset_in_time(trial):
    """The thread that returns a connection waits for no answer. The next caller's command does, by its own deadline."""
    def play(connection, words, number):
        if words[0] == b"RESET" and number == 1 and [b"SELECT", b"3"] in peer.asked:
            return
        connection.sendall(b"+RESET\r\n" if words[0] == b"RESET" else b"+OK\r\n")
    with at_peer(trial, play, kind="redis-if-marked") as (peer, service):
        begun = time.monotonic()
        told = service.ask("run SELECT 3")
        lasted = time.monotonic() - begun
        trial.check("a return waits for no answer", told == "OK |" and lasted < DEADLINE / 2, (told, lasted))
        told = service.ask("run GET it")
        trial.check("a reset that is not answered", re.search(LATE, told) and [b"GET", b"it"] not in peer.asked, (told, peer.asked))
        told = service.ask("run GET it")
        trial.check("after it another connection is lent", told == "OK |" and peer.count == 2, (told, peer.count))


def try_parts(trial):
    """A server that has no RESET is asked for its parts; what those can't bring back is closed."""
    def play(connection, words, number):
        connection.sendall(b"-ERR unknown command 'RESET'\r\n" if words[0] == b"RESET" else b"+OK\r\n")
    with at_peer(trial, play, kind="redis-if-marked") as (peer, service):
        service.ask("run SELECT 3;MULTI;WATCH a;CLIENT SETNAME mine")
        service.ask("run GET it")
        asked = [it for it in peer.asked if it != [b"PING"]][5:]
        parts = [[b"DISCARD"], [b"UNWATCH"], [b"CLIENT", b"SETNAME", b""], [b"SELECT", b"0"], [b"GET", b"it"]]
        trial.check("the parts of a reset", asked == parts and peer.count == 1, (asked, peer.count))
        service.ask("run HELLO 3")
        service.ask("run GET it")
        trial.check("what has no part is closed", peer.count == 2, peer.count)


def try_demoted(trial):
    """A server that may not write any more is left."""
    def play(connection, words, number):
        connection.sendall(b"-READONLY You can't write against a read only replica.\r\n" if number == 1 else b"+OK\r\n")
    with at_peer(trial, play) as (peer, service):
        told = [service.ask("run SET it 1") for _ in range(2)]
        trial.check("a demoted server is left", "READONLY" in told[0] and told[1] == "OK |", (told, peer.count))


# Passwords that a server's text may have in part, or in other letters.
SECRETS = {"a word": "hidden", "200 letters": "hidden" + "x" * 194, "a tab": "hidden\tword", "capitals": "HIDDEN"}


def try_secrets(trial):
    """A server that repeats what it was sent, cut after 128 letters as the real one does, at a login or where something else was asked."""
    for at, begin, word in ((b"AUTH", b"ERR no ", "ERR"), (b"RESET", b"DENIED ", "DENIED"), (b"AUTH", b"", "?")):
        for what, secret in SECRETS.items():
            def play(connection, words, number, at=at, begin=begin, secret=secret):
                is_told = words[0] == at
                connection.sendall(b"-%s\r\n" % (begin + secret.encode()[:128]) if is_told else b"+RESET\r\n")
            with at_peer(trial, play, secret, kind="redis-if-marked") as (_, service):
                told = service.ask("get")
                said = told + "".join(service.said)
                is_so = f"redis: the login was refused ({word})" in told and not re.search("hid", said, re.IGNORECASE)
                trial.check(f"a password of {what}, behind {begin.decode()!r} in the answer to {at.decode()}: no error has it", is_so, (told, service.said))


def try_pipelines(trial):
    """Commands go out together, and their answers are read as they come: in that order, and all of them."""
    def play(connection, words, number):
        # (who waits for the first answer before the third command is sent gets none)
        if words[1] == b"three":
            connection.sendall(b"+one\r\n$3\r\ntwo\r\n:3\r\n")
    with at_peer(trial, play) as (peer, service):
        told = service.ask("run & GET one , GET two , GET three")
        asked = [words[1] for words in peer.asked if words != [b"PING"]]
        trial.check("together: the answers of three commands", told == "one | two | Number(3) |" and asked == [b"one", b"two", b"three"], (told, asked))

    def one_short(connection, words, number):
        connection.sendall(b"" if words[1] == b"two" else b"+%s\r\n" % words[1])
    with at_peer(trial, one_short) as (peer, service):
        told = service.ask("run & GET one , GET two , GET three")
        trial.check("together: an answer too few", re.search(LATE, told), told)
        told = service.ask("run GET next")
        trial.check("together: after it another connection is lent", told == "next |" and peer.count == 2, (told, peer.count))

    def one_more(connection, words, number):
        connection.sendall(b"+%s\r\n" % words[1] * (2 if words[1] == b"two" else 1))
    with at_peer(trial, one_more) as (peer, service):
        service.ask("run & GET one , GET two")
        told = service.ask("run GET next")
        trial.check("together: an answer too many is nobody's", told == "next |" and peer.count == 2, (told, peer.count))

    def demoted(connection, words, number):
        is_told = number == 1 and words[1] == b"two"
        connection.sendall(b"-READONLY it is a replica\r\n" if is_told else b"+OK\r\n")
    with at_peer(trial, demoted) as (peer, service):
        told = [service.ask("run & SET one 1 , SET two 2 , SET three 3"), service.ask("run SET two 2")]
        is_so = told == ['OK | Refused("READONLY it is a replica") | OK |', "OK |"] and peer.count == 2
        trial.check("together: a demoted server is left", is_so, (told, peer.count))


def try_openings(trial):
    """Who accepts and does not answer, or goes away."""
    with at_peer(trial, sends(), greeting=b"") as (_, service):
        told = service.ask("get")
        trial.check("an opening that is not answered", re.search(LATE, told), told)
    with at_peer(trial, lambda connection, words, number: connection.shutdown(socket.SHUT_RDWR)) as (_, service):
        service.ask("get")
        told = service.ask("run GET it")
        trial.check("a connection that is closed", re.search(r"! 127\.0\.0\.1:\d+ closed the connection", told), told)
    try_two_addresses(trial, RedisPeer(sends(b"+RESET\r\n"), host=BEHIND), "redis-if-marked")


def try_peer(trial):
    try_each(trial, (try_answers, try_doubled, try_reset_in_time, try_parts, try_demoted, try_secrets, try_pipelines, try_openings))
