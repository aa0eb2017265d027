"""What one caller leaves on a connection to Redis, and what the next one sees: for each state of a session, in each mode of reset."""
import re

MODES = ["never", "if-marked", "always"]
# What `CLIENT INFO` says of a session that has just begun.
FRESH = {"name": "", "db": "0", "sub": "0", "psub": "0", "ssub": "0", "multi": "-1", "flags": "N", "user": "default", "redir": "-1", "resp": "2"}
# Shows the session: all but what is watched, which a transaction shows.
PROBE = "CLIENT INFO; MULTI; SET seen yes; EXEC"
# A state, how a caller leaves it, and whether the next one sees it where there is no reset.
LEFT = [
    ("a transaction", "MULTI; INCR left", False),
    ("a transaction with a refusal", "MULTI; NONE", False),
    ("watched keys", "WATCH watched", False),
    ("watched keys and a transaction", "WATCH watched; MULTI", False),
    ("a subscription", "SUBSCRIBE news", False),
    ("a subscription to a pattern", "PSUBSCRIBE n*", False),
    ("a subscription of a shard", "SSUBSCRIBE news", False),
    ("a monitor", "MONITOR", False),
    ("a database", "SELECT 3", True),
    ("a database of a transaction", "MULTI; SELECT 3; EXEC", True),
    ("a user", "AUTH other secret", True),
    ("a name", "CLIENT SETNAME mine", True),
    ("no replies", "CLIENT REPLY OFF", False),
    ("a protocol", "HELLO 3", True),
    # (which the RESET of Redis 7.0 leaves on)
    ("a setting", "CLIENT NO-EVICT ON", True),
]


def session_of(told):
    """What the probe shows that differs from a session that has just begun."""
    said = told.removesuffix(" |").split(" | ")
    info = dict(re.findall(r"(?:^| )([\w-]+)=(\S*)", said[0]))
    seen = {name: info.get(name) for name, value in FRESH.items() if info.get(name, value) != value}
    if "db" not in info:
        seen["info"] = said[0]
    if said[1:4] != ["OK", "QUEUED", 'List([Status("OK")])']:
        seen["transaction"] = said[1:4]
    return seen


# Commands that go out together, and what the caller is told.
TOGETHER = [
    ("replies in the order of their commands", "SET one 1 , INCR one , GET one , LPUSH list a b , LRANGE list 0 -1", 'OK | Number(2) | 2 | Number(2) | List([Value([98]), Value([97])]) |'),
    ("a refusal in its place", "SET two 1 , NONE , INCR two", "OK | Refused(\"ERR unknown command 'NONE', with args beginning with: \") | Number(2) |"),
    ("a transaction", "MULTI , INCR three , INCR three , EXEC", "OK | QUEUED | QUEUED | List([Number(1), Number(2)]) |"),
    ("one command", "ECHO it", "it |"),
]


def try_pipelines(trial):
    """Commands of a pipeline are answered in their order, and leave nothing to the next caller."""
    others, service = trial.server.names(), trial.service_of("redis-if-marked")
    service.ask("run ECHO first")
    # (and who asks for them)
    names = trial.server.names() - others
    for what, together, wanted in TOGETHER:
        told = service.ask(f"run & {together}")
        trial.check(f"together: {what}", told == wanted, told)
        told = service.ask("run ECHO next")
        trial.check(f"together: after {what} the next caller's answer", told == "next |", told)
    count = 50
    told = service.ask("run & " + " , ".join(f"ECHO {number}" for number in range(count)))
    trial.check("together: fifty", told == " | ".join(map(str, range(count))) + " |", told[:300])
    now = trial.server.names()
    trial.check("together: they close nothing", len(names & now) == 1, (names, now))
    told = service.ask("run & SELECT 3 , CLIENT SETNAME mine , MULTI")
    seen = session_of(service.ask(f"run {PROBE}"))
    trial.check("together: what it leaves is not seen by the next caller", told == "OK | OK | OK |" and not seen, (told, seen))
    trial.check("together: the service ends", service.end() == 0)


def try_sessions(trial):
    """At a server that has RESET."""
    trial.server.ask("ACL", "SETUSER", "other", "on", ">secret", "~*", "&*", "+@all")
    for mode in MODES:
        service = trial.service_of(f"redis-{mode}")
        for what, left, is_seen in LEFT:
            service.ask(f"run {left}")
            # So a transaction fails that begins where this is watched.
            trial.server.ask("SET", "watched", what)
            seen = session_of(service.ask(f"run {PROBE}"))
            is_wanted = mode == "never" and is_seen
            trial.check(f"{mode}: {what} is {'seen' if is_wanted else 'not seen'} by the next caller", bool(seen) == is_wanted, seen)
            # The next state is left on a session that has just begun.
            service.ask("evict")
        trial.check(f"{mode}: the service ends", service.end() == 0)
    try_begun(trial)
    try_pipelines(trial)


def try_begun(trial):
    """A session that begins with a user and a database ends so, also after a RESET of the caller's."""
    begun = {"user": "other", "db": "2"}
    for mode in MODES[1:]:
        service = trial.service_of(f"redis-{mode}", "other", "secret")
        trial.check(f"{mode}: it begins as that user there", session_of(service.ask(f"run {PROBE}")) == begun)
        for left in ("RESET", "SELECT 3; CLIENT SETNAME mine; MULTI", "AUTH default none"):
            service.ask(f"run {left}")
            seen = session_of(service.ask(f"run {PROBE}"))
            trial.check(f"{mode}: after {left} it begins so again", seen == begun, seen)
        trial.check(f"{mode}: that service ends", service.end() == 0)
