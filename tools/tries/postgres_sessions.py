"""What one caller leaves on a connection to PostgreSQL, and what the next one sees: for each state of a session, in each mode of
reset."""
import functools

from peer import try_each

MODES = ["never", "if-marked", "always"]
# Shows the session, each part as a text: the last tells of a transaction.
PROBE = " UNION ALL ".join(f"SELECT '{name}', ({query})::text" for name, query in {
    "user": "SELECT current_user || ' ' || session_user",
    "settings": "SELECT string_agg(name || '=' || setting, ' ' ORDER BY name) FROM pg_settings WHERE source = 'session' AND name <> 'transaction_read_only'",
    "own setting": "SELECT coalesce(current_setting('my.own', true), '')",
    "channels": "SELECT string_agg(it, ' ') FROM pg_listening_channels() it",
    "statements": "SELECT string_agg(name, ' ') FROM pg_prepared_statements",
    "cursors": "SELECT string_agg(name, ' ') FROM pg_cursors",
    "tables": "SELECT string_agg(relname, ' ') FROM pg_class WHERE relnamespace = pg_my_temp_schema()",
    "functions": "SELECT string_agg(proname, ' ') FROM pg_proc WHERE pronamespace = pg_my_temp_schema()",
    "locks": "SELECT string_agg(objid::text, ' ') FROM pg_locks WHERE locktype = 'advisory'",
    "transaction": "SELECT now() <> statement_timestamp()",
}.items())
# A state, how a caller leaves it, and whether the next one sees it where there is no reset.
LEFT = [
    ("a setting", "SET statement_timeout = 12345", True),
    ("a setting of two statements", "SELECT 1; SET statement_timeout = 12345; SELECT 2", True),
    ("a setting by a function", "SELECT set_config('statement_timeout', '12345', false)", True),
    ("a setting by a function that is called in a WHERE", "SELECT 1 WHERE set_config ('statement_timeout', '12345', false) = ''", True),
    ("a setting by an UPDATE", "UPDATE pg_settings SET setting = '12345' WHERE name = 'statement_timeout'", True),
    ("a setting by a block", "DO $$BEGIN SET statement_timeout = 12345; END$$", True),
    ("a setting by a procedure", "CALL sets()", True),
    ("a setting of a transaction", "BEGIN; SET statement_timeout = 12345; COMMIT", True),
    ("a setting of its own", "SET my.own = 'left'", True),
    ("a search path", "SET search_path = pg_catalog", True),
    ("a name", "SET application_name = 'mine'", True),
    ("a read only default", "SET default_transaction_read_only = on", True),
    ("a kind of transactions", "SET SESSION CHARACTERISTICS AS TRANSACTION ISOLATION LEVEL SERIALIZABLE", True),
    ("a role", "SET ROLE hashed", True),
    ("a user", "SET SESSION AUTHORIZATION hashed", True),
    ("a channel", "LISTEN news", True),
    ("a prepared statement", "PREPARE mine AS SELECT 1", True),
    ("a prepared statement of a failed query", "PREPARE mine AS SELECT 1;; SELECT 1/0", True),
    ("a temporary table", "CREATE TEMP TABLE mine (n int)", True),
    ("a temporary table of a query", "SELECT 1 AS n INTO TEMPORARY mine", True),
    ("a table among the temporary ones", "SELECT 1 AS n INTO pg_temp.mine", True),
    ("a table among those by another name", 'SELECT 1 AS n INTO U&"pg\\005ftemp".mine', True),
    ("a temporary view", "CREATE TEMP VIEW mine AS SELECT 1 AS n", True),
    ("a temporary function", "CREATE FUNCTION pg_temp.mine() RETURNS int AS 'SELECT 1' LANGUAGE sql", True),
    ("a lock", "SELECT pg_advisory_lock(7)", True),
    ("a lock behind a comment", "SELECT pg_advisory_lock/*it*/(7)", True),
    ("a lock in quotes", 'SELECT "pg_advisory_lock"(7)', True),
    ("a lock by escapes", 'SELECT U&"pg\\005fadvisory\\005flock"(7)', True),
    ("a lock by a part of a name", "SELECT pg_catalog . pg_advisory_lock (7)", True),
    ("a lock by a text", "SELECT query_to_xml('SELECT pg_advisory' || '_lock(7)', true, true, '')", True),
    ("a lock of a failed query", "SELECT pg_advisory_lock(7), 1 / (random() * 0)::int", True),
    ("a lock of a failed block", "DO $$BEGIN PERFORM pg_advisory_lock(7); RAISE 'no'; END$$", True),
    ("a lock of a transaction", "BEGIN; SELECT pg_advisory_lock(7)", True),
    ("a cursor", "DECLARE mine CURSOR WITH HOLD FOR SELECT 1", True),
    ("a cursor of a transaction", "BEGIN; DECLARE mine CURSOR WITH HOLD FOR SELECT 1; COMMIT", True),
    ("an open transaction", "BEGIN", False),
    ("an open transaction with a savepoint", "BEGIN;; SAVEPOINT mine", False),
    ("an open transaction with a setting", "BEGIN;; SET statement_timeout = 12345", False),
    ("a failed transaction", "BEGIN;; SELECT 1/0", False),
    ("a failed transaction with a channel", "BEGIN;; LISTEN news;; SELECT 1/0", False),
]
# How a caller leaves what `lastval` tells.
NUMBERED = [
    "SELECT nextval('numbers')", "INSERT INTO numbered DEFAULT VALUES", "UPDATE numbered SET id = DEFAULT",
    "WITH it AS (INSERT INTO noted SELECT 1 RETURNING 1) SELECT 1", "WITH it AS (INSERT INTO noted SELECT 1 RETURNING 1) DELETE FROM noted",
    "WITH it AS (UPDATE numbered SET id = DEFAULT RETURNING 1) SELECT 1",
]


def try_sessions(trial):
    trial.server.ask("""CREATE SEQUENCE numbers; CREATE TABLE numbered (id serial); INSERT INTO numbered VALUES (0);
        CREATE TABLE noted (n int, id serial);
        CREATE PROCEDURE sets() AS 'SET statement_timeout = 12345' LANGUAGE sql""")
    for mode in MODES:
        # (one that waits for longer: here it is the server that is slow, on a busy machine)
        service = trial.service_of(f"calm-{mode}", "postgres")
        fresh = service.ask(f"run {PROBE}")
        trial.check(f"{mode}: a session that has just begun", fresh.count("Some") == 13 and 'Some("false")' in fresh, fresh)
        try_each(trial, [functools.partial(try_left, mode, service, fresh, *state) for state in LEFT])
        service.ask("evict")
        try_numbers(trial, mode, service)
        try_library(trial, mode, service)
        trial.check(f"{mode}: the service ends", service.end() == 0)
    try_statements(trial)


# How many statements the server has, and a query of a table that changes.
COUNT, STAR = "SELECT count(*) FROM pg_prepared_statements", "SELECT * FROM changing WHERE n = $1 <- 1"


def try_statements(trial):
    """The server keeps two statements for a connection. Whatever becomes of them, each answer is that of its text and values."""
    trial.server.ask("CREATE TABLE changing (n int); INSERT INTO changing VALUES (1)")
    service = trial.service_of("kept-never", "postgres")
    told = [service.ask(f"run SELECT {factor} * $1::int <- {value}") for value in range(3) for factor in (10, 20, 30, 10)]
    wanted = [f'[Some("{factor * value}")] |' for value in range(3) for factor in (10, 20, 30, 10)]
    trial.check("kept statements: each answer is that of its text and values", told == wanted, told)
    told = service.ask(f"run {COUNT}")
    trial.check("kept statements: no more than there is room for", told == '[Some("2")] |', told)
    told = [service.ask(f"run {STAR}")]
    trial.server.ask("ALTER TABLE changing ADD m int DEFAULT 7")
    told += [service.ask(f"run {STAR}") for _ in range(2)]
    is_so = told[0] == '[Some("1")] |' and "(SQLSTATE 0A000)" in told[1] and told[2] == '[Some("1"), Some("7")] |'
    trial.check("kept statements: a table that was changed refuses one once", is_so, told)
    told = [service.ask(f"run {line}") for line in (f"DEALLOCATE ALL;; {STAR}", STAR)]
    trial.check("kept statements: those that a caller ended are refused once", "(SQLSTATE 26000)" in told[0] and told[1] == '[Some("1"), Some("7")] |', told)
    told = [service.ask(f"run {line}") for line in ("BEGIN;; SELECT 9 + $1::int <- 1", "SELECT 9 + $1::int <- 2", COUNT)]
    trial.check("kept statements: they outlive a transaction", told == ['| [Some("10")] |', '[Some("11")] |', '[Some("2")] |'], told)
    trial.check("kept statements: the service ends", service.end() == 0)
    service = trial.service_of("kept-if-marked", "postgres")
    told = [service.ask(f"run {line}") for line in (STAR, COUNT, "SET statement_timeout = 12345", COUNT, STAR)]
    row = '[Some("1"), Some("7")] |'
    trial.check("kept statements: a reset ends them", told == [row, '[Some("1")] |', "|", '[Some("0")] |', row], told)
    trial.check("kept statements: that service ends", service.end() == 0)


def try_left(mode, service, fresh, what, left, is_seen, trial):
    """A state, on a session that has just begun."""
    service.ask("evict")
    name = service.ask("run SELECT pg_backend_pid()")
    service.ask(f"run {left}")
    seen = service.ask(f"run {PROBE}")
    is_wanted = mode == "never" and is_seen
    # (a query that failed shows nothing)
    check = trial.check if "! " in seen else trial.check_each_time
    check(f"{mode}: {what} is {'seen' if is_wanted else 'not seen'} by the next caller", (seen != fresh) == is_wanted, seen)
    now = service.ask("run SELECT pg_backend_pid()")
    trial.check(f"{mode}: {what} closes no connection", now == name, now)


def try_numbers(trial, mode, service):
    """A number that a caller drew is told to nobody else."""
    for left in NUMBERED:
        service.ask(f"run {left}")
        seen = service.ask("run SELECT lastval()")
        trial.check(f"{mode}: the number of {left}", ("SQLSTATE 55000" in seen) == (mode != "never"), seen)
        service.ask("evict")


def try_library(trial, mode, service):
    """What no reset brings back is closed."""
    names = [service.ask(f"run {it}SELECT pg_backend_pid()").rpartition("Some")[2] for it in ("", "LOAD 'plpgsql';; ", "")]
    trial.check(f"{mode}: a library", names[0] == names[1] and (names[1] == names[2]) == (mode == "never"), names)
