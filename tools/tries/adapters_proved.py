"""The prover takes the adapters and their first programs, in a repository that `vendor` makes, and their tests pass. It refuses wrong
bodies of theirs; those that no clause refuses, a real server shows."""
import contextlib
import os
import re
import shutil
import tempfile
import time

import adapters
import web_service
from copies import Runs
from peer import AT_TWO
from tally import Tally

# (the first programs of tasks over a server are run alone: that each of their hundred tasks may be polled is a loop's invariant, and they
# have no ghost line)
CRATES = ["deadline", "server_url", "redis", "postgres", "tokio_timer", "tokio_socket", "redis_tasks", "postgres_tasks", "first_redis", "first_postgres", "first_tokio"]
# What they stand on, whose proofs this repository may have kept.
BELOW = ["pool_machine", "r2d2_core", "pool_state", "r2d2", "pool_tasks", "r2d2_async", "redis_codec", "postgres_codec"]
# What the redis manager asks at a return.
HAS_BROKEN = "!connection.come_back(self.settings.reset, &self.settings.login)"
# A read that goes on where its call's deadline is not over, and one that has a deadline of its own.
READ_BY = """            let left = deadline.left(self.rt)?;
            if self.read_limit > left.saturating_add(deadline.tenth()) {
                self.stream.set_read_timeout(Some(left))?;
                self.read_limit = left;
            }
            match self.stream.read(piece) {
                Ok(0) => return Err(io::Error::from(io::ErrorKind::UnexpectedEof)),
                Err(error) if may_go_on(&error) => self.read_limit = Duration::MAX,
"""
READ_BY_ITSELF = """            self.stream.set_read_timeout(Some(Duration::from_millis(500)))?;
            match self.stream.read(piece) {
                Ok(0) => return Err(io::Error::from(io::ErrorKind::UnexpectedEof)),
"""
# The same of the other adapter, which leaves half of a call's tenth to a cancel.
READ_BY_HALF = READ_BY.replace("deadline.tenth()", "deadline.tenth() / 2")
# What is told of a refusal in a greeting, and what of the refusal of a login alone.
TOLD = """        match self.judged(alloc, login, standing, items) {
            Ok(()) => Ok(()),
            Err(error) => Err(login.told(alloc, error)),
"""
TOLD_OF_LOGINS = """        let is_login = !self.finds_reset;
        match self.judged(alloc, login, standing, items) {
            Ok(()) => Ok(()),
            Err(error) if !is_login => Err(error),
            Err(error) => Err(login.told(alloc, error)),
"""
# What the postgres manager asks at a return.
POSTGRES_BROKEN = "!connection.come_back(self.settings.reset)"
POSTGRES_TASKS_BROKEN = "        if connection.come_back(self.settings.reset) {\n            return false;\n        }\n"
# What looks for bytes that nobody asked for, and what does not.
QUIET_OF_REDIS = """        if !self.talk.is_settled() {
            return Err(RedisError::Unasked);
        }
        match self.socket.is_quiet() {
            Ok(true) => Ok(()),
            Ok(false) => Err(RedisError::Unasked),
"""
QUIET = """        match self.socket.is_quiet() {
            Ok(_) => Ok(()),
"""
QUIET_OF_POSTGRES = """            Ok(is_quiet) if is_quiet && self.talk.is_settled() => Ok(()),
            Ok(_) => Err(PostgresError::Unasked),
"""
# A check of a connection for tasks, and one that asks nothing.
CHECKED = """        let verdict = match ready!(poll_answer(connection, cx)) {
            Ok(answer) => connection.passes(answer),
            Err(error) => Err(error),
        };
"""
UNCHECKED = """        let _ = cx;
        let verdict = match connection.session() {
            Session::Broken => Err(PostgresError::Broken),
            _ => Ok(()),
        };
"""
# A function, a passage of its file, and what somebody could write in its place. The prover refuses each.
REFUSED = [
    ("redis::connection::RedisConnection::is_broken", "{\n        self.standing.is_broken\n", "{\n        let _ = self;\n        false\n"),
    ("redis::connection::RedisConnection::exchange", "self.standing.is_broken = true;\n        self.wire.ask(words", "self.wire.ask(words"),
    ("redis::connection::RedisConnection::must_be_quiet", "if self.standing.is_broken {\n            return Err(RedisError::Broken);\n        }\n", ""),
    ("redis::connection::RedisConnection::run_all", "self.wire.ask_all(pipeline, deadline)?;\n", "self.wire.ask_all(pipeline, deadline)?;\n        self.standing.is_broken = false;\n"),
    ("redis::wire::Wire::receive_all", "if answers.len() == count {", "if answers.len() >= count.saturating_sub(1) {"),
    ("redis::standing::all_of", "        .into_iter()\n        .map", "        .into_iter()\n        .skip(1)\n        .map"),
    ("redis::connection::RedisConnection::run_all", "pipeline.len(), deadline)?;", "pipeline.len().saturating_sub(1), deadline)?;"),
    ("redis::standing::Standing::replied_all", "self.is_broken = true;\n        let is_left", "let is_left"),
    ("redis::standing::Standing::is_primary", "_ => self.is_broken = true,", "_ => {}"),
    ("redis::standing::Standing::come_back", "Reset::IfMarked if session == Session::PLAIN => Ok(none),", "Reset::IfMarked => Ok(none),"),
    ("redis::standing::Standing::ask_to_reset", "self.resetting = count;\n", ""),
    ("deadline::Deadline::left", "if left.is_zero() { Err(late) } else { Ok(left) }", "Ok(left)"),
    ("redis::manager::RedisConnectionManagerManageConnection::has_broken", HAS_BROKEN, "{\n            let _ = connection;\n            false\n        }"),
    ("redis_tasks::connection::TaskConnection::poll_exchange", "        self.standing.is_broken = true;\n        let mut patience", "        let mut patience"),
    ("redis_tasks::connection::TaskConnection::poll_exchange", "            Poll::Pending => {\n                request.patience", "            Poll::Pending => {\n                self.standing.is_broken = false;\n                request.patience"),
    ("redis_tasks::connection::TaskConnection::poll_answer", "            Ok(()) if request.left > 0 => cx.yield_now(),\n", "            Ok(()) if request.left > 0 => {\n                self.standing.is_broken = false;\n                cx.yield_now()\n            }\n"),
    ("redis_tasks::connection::TaskConnection::poll_steps", "            request.stage = Stage::Sending;\n", "            request.stage = Stage::Sending;\n            self.standing.is_broken = false;\n"),
    ("postgres::answer::Session::of", "Status::InFailedTransaction => Session::InFailedTransaction,", "Status::InFailedTransaction => Session::Broken,"),
    ("postgres::connection::PostgresConnection::session", "{\n        self.standing.session\n", "{\n        let _ = self;\n        Session::Idle\n"),
    ("postgres::connection::PostgresConnection::exchange", "        self.standing.session = Session::Broken;\n        match", "        match"),
    ("postgres::standing::Standing::answered", "self.session = answer.session;", "self.session = Session::Idle;"),
    ("postgres::standing::Standing::answered", "self.mark = self.mark.and(answer.mark);", "self.mark = answer.mark;"),
    ("postgres::standing::Standing::is_reset", "        self.resetting = 0;\n        self.mark", "        self.mark"),
    ("postgres::standing::Standing::come_back", "        if self.session == Session::Broken {\n            return Err(PostgresError::Broken);\n        }\n", ""),
    ("postgres::standing::Standing::end", 'ask(alloc, talk, "ROLLBACK", &mut requests)?;\n            count += 1;', "{}"),
    ("postgres::standing::Standing::is_due", "Reset::IfMarked => self.mark != Mark::Plain,", "Reset::IfMarked => false,"),
    ("postgres::standing::Standing::end", "        self.resetting = count;\n", ""),
    ("postgres::statements::Statements::forget", "self.kept = Vec::new(self.alloc);", "self.sent = 0;"),
    ("postgres::statements::Statement::is_of", "self.is_kept && self.text.as_str() == text", "self.is_kept && self.text.as_str().len() == text.len()"),
    ("postgres::statements::Statements::ask", "match self.known(place, text) {", "match self.kept.as_slice().get(place) {"),
    ("postgres::statements::Statements::ask", "prepared(self.alloc, known.name.as_str(), values)?,", "prepared(self.alloc, known.name.as_str(), &[])?,"),
    ("postgres::statements::Statements::prepare", "let query = prepare(self.alloc, new.name.as_str(), text, values)?;", "let query = prepare(self.alloc, new.name.as_str(), text, &[])?;"),
    ("postgres::statements::Statements::send", "            self.put(asked.place, new)?;\n", "            let _ = new;\n"),
    ("postgres::statements::Statements::put", "} else if self.kept.len() < self.room {", "} else {"),
    ("postgres::statements::Statements::put", "            self.kept[place] = new;\n", "            self.kept[place].is_kept = new.is_kept;\n"),
    ("postgres::statements::Statements::answered", "self.kept[asked.place].is_kept = answer.rows.is_ok();", "self.kept[asked.place].is_kept = true;"),
    ("postgres::connection::PostgresConnection::open_cursor", "        self.counted(declare)?;\n", "        let _ = declare;\n"),
    ("postgres::query::Query::with", "request: postgres_codec::query_with(alloc, text, values)?,", "request: postgres_codec::query_with(alloc, text, &[])?,"),
    ("postgres::urls::address_of", "const PORT: u16 = 5432;", "const PORT: u16 = 5433;"),
    ("redis::urls::at_host", "const PORT: u16 = 6379;", "const PORT: u16 = 6380;"),
    ("redis::manager::RedisConnectionManager::with_user", "self.with_password(password)", "self.with_password(user)"),
    ("postgres::manager::PostgresConnectionManagerManageConnection::is_valid", "connection.check_by(self.settings.probe)", "{\n            let _ = connection;\n            Ok(())\n        }"),
    ("postgres::manager::PostgresConnectionManager::with_password_if_asked", "manager.settings.login.is_lenient = true;", "manager.settings.login.takes_md5 = true;"),
    ("postgres::manager::PostgresConnectionManager::with_statements", "self.settings.statements = count;", "let _ = count;"),
    ("postgres::login::Login::step", "(Asked::Md5, Stage::Begun) if self.takes_md5 =>", "(Asked::Md5, Stage::Begun) if self.takes_md5 || self.password.is_some() =>"),
    ("postgres::login::Login::step", "if self.password.is_none() || self.is_lenient =>", "if self.password.is_none() || !self.is_lenient =>"),
    ("postgres_tasks::connection::TaskConnection::poll_exchange", "        self.standing.session = Session::Broken;\n        let answered", "        let answered"),
    ("postgres_tasks::connection::TaskConnection::poll_exchange", "            Poll::Pending => Poll::Pending,\n", "            Poll::Pending => {\n                self.standing.session = Session::Idle;\n                Poll::Pending\n            }\n"),
    ("postgres_tasks::connection::TaskConnection::poll_steps", "            self.inner.request.stage = Stage::Sending;\n", "            self.inner.request.stage = Stage::Sending;\n            self.standing.session = Session::Idle;\n"),
    ("postgres_tasks::manager::TaskConnectionManagerManageConnection::has_broken", POSTGRES_TASKS_BROKEN, "        if connection.session() != Session::Broken {\n            return false;\n        }\n"),
    ("postgres::manager::PostgresConnectionManagerManageConnection::has_broken", POSTGRES_BROKEN, "connection.session() == crate::answer::Session::Broken"),
]
# A file, such a passage, and the check that is to fail: the bodies of a list are made together.
SEEN = [
    [
        ("redis/manager", HAS_BROKEN, "connection.is_broken()", "redis: if-marked: a database is not seen by the next caller"),
        ("deadline/look", "events: POLLIN,", "events: 0,", "redis, a scripted peer: an answer that comes twice, the second 0.1 s later"),
        ("redis/socket", READ_BY, READ_BY_ITSELF, "redis, a scripted peer: a value that drips: the deadline"),
        ("redis/reply", "list.push(made.pop().ok_or(RedisError::Protocol)?)?;", "list.insert(0, made.pop().ok_or(RedisError::Protocol)?)?;", "redis, a scripted peer: an answer byte by byte: the text"),
        ("redis/reset", "if is_one && !word.contains(password) && !password.contains(word) {", "if is_one && !word.is_empty() {", "redis, a scripted peer: a password of capitals, behind '' in the answer to AUTH: no error has it"),
        ("redis/greeting", TOLD, TOLD_OF_LOGINS, "redis, a scripted peer: a password of a word, behind 'DENIED ' in the answer to RESET: no error has it"),
        ("redis/reply", "if letter.is_control() {", "if letter == '\\r' {", "redis, a scripted peer: a refusal with control characters: the text"),
        ("redis_tasks/connection", "self.socket.must_be_quiet(deadline)?;\n        pipeline", "let _ = deadline;\n        pipeline", "redis for tasks: an answer that comes twice, the second 0.1 s later"),
        ("redis_tasks/manager", HAS_BROKEN, "connection.is_broken()", "redis for tasks: if-marked: a database is not seen by the next caller"),
        ("redis_tasks/manager", "self.settings.probe", "redis::Probe::Alive", "redis for tasks: a replica is left at a check"),
        ("redis/standing", "        .into_iter()\n        .map(|items| Reply", "        .into_iter()\n        .rev()\n        .map(|items| Reply", "redis: together: replies in the order of their commands"),
        ("tokio_socket/dialing", "if self.addresses.is_empty() => Poll::Ready(Err(error)),", "if self.addresses.is_empty() => {\n                let _ = error;\n                Poll::Pending\n            }", "redis for tasks: killed for five seconds: served again soon"),
        ("postgres/manager", POSTGRES_BROKEN, "connection.session() == crate::answer::Session::Broken", "postgres: nobody meets what was left open"),
        ("postgres/greeting", "if self.reply.as_deref() != Some(told.as_str()) {", "if told.is_empty() {", "postgres, a scripted peer: a wrong signature: the text"),
        ("postgres/socket", READ_BY_HALF, READ_BY_ITSELF, "postgres, a scripted peer: a row that drips: the deadline"),
        ("postgres/connection", "self.wire.cancel(key.as_slice(), asking, answer).ok();", "let _ = (key, asking, answer);", "postgres: a locked table leaves the server with no more than two connections for each"),
        ("postgres/refusal", "if letter.is_control() {", "if letter == '\\r' {", "postgres, a scripted peer: a refusal with control characters: the text"),
        ("postgres/answer", "                None => None,\n", "                None => Some(String::new(alloc)),\n", "postgres, a scripted peer: an answer byte by byte: the text"),
        ("postgres_tasks/connection", "        self.standing.session = Session::Broken;\n        let answered", "        let answered", "postgres for tasks: after it another connection is lent"),
        ("postgres_tasks/connection", "            key: inner.key.take()?,", "            key: inner.key.take().filter(|key| key.is_empty())?,", "postgres for tasks: a query that is late is cancelled"),
        ("postgres_tasks/connection", "        inner.socket.must_be_quiet(inner.patience.deadline)?;\n", "", "postgres for tasks: an answer that comes twice, the second 0.1 s later"),
        ("postgres/connection", "            self.statements.forget();\n", "", "postgres, a scripted peer: a reset ends the statements"),
        ("postgres_tasks/connection", "            inner.statements.forget();\n", "", "postgres for tasks: a reset ends the statements"),
        ("tokio_socket/patience", "        self.sleep = match self.deadline.left(self.rt) {\n", "        if self.sleep.is_some() {\n            return Poll::Ready(());\n        }\n        self.sleep = match self.deadline.left(self.rt) {\n", "postgres for tasks: each query has its own time"),
        ("postgres_tasks/opening", "let timeout = self.settings.timeouts.connect;", "let timeout = self.settings.timeouts.connect.saturating_mul(4);", "postgres for tasks: at a silent server: the deadline of each opening"),
        ("postgres_tasks/opening", "let address = self.settings.address.as_str();\n        PostgresError", "let address = self.settings.address.as_str();\n        let address = self.settings.login.password.as_deref().unwrap_or(address);\n        PostgresError", "postgres for tasks: a login that is not answered: nobody is told the password"),
    ],
    [
        ("tokio_socket/dialing", "deadline.left(self.rt)? / addresses.max(1)", "deadline.left(self.rt)?", "redis for tasks: a name at whose first address nobody answers"),
        ("deadline/place", "deadline.left(rt)? / others.max(1)", "deadline.left(rt)?", "postgres, a scripted peer: a name at whose first address nobody answers"),
        ("deadline/place", "Err(error) if error.kind() == io::ErrorKind::WouldBlock => {", "Err(error) if error.kind() == io::ErrorKind::NotFound => {", "redis: a path whose queue is full"),
        ("redis/greeting", "let probe = settings.probe;", "let probe = Probe::Alive;", "redis for tasks: no connection to a replica is opened"),
        ("redis_tasks/connection", "Ok(()) if request.left > 0 =>", "Ok(()) if request.left > 1 =>", "redis for tasks: together: an answer too few"),
        ("redis/standing", 'if role.as_slice() == b"master".as_slice() => {', "if !role.is_empty() => {", "redis: where that is set nobody is refused by it"),
        ("postgres/socket", '{folder}/.s.PGSQL.{port}', '{folder}/{port}', "postgres: a folder and a port"),
        ("postgres/connection", 'self.must_pass(probe, Deadline', '{\n            let _ = probe;\n        }\n        self.must_pass(Probe::Alive, Deadline', "postgres: a server that takes no writes is left"),
        ("redis/wire", "self.socket.must_be_quiet(deadline)", "{\n            let _ = deadline;\n            Ok(())\n        }", "redis, a scripted peer: an answer that comes twice, the second 0.1 s later"),
        ("redis/standing", 'text.starts_with(b"READONLY")', 'text.starts_with(b"LOADING")', "redis, a scripted peer: a demoted server is left"),
        ("redis/reset", "String::from_str(alloc, word)", "String::from_str(alloc, text.as_str())", "redis, a scripted peer: a password of 200 letters, behind 'ERR no ' in the answer to AUTH: no error has it"),
        ("redis/error", "io::ErrorKind::TimedOut => RedisError::Timeout {", "io::ErrorKind::NotFound => RedisError::Timeout {", "redis, a scripted peer: silence: the text"),
        ("redis/reset", "session.subscriptions || session.monitor || session.settings", "session.subscriptions || session.monitor", "redis: always: a setting is not seen by the next caller"),
        ("tokio_socket/patience", "Deadline::new(rt, length)", "Deadline::new(rt, length.saturating_mul(2))", "redis for tasks: at a silent server: the deadline of each command"),
        ("postgres/wire", "        if !self.talk.is_settled() {\n            return Err(PostgresError::Unasked);\n        }\n", "", "postgres, a scripted peer: an answer that comes twice, the second 0.0 s later"),
        ("postgres/connection", "self.end_session(reset).is_ok();", "self.end_session(reset).is_ok() && self.end_reset(Deadline::new(self.rt, self.timeouts.check)).is_ok();", "postgres, a scripted peer: a return waits for no answer"),
        ("postgres/answer", "self.refused = Some(refused(self.alloc, &refusal)?);", "let _ = refused(self.alloc, &refusal)?;", "postgres: a refusal is an error, and no more"),
        ("postgres/answer", "self.affected = self.affected.saturating_add(done.rows)", "self.affected = done.rows", "postgres, a scripted peer: how many rows the statements were about"),
        ("postgres/answer", "self.rows.len() >= limits.rows", "self.rows.len() > limits.rows", "postgres, a scripted peer: a row more: the text"),
        ("postgres/login", "(PostgresError::Refused { mut state, .. }, Some(password)) => {", "(PostgresError::Refused { mut state, text }, Some(password)) => {\n                if !text.as_str().contains(password) {\n                    return Ok(PostgresError::Refused { state, text });\n                }", "postgres, a scripted peer: a refusal that repeats a password of a tab: nobody is told it"),
        ("postgres/login", "password.contains(state.as_str()) || ", "password.is_empty() || ", "postgres, a scripted peer: a refusal that repeats a password of capitals, some of them as the state: nobody is told it"),
        ("postgres/query", "values)?,\n            mark: mark::of_query(text),", "values)?,\n            mark: Mark::Plain,", "postgres, a scripted peer: a query with values marks as its words do"),
        ("postgres/scram", "const FEWEST_ROUNDS: u32 = 4096;", "const FEWEST_ROUNDS: u32 = 1;", "postgres, a scripted peer: too few rounds: the text"),
        ("postgres/scram", "!nonce.starts_with(self.nonce.as_str()) || nonce.len() == self.nonce.len()", "nonce.len() == self.nonce.len()", "postgres, a scripted peer: a foreign nonce: the text"),
        ("postgres/wire", "self.socket.must_be_quiet(deadline)", "{\n            let _ = deadline;\n            Ok(())\n        }", "postgres, a scripted peer: an answer that comes twice, the second 0.1 s later"),
        ("postgres/mark", '["--", "/*", "&\\""]', '["--", "--", "&\\""]', "postgres: if-marked: a lock behind a comment is not seen by the next caller"),
        ("postgres/mark", '"default", "insert"', '"default", "merge"', "postgres: if-marked: the number of WITH it AS (INSERT INTO noted SELECT 1 RETURNING 1) SELECT 1"),
        ("postgres/mark", 'b"pg_temp"', 'b"no_temp"', "postgres: if-marked: a table among the temporary ones is not seen by the next caller"),
        ("postgres_tasks/connection", "        self.standing.session = Session::Broken;\n        let answered", "        if self.inner.request.stage == Stage::Sending {\n            self.standing.session = Session::Broken;\n        }\n        let answered", "postgres for tasks: after it another connection is lent"),
        ("postgres_tasks/connection", "            key: inner.key.take()?,", "            key: inner.key.take().map(|mut key| {\n                key.as_mut_slice().reverse();\n                key\n            })?,", "postgres for tasks: a query that is dropped is cancelled"),
        ("tokio_socket/patience", "        if length < self.deadline.length() {\n            self.sleep = None;\n        }\n", "", "postgres for tasks: at a silent server: the deadline of a check after a longer command's"),
        ("postgres/statements", "if is_full && it.last < last {", "if is_full && last == u64::MAX {", "postgres, a scripted peer: those that were asked for last are kept"),
        ("postgres/statements", "if let Some(former) = self.kept.as_slice().get(place) {\n            let other", "if let Some(former) = self.kept.as_slice().get(place).filter(|it| it.text.as_str() == text) {\n            let other", "postgres for tasks: kept statements: no more than there is room for"),
        ("postgres/statements", "error.state() == Some(UNKNOWN)", "error.state() == Some(\"\")", "postgres, a scripted peer: a statement that is refused with 26000 is prepared anew"),
        ("postgres_tasks/exchange", CHECKED, UNCHECKED, "postgres for tasks: at a silent server: the deadline of each check"),
        ("postgres_tasks/opening", "PostgresError::SlowLogin,", "self.explained(deadline, io::Error::from(io::ErrorKind::TimedOut)),", "postgres for tasks: rounds that take too long: the text"),
    ],
    # A manager that takes it for granted that each request has its answer: late ones go to others.
    [
        ("redis_tasks/connection", "        self.standing.is_broken = true;\n        let mut patience", "        let mut patience", "redis for tasks: an answer of a request that was given up is nobody's"),
        ("redis_tasks/socket", QUIET_OF_REDIS, QUIET, "redis for tasks: an answer that comes twice, the second 0.1 s later"),
        ("redis_tasks/manager", HAS_BROKEN, "{\n            let _ = connection;\n            false\n        }", "redis for tasks: an answer of a request that was given up is nobody's"),
        ("postgres_tasks/connection", "        self.standing.session = Session::Broken;\n        let answered", "        let answered", "postgres for tasks: an answer of a request that was given up is nobody's"),
        ("postgres_tasks/socket", QUIET_OF_POSTGRES, "            Ok(_) => Ok(()),\n", "postgres for tasks: an answer that comes twice, the second 0.1 s later"),
        ("postgres_tasks/manager", POSTGRES_TASKS_BROKEN, "        if connection.session() != Session::Broken {\n            return false;\n        }\n", "postgres for tasks: if-marked: a setting is not seen by the next caller"),
    ],
]

# The same of the service over HTTP, which is run alone.
SEEN_OVER_HTTP = [
    [
        ("web_service/app", "        match app.pool.get_timeout(", "        if !app.pool.status().closed {\n            return self.known_of(StatusCode::OK, \"ok\\n\");\n        }\n        match app.pool.get_timeout(", "its health tells of an outage"),
        ("web_service/app", ".event_handler(metrics.try_clone()?)", ".event_handler(Metrics::new(rt, settings.max_size)?)", "Prometheus: times were measured"),
        ("web_service/errand", "        match self.errand.statement(self.step) {\n            Some(statement) => {", "        if self.errand == Errand::Write && self.step % 3 == 0 {\n            self.step += 1;\n        }\n        match self.errand.statement(self.step) {\n            Some(statement) => {", "outages: what is counted is there"),
        ("web_service/app", ".max_waiting(Some(settings.max_waiting))", ".max_waiting(None)", "who is one too many is told so at once"),
    ],
    [
        ("web_service/errand", "            let (lent, rows) = ready!(asked.poll(cx));", "            let is_last = self.errand.statement(self.step) == Some(Statement::Commit);\n            let polled = asked.poll(cx);\n            if is_last && polled.is_pending() {\n                self.asked = None;\n                let found = self.found.take();\n                return Poll::Ready(Some(self.errand.answer(self.alloc, self.key.as_str(), found)));\n            }\n            let (lent, rows) = ready!(polled);", "lost messages: each write that was acknowledged is there once"),
        ("web_service/app", "self.app.ender.tell();", "self.app.ender.tell();\n                self.app.pool.close();", "each request under way is answered"),
    ],
]


class Seen(Tally):
    """Keeps the names of the checks that fail, and what was seen."""

    def __init__(self):
        super().__init__("bodies")
        self.names = {}

    def check(self, what, holds, seen=""):
        if not holds:
            self.names[what] = seen


def source(mine, file):
    crate, _, name = file.partition("/")
    return os.path.join(mine, "crates", crate, "src", f"{name}.rt")


def put_body(mine, file, old, new):
    """Puts a wrong body into a source. Its passage stands there once."""
    path = source(mine, file)
    with open(path, encoding="utf-8") as it:
        text = it.read()
    if text.count(old) != 1:
        raise SystemExit(f"adapters/{file}.rs: {old!r} stands there {text.count(old)} times")
    adapters.write(text.replace(old, new), path)


def bring_proofs(mine):
    """What the checks of this repository keep of the proofs of the pool, over which its checks there go on."""
    for crate in BELOW:
        kept = os.path.join("crates", crate, "out", "incremental")
        if os.path.isdir(os.path.join(adapters.TOP, kept)):
            shutil.copytree(os.path.join(adapters.TOP, kept), os.path.join(mine, kept))


@contextlib.contextmanager
def timed(what):
    """Says what was tried, and how long that took."""
    begun = time.monotonic()
    yield
    print(f"adapters-proved: {what}: {time.monotonic() - begun:.0f} s", flush=True)


def checked(mine, crate):
    """The status of a check, and what it said: how far it was ends in no line feed."""
    status, said = Runs().run(["rt", "check"], cwd=os.path.join(mine, "crates", crate))
    return status, said.replace("\r", "\n")


def try_proofs(mine, tally):
    for crate in BELOW + CRATES:
        with timed(f"the proof of {crate}"):
            status, said = checked(mine, crate)
        tally.check(f"{crate} is proved", status == 0 and "logic=proved" in said, said[-2000:])
    for crate in ["redis", "postgres"]:
        with timed(f"the tests of {crate}"):
            status, said = Runs().run(["rt", "test"], cwd=os.path.join(mine, "crates", crate))
        tally.check(f"the tests of {crate}", status == 0 and "test result: ok. 0 passed" not in said, said[-2000:])


def try_refused(mine, tally):
    """Over what the proofs have kept. Each alone: what calls a function without a proof is not tried."""
    for function, old, new in REFUSED:
        crate, module = function.split("::")[:2]
        # (what is in no module)
        module = module if module.islower() else "lib"
        with open(source(mine, f"{crate}/{module}"), encoding="utf-8") as it:
            right = it.read()
        put_body(mine, f"{crate}/{module}", old, new)
        with timed(f"a wrong body of {function}"):
            status, said = checked(mine, crate)
        is_open = re.search(rf"^fn {function}: no proof: .*did not prove", said, re.MULTILINE)
        tally.check(f"a wrong body of {function}", status != 0 and is_open, said[-3000:])
        adapters.write(right, source(mine, f"{crate}/{module}"))


def try_seen(place, tally):
    kinds = adapters.those_there(tally)
    for number, bodies in enumerate(SEEN):
        inner = os.path.join(place, f"bodies-{number}")
        mine = os.path.join(inner, "mine")
        adapters.repository(mine)
        for file, old, new, _ in bodies:
            put_body(mine, file, old, new)
        seen = Seen()
        with timed(f"{len(bodies)} wrong bodies at servers"):
            adapters.try_servers(kinds, mine, inner, seen)
        for file, _, _, what in bodies:
            if what.endswith(AT_TWO) and seen.skipped:
                tally.skip(f"a wrong body of {file}, which two addresses show")
            elif any(what.startswith(kind.NAME) for kind in kinds):
                tally.check(f"a wrong body of {file}, which a server shows", what in seen.names, seen.names)
        shutil.rmtree(inner)


def try_seen_over_http(place, tally):
    for number, bodies in enumerate(SEEN_OVER_HTTP):
        inner = os.path.join(place, f"over-http-{number}")
        mine = os.path.join(inner, "mine")
        adapters.repository(mine)
        for file, old, new, _ in bodies:
            put_body(mine, file, old, new)
        seen = Seen()
        with timed(f"{len(bodies)} wrong bodies over HTTP"):
            web_service.try_service(mine, inner, seen)
        for file, _, _, what in bodies:
            if seen.skipped:
                tally.skip(f"a wrong body of {file}, which wrk and Prometheus show")
            else:
                tally.check(f"a wrong body of {file}, which a load shows", f"web service: {what}" in seen.names, seen.names)
        shutil.rmtree(inner)


def tried():
    tally = Tally("adapters-proved")
    with tempfile.TemporaryDirectory(prefix="adapters-") as place:
        os.chmod(place, 0o711)
        mine = os.path.join(place, "mine")
        adapters.repository(mine)
        bring_proofs(mine)
        try_proofs(mine, tally)
        try_refused(mine, tally)
        # Here no proof runs beside the servers.
        adapters.IS_CALM = True
        inner = os.path.join(place, "right")
        os.mkdir(inner)
        adapters.try_servers(adapters.those_there(tally), mine, inner, tally)
        try_seen(place, tally)
        if adapters.Postgres in adapters.those_there(tally):
            try_seen_over_http(place, tally)
    return tally
