// Tasks that ask a PostgreSQL, over `managed` and tokio-postgres: what `tests/server_bench` does over
// our pool and adapter, by the same queries.
use crate::managed::{Lent, Managed, Refusal, WITH_VALUE};
use std::sync::{Arc, Mutex};
use std::time::{Duration, Instant, SystemTime, UNIX_EPOCH};
use tokio::runtime::Builder;
use tokio::time;
use tokio_postgres::{Config, Error, Row, SimpleQueryMessage};

const MAX_SIZE: usize = 8;

/// How long a caller waits for a connection.
const TIMEOUT: Duration = Duration::from_secs(1);

/// How long a task rests after it was refused or failed.
const REST: Duration = Duration::from_millis(10);

#[derive(Clone, Copy)]
enum Request {
    Read,
    /// One with a value: prepared once for each connection, or each time.
    Value,
    Text,
    Write,
    /// The same, after which the session is reset.
    Reset,
}

impl Request {
    fn of(word: &str) -> Request {
        match word {
            "read" => Request::Read,
            "value" => Request::Value,
            "text" => Request::Text,
            "write" => Request::Write,
            "reset" => Request::Reset,
            _ => panic!("read, value, text, write or reset"),
        }
    }

    /// Makes the request. Whether the answer is one.
    async fn make(self, lent: &Lent, task: u32) -> Result<bool, Error> {
        match self {
            Request::Read => {
                let text = format!("SELECT n FROM counts WHERE thread = {}", thread(task));
                Ok(has_row(&lent.client.simple_query(&text).await?))
            }
            Request::Value => Ok(has_number(
                &lent
                    .client
                    .query(&lent.with_value, &[&thread(task)])
                    .await?,
            )),
            Request::Text => Ok(has_number(
                &lent.client.query(WITH_VALUE, &[&thread(task)]).await?,
            )),
            Request::Write | Request::Reset => {
                lent.client.simple_query("BEGIN").await?;
                let text = format!("INSERT INTO noted (task) VALUES ({task})");
                lent.client.simple_query(&text).await?;
                lent.client.simple_query("COMMIT").await?;
                if let Request::Reset = self {
                    lent.client.simple_query("DISCARD ALL").await?;
                }
                Ok(true)
            }
        }
    }
}

fn thread(task: u32) -> i32 {
    i32::try_from(task % 8).expect("it is below 8")
}

fn has_number(rows: &[Row]) -> bool {
    rows.len() == 1 && rows[0].try_get::<_, i64>(0).is_ok()
}

fn has_row(messages: &[SimpleQueryMessage]) -> bool {
    matches!(messages, [SimpleQueryMessage::Row(row), _] if row.get(0).is_some())
}

/// What all tasks count.
struct Counts {
    begun: Instant,
    served: u64,
    failed: u64,
    /// Calls that got no connection in time.
    timeouts: u64,
    longest: Duration,
    /// By how much the latest of these calls overran its timeout.
    late: Duration,
    last: Instant,
    /// The longest time in which nothing was served.
    gap: (Instant, Instant),
}

impl Counts {
    fn new() -> Counts {
        let begun = Instant::now();
        Counts {
            begun,
            served: 0,
            failed: 0,
            timeouts: 0,
            longest: Duration::ZERO,
            late: Duration::ZERO,
            last: begun,
            gap: (begun, begun),
        }
    }

    fn serve(&mut self, begun: Instant) {
        let now = Instant::now();
        self.served += 1;
        self.longest = self.longest.max(now - begun);
        if now - self.last > self.gap.1 - self.gap.0 {
            self.gap = (self.last, now);
        }
        self.last = now;
    }

    fn refuse(&mut self, refusal: Refusal, begun: Instant) {
        match refusal {
            Refusal::Late => {
                self.timeouts += 1;
                self.late = self.late.max(begun.elapsed().saturating_sub(TIMEOUT));
            }
            Refusal::Failed => self.failed += 1,
        }
    }

    /// Tells them, with moments in milliseconds of the wall clock.
    fn tell(&self) {
        let since = SystemTime::now().duration_since(UNIX_EPOCH);
        let wall = since.expect("it is after 1970") - self.begun.elapsed();
        let moment = |it: Instant| (wall + (it - self.begun)).as_millis();
        println!(
            "served={} failed={} timeouts={} longest={} late={} from={} to={}",
            self.served,
            self.failed,
            self.timeouts,
            self.longest.as_micros(),
            self.late.as_micros(),
            moment(self.gap.0),
            moment(self.gap.1),
        );
    }
}

/// Lets so many tasks ask for so many milliseconds, and tells what came of it.
pub fn serve(address: &str, request: &str, tasks: u32, millis: u32) {
    let (host, port) = address.split_once(':').expect("a host and a port");
    let mut config = Config::new();
    config.host(host).port(port.parse().expect("a port"));
    config.user("postgres").dbname("postgres");
    let pool = Managed::new(MAX_SIZE, config, TIMEOUT);
    let request = Request::of(request);
    let runtime = Builder::new_current_thread().enable_all().build();
    let runtime = runtime.expect("a runtime of one thread");
    let counts = Arc::new(Mutex::new(Counts::new()));
    let until = Instant::now() + Duration::from_millis(u64::from(millis));
    let callers: Vec<_> = (0..tasks)
        .map(|task| runtime.spawn(call(pool.clone(), request, task, until, counts.clone())))
        .collect();
    runtime.block_on(async {
        for caller in callers {
            caller.await.expect("no call panics");
        }
    });
    counts.lock().expect("no step panics").tell();
}

async fn call(
    pool: Arc<Managed>,
    request: Request,
    task: u32,
    until: Instant,
    counts: Arc<Mutex<Counts>>,
) {
    let count = || counts.lock().expect("no step panics");
    while Instant::now() < until {
        let begun = Instant::now();
        match Managed::get(&pool).await {
            Ok(lent) => {
                let answer = request.make(&lent, task).await;
                drop(lent);
                if let Ok(true) = answer {
                    count().serve(begun);
                    continue;
                }
                count().failed += 1;
            }
            Err(refusal) => count().refuse(refusal, begun),
        }
        time::sleep(REST).await;
    }
}
