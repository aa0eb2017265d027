// The shape of deadpool over a server: a semaphore of as many permits as there may be connections,
// what is idle under a lock, and a caller that finds nothing idle opens a connection itself. As in
// deadpool-postgres, an idle one is lent without a query if its socket is not known to be closed.
use std::collections::VecDeque;
use std::ops::Deref;
use std::sync::{Arc, Mutex, Weak};
use std::time::Duration;
use tokio::sync::Semaphore;
use tokio::time;
use tokio_postgres::{Client, Config, Error, NoTls, Statement};

/// The query with a value, which is prepared as a connection is opened.
pub const WITH_VALUE: &str = "SELECT n FROM counts WHERE thread = $1";

/// A connection, and what is prepared for it.
pub struct Session {
    pub client: Client,
    pub with_value: Statement,
}

/// Why nobody was lent to a caller.
pub enum Refusal {
    Late,
    Failed,
}

impl From<Error> for Refusal {
    fn from(_: Error) -> Refusal {
        Refusal::Failed
    }
}

impl From<time::error::Elapsed> for Refusal {
    fn from(_: time::error::Elapsed) -> Refusal {
        Refusal::Late
    }
}

pub struct Managed {
    idle: Mutex<VecDeque<Session>>,
    permits: Semaphore,
    config: Config,
    timeout: Duration,
}

impl Managed {
    /// A pool of so many connections, none of which is open. A caller waits for so long for one, and
    /// for as long for an opening.
    pub fn new(max_size: usize, config: Config, timeout: Duration) -> Arc<Managed> {
        Arc::new(Managed {
            idle: Mutex::new(VecDeque::new()),
            permits: Semaphore::new(max_size),
            config,
            timeout,
        })
    }

    pub async fn get(pool: &Arc<Managed>) -> Result<Lent, Refusal> {
        let acquired = time::timeout(pool.timeout, pool.permits.acquire()).await?;
        let permit = acquired.expect("it is never closed");
        let session = match pool.first_sound() {
            Some(session) => session,
            None => time::timeout(pool.timeout, pool.open()).await??,
        };
        permit.forget();
        Ok(Lent {
            session: Some(session),
            pool: Arc::downgrade(pool),
        })
    }

    // The one that was idle for the longest time. What is closed is dropped.
    fn first_sound(&self) -> Option<Session> {
        let mut idle = self.idle.lock().expect("no step panics");
        while let Some(session) = idle.pop_front() {
            if !session.client.is_closed() {
                return Some(session);
            }
        }
        None
    }

    async fn open(&self) -> Result<Session, Error> {
        let (client, connection) = self.config.connect(NoTls).await?;
        tokio::spawn(connection);
        let with_value = client.prepare(WITH_VALUE).await?;
        Ok(Session { client, with_value })
    }

    fn put(&self, session: Session) {
        let mut idle = self.idle.lock().expect("no step panics");
        idle.push_back(session);
        drop(idle);
        self.permits.add_permits(1);
    }
}

/// A connection that goes back when it is dropped.
pub struct Lent {
    // None once it went back.
    session: Option<Session>,
    pool: Weak<Managed>,
}

impl Deref for Lent {
    type Target = Session;

    fn deref(&self) -> &Session {
        self.session.as_ref().expect("it has not gone back")
    }
}

impl Drop for Lent {
    fn drop(&mut self) {
        if let (Some(session), Some(pool)) = (self.session.take(), self.pool.upgrade()) {
            pool.put(session);
        }
    }
}
