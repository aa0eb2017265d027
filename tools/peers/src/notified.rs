// The shape of bb8: what is idle and who waits under one lock, and a channel of its own for each
// who waits, by which it is handed its connection.
use crate::{opened, Connection};
use std::collections::VecDeque;
use std::sync::{Arc, Mutex};
use std::time::Instant;
use tokio::sync::oneshot;

pub struct Notified {
    state: Mutex<State>,
}

struct State {
    idle: VecDeque<Connection>,
    waiters: VecDeque<oneshot::Sender<Connection>>,
}

impl Notified {
    /// A pool of so many connections, all of them open.
    pub fn new(max_size: u32) -> Arc<Notified> {
        let state = Mutex::new(State {
            idle: opened(max_size),
            waiters: VecDeque::new(),
        });
        Arc::new(Notified { state })
    }

    /// Takes the connection that was idle for the longest time, or waits for one.
    pub async fn get(pool: Arc<Notified>) -> Lent {
        let found = pool.take_or_wait();
        let connection = match found {
            Ok(connection) => connection,
            Err(handed) => handed.await.expect("each who waits is served"),
        };
        Lent { connection, pool }
    }

    fn take_or_wait(&self) -> Result<Connection, oneshot::Receiver<Connection>> {
        let mut state = self.state.lock().expect("no step panics");
        if let Some(connection) = state.idle.pop_front() {
            return Ok(connection);
        }
        let (hand, handed) = oneshot::channel();
        state.waiters.push_back(hand);
        Err(handed)
    }

    fn put(&self, mut connection: Connection) {
        let mut state = self.state.lock().expect("no step panics");
        while let Some(waiter) = state.waiters.pop_front() {
            match waiter.send(connection) {
                Ok(()) => return,
                // It waits no more.
                Err(back) => connection = back,
            }
        }
        state.idle.push_back(connection);
    }
}

/// A connection that goes back when it is dropped.
pub struct Lent {
    connection: Connection,
    pool: Arc<Notified>,
}

impl Drop for Lent {
    fn drop(&mut self) {
        let (id, _) = self.connection;
        self.pool.put((id, Instant::now()));
    }
}
