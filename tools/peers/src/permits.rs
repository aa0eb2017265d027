// The shape of deadpool: a semaphore of as many permits as there are connections, and what is idle
// under a lock.
use crate::{opened, Connection};
use std::collections::VecDeque;
use std::sync::{Arc, Mutex, Weak};
use std::time::Instant;
use tokio::sync::Semaphore;

pub struct Permits {
    idle: Mutex<VecDeque<Connection>>,
    permits: Semaphore,
}

impl Permits {
    /// A pool of so many connections, all of them open.
    pub fn new(max_size: u32) -> Arc<Permits> {
        Arc::new(Permits {
            idle: Mutex::new(opened(max_size)),
            permits: Semaphore::new(max_size as usize),
        })
    }

    /// Waits for a permit, and takes the connection that was idle for the longest time.
    pub async fn get(pool: Arc<Permits>) -> Lent {
        let permit = pool.permits.acquire().await.expect("it is never closed");
        let idle = pool.idle.lock().expect("no step panics").pop_front();
        permit.forget();
        let (id, _) = idle.expect("there is one for each permit");
        Lent {
            connection: (id, Instant::now()),
            pool: Arc::downgrade(&pool),
        }
    }
}

/// A connection that goes back when it is dropped.
pub struct Lent {
    connection: Connection,
    pool: Weak<Permits>,
}

impl Drop for Lent {
    fn drop(&mut self) {
        if let Some(pool) = self.pool.upgrade() {
            let mut idle = pool.idle.lock().expect("no step panics");
            idle.push_back(self.connection);
            drop(idle);
            pool.permits.add_permits(1);
        }
    }
}
