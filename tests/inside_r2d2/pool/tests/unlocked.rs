// No lock of the pool is held while the manager, a handler, the customizer or a connection's drop
// is called: each of them has another thread read the pool's state, for which that takes the lock,
// and waits for it.

use super::*;
use crate::event::{AcquireEvent, CheckinEvent, CheckoutEvent, ReleaseEvent, TimeoutEvent};
use std::sync::atomic::AtomicBool;
use std::thread::JoinHandle;

/// What the pool calls.
const CALLS: [&str; 12] = [
    "connect", "is_valid", "has_broken", "drop", "handle_error", "on_acquire", "on_release",
    "acquire", "release", "checkout", "timeout", "checkin",
];

/// Questions to a thread that has the pool, and its answers.
#[derive(Default, Drop)]
struct Probe {
    asked: AtomicU64,
    answered: AtomicU64,
    waited_in_vain: AtomicU64,
    /// From then on nobody answers, and nobody waits.
    is_over: AtomicBool,
    /// A bit for each of the calls.
    called: AtomicU64,
    releases: AtomicU64,
}

/// Asks at each call. The first connection is turned away, and the first check fails; each that
/// comes back is broken.
#[derive(Clone, Copy)]
struct Prober<R> {
    probe: &'static Probe,
    rt: R,
}

impl<R: Clock> Prober<R> {
    // Waits for an answer. It fails at the first call of its kind.
    fn ask(&self, call: &str) -> Result<(), &'static str> {
        let Prober { probe, rt } = self;
        let ticket = probe.asked.fetch_add(1, Ordering::SeqCst).saturating_add(1);
        if !probe.is_over.load(Ordering::SeqCst) && watched(rt, &probe.answered, ticket) < ticket {
            probe.waited_in_vain.fetch_add(1, Ordering::SeqCst);
        }
        let bit = 1 << CALLS.iter().position(|it| *it == call).ok_or("no call")?;
        if probe.called.fetch_or(bit, Ordering::SeqCst) & bit == 0 {
            return Err("the first call");
        }
        Ok(())
    }
}

/// A connection that asks when it is dropped.
struct Asking<R: Clock + Drop>(Prober<R>);

impl<R: Clock + Drop> Drop for Asking<R> {
    fn drop(self) {
        let Asking(prober) = self;
        prober.ask("drop").ok();
    }
}

impl<R> fmt::Debug for Prober<R> {
    fn fmt<W: fmt::Write>(&self, f: &mut fmt::Formatter<W>) -> fmt::Result {
        f.write_str("Prober")
    }
}

impl<R: PoolRuntime> ManageConnection for Prober<R> {
    type Connection = Asking<R>;

    type Error = &'static str;

    type Extension = ();

    fn connect(&self) -> Result<Asking<R>, &'static str> {
        self.ask("connect").ok();
        Ok(Asking(*self))
    }

    fn is_valid(&self, _connection: &mut Asking<R>) -> Result<(), &'static str> {
        self.ask("is_valid")
    }

    fn has_broken(&self, _connection: &mut Asking<R>) -> bool {
        self.ask("has_broken").ok();
        true
    }
}

impl<R: PoolRuntime> HandleError<&'static str> for Prober<R> {
    fn handle_error(&self, _error: &'static str) {
        self.ask("handle_error").ok();
    }
}

impl<R: PoolRuntime> CustomizeConnection<Asking<R>, &'static str> for Prober<R> {
    fn on_acquire(&self, _connection: &mut Asking<R>) -> Result<(), &'static str> {
        self.ask("on_acquire")
    }

    fn on_release(&self, _connection: Asking<R>) {
        self.ask("on_release").ok();
        self.probe.releases.fetch_add(1, Ordering::SeqCst);
    }
}

impl<R: PoolRuntime> HandleEvent for Prober<R> {
    fn handle_acquire(&self, _event: AcquireEvent) {
        self.ask("acquire").ok();
    }

    fn handle_release(&self, _event: ReleaseEvent) {
        self.ask("release").ok();
    }

    fn handle_checkout(&self, _event: CheckoutEvent) {
        self.ask("checkout").ok();
    }

    fn handle_timeout(&self, _event: TimeoutEvent) {
        self.ask("timeout").ok();
    }

    fn handle_checkin(&self, _event: CheckinEvent) {
        self.ask("checkin").ok();
    }
}

type ProbedPool<R> = Pool<Prober<R>, Prober<R>, Prober<R>, Prober<R>, R>;

// Answers each question when it has read the pool's state, until the test is over.
fn answer<R: PoolRuntime>(rt: R, pool: ProbedPool<R>, probe: &Probe) {
    for _ in 0..60_000 {
        let asked = probe.asked.load(Ordering::SeqCst);
        let _state = pool.state();
        probe.answered.store(asked, Ordering::SeqCst);
        if probe.is_over.load(Ordering::SeqCst) {
            return;
        }
        thread::sleep(&rt, Duration::from_millis(1));
    }
}

// A pool of one connection, whose calls ask, with what they asked. The thread answers them.
fn probed<R: PoolRuntime>(
    rt: R,
    builder: Builder<Prober<R>>,
) -> Result<(ProbedPool<R>, &'static Probe, JoinHandle<()>), Fail> {
    let probe = shared(rt.alloc())?;
    let prober = Prober { probe, rt };
    let pool = builder
        .max_size(1)
        .error_handler(prober)
        .event_handler(prober)
        .connection_customizer(prober)
        .build_unchecked(rt, prober)?;
    let theirs = pool.try_clone()?;
    let thread = thread::spawn(&rt, move || answer(rt, theirs, probe))?;
    Ok((pool, probe, thread))
}

#[test]
fn calls_are_made_without_the_lock(rt: HostRuntime) -> Result<(), Fail> {
    let soon = Duration::from_millis(500);
    let builder = Builder::new().idle_timeout(Some(soon)).reaper_rate(soon);
    let (pool, probe, thread) = probed(rt, builder)?;
    let lent = pool.get()?;
    assert!(rt; pool.get_timeout(Duration::from_millis(50)).is_err());
    drop(lent);
    // One whose check failed, a broken one, and one that expired.
    assert!(rt; watched(&rt, &probe.releases, 3) >= 3);
    assert_eq!(rt; probe.waited_in_vain.load(Ordering::SeqCst), 0);
    assert_eq!(rt; probe.called.load(Ordering::SeqCst), (1 << CALLS.len()) - 1);
    probe.is_over.store(true, Ordering::SeqCst);
    thread.join(&rt);
    Ok(())
}

#[test]
fn an_eviction_calls_without_the_lock(rt: HostRuntime) -> Result<(), Fail> {
    let (pool, probe, thread) = probed(rt, Builder::new())?;
    assert!(rt; comes_within(&rt, LOOKS, || pool.state().idle_connections == 1));
    assert_eq!(rt; pool.evict()?, 1);
    assert_eq!(rt; probe.releases.load(Ordering::SeqCst), 1);
    assert_eq!(rt; probe.waited_in_vain.load(Ordering::SeqCst), 0);
    probe.is_over.store(true, Ordering::SeqCst);
    thread.join(&rt);
    Ok(())
}
