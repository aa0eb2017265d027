// What a user brings to a pool, what it is told, and the settings.
ghost use Rattle.pool.specs.declared.surface.user_types.Kind.TheVariants.{OfNumber, OfWord};
ghost use Rattle.pool.specs.declared.surface.user_types.Kept.TheVariants.{Number, Word};

use log::sink::Discard;
use log::{Level, Logged};
use r2d2::event::{self, AcquireEvent, CheckinEvent, CheckoutEvent, ReleaseEvent, TimeoutEvent};
use r2d2::{
    Builder, Config, CustomizeConnection, Extension, Extensions, HandleError, HandleEvent,
    LendingOrder, LoggingErrorHandler, ManageConnection, NopConnectionCustomizer, NopErrorHandler,
    NopEventHandler,
};
use std::alloc::{AllocError, Global};
use std::sync::atomic::{AtomicU64, Ordering};
use std::test::Fail;
use std::time::Duration;
use std::{array, fmt};

#[derive(Clone, Copy, Debug, PartialEq, Eq)]
pub enum Kind {
    OfNumber,
    OfWord,
}

#[derive(Debug, PartialEq, Drop)]
pub enum Kept {
    Number(u32),
    Word(char),
}

impl Extension for Kept {
    type Kind = Kind;

    ghost kind_of = { λ v. elim v [ Number _ ↦ OfNumber | Word _ ↦ OfWord ] };

    fn kind(&self) -> Kind {
        match self {
            Kept::Number(_) => Kind::OfNumber,
            Kept::Word(_) => Kind::OfWord,
        }
    }
}

/// Why a connection could not be opened.
#[derive(Clone, Copy, Debug, PartialEq, Eq)]
pub struct Blammo;

impl fmt::Display for Blammo {
    fn fmt<W: fmt::Write>(&self, f: &mut fmt::Formatter<W>) -> fmt::Result {
        f.write_str("blammo")
    }
}

/// Opens numbers, and finds each one sound that is not 0.
#[derive(Debug, Drop)]
pub struct Numbers;

impl ManageConnection for Numbers {
    type Connection = u32;

    type Error = Blammo;

    type Extension = Kept;

    fn connect(&self) -> Result<u32, Blammo> {
        Ok(7)
    }

    fn is_valid(&self, _connection: &mut u32) -> Result<(), Blammo> {
        Ok(())
    }

    fn has_broken(&self, connection: &mut u32) -> bool {
        *connection == 0
    }
}

/// What a listener counts.
#[derive(Clone, Copy)]
enum Heard {
    Acquired,
    Lent,
    Returned,
    Released,
    Closed,
    InVain,
    Failed,
}

/// Counts what it hears of connections with the id 0.
#[derive(Clone, Copy, Debug)]
pub struct Listener(&'static [AtomicU64; 7]);

impl Listener {
    /// It heard of nothing yet.
    pub fn new(alloc: Global) -> Result<Listener, AllocError> {
        let counts = array::from_fn(|_| AtomicU64::new(0));
        Ok(Listener(Box::leak(Box::new(alloc, counts)?)))
    }

    /// How often it heard of an opening, a lending, a return, a release, a closing, a call in vain
    /// and an error.
    pub fn counts(&self) -> [u64; 7] {
        array::from_fn(|place| self.0[place].load(Ordering::SeqCst))
    }

    fn count(&self, heard: Heard, is_due: bool) {
        self.0[heard as usize].fetch_add(is_due as u64, Ordering::SeqCst);
    }

    fn count_of(&self, heard: Heard, id: u64, length: Duration) {
        self.count(heard, id == 0 && length < Duration::from_secs(60));
    }
}

impl HandleEvent for Listener {
    fn handle_acquire(&self, event: AcquireEvent) {
        self.count(Heard::Acquired, event.connection_id() == 0);
    }

    fn handle_release(&self, event: ReleaseEvent) {
        self.count_of(Heard::Released, event.connection_id(), event.age());
    }

    fn handle_checkout(&self, event: CheckoutEvent) {
        self.count_of(Heard::Lent, event.connection_id(), event.duration());
    }

    fn handle_timeout(&self, event: TimeoutEvent) {
        self.count(Heard::InVain, event.timeout() == Duration::from_millis(5));
    }

    fn handle_checkin(&self, event: CheckinEvent) {
        self.count_of(Heard::Returned, event.connection_id(), event.duration());
    }
}

impl HandleError<Blammo> for Listener {
    fn handle_error(&self, _error: Blammo) {
        self.count(Heard::Failed, true);
    }
}

impl CustomizeConnection<u32, Blammo> for Listener {
    fn on_acquire(&self, connection: &mut u32) -> Result<(), Blammo> {
        *connection = 8;
        Ok(())
    }

    fn on_release(&self, _connection: u32) {
        self.count(Heard::Closed, true);
    }
}

/// Keeps to the default bodies.
#[derive(Debug, Drop)]
pub struct Silent;

impl event::HandleEvent for Silent {}

impl CustomizeConnection<u32, Blammo> for Silent {}

/// The builder that a pool of numbers begins with.
pub type Settings = Builder<Numbers, NopErrorHandler, NopEventHandler, NopConnectionCustomizer>;

#[test]
fn extensions(rt: HostRuntime) -> Result<(), Fail> {
    let mut kept = Extensions::new(rt.alloc());
    assert!(rt; kept.insert(Kept::Number(1)) == Ok(None));
    assert!(rt; kept.insert(Kept::Word('w')) == Ok(None));
    assert!(rt; kept.get(&Kind::OfNumber) == Some(&Kept::Number(1)));
    if let Some(number) = kept.get_mut(&Kind::OfNumber) {
        *number = Kept::Number(2);
    }
    assert!(rt; kept.remove(&Kind::OfNumber) == Some(Kept::Number(2)));
    kept.clear();
    assert!(rt; kept.get(&Kept::Word('w').kind()) == None);
    Ok(())
}

#[test]
fn handlers(rt: HostRuntime) -> Result<(), Fail> {
    let log = LoggingErrorHandler::new(Logged::new(rt, Level::Error, Discard));
    log.handle_error(Blammo);
    NopErrorHandler.handle_error(Blammo);
    let mut connection = Numbers.connect()?;
    assert_eq!(rt; Numbers.is_valid(&mut connection), Ok(()));
    assert!(rt; !Numbers.has_broken(&mut connection));
    assert_eq!(rt; Silent.on_acquire(&mut connection), Ok(()));
    Silent.on_release(connection);
    let shown = format!(in rt.alloc();
        "{log:?} {:?} {:?} {:?}",
        NopErrorHandler,
        event::NopEventHandler,
        NopConnectionCustomizer
    )?;
    assert_eq!(rt;
        shown.as_str(),
        "LoggingErrorHandler NopErrorHandler NopEventHandler NopConnectionCustomizer"
    );
    Ok(())
}

#[test]
fn settings(rt: HostRuntime) -> Result<(), Fail> {
    let builder = Settings::default()
        .max_size(3)
        .min_idle(Some(2))
        .thread_pool(1)
        .test_on_check_out(false)
        .max_lifetime(None)
        .idle_timeout(None)
        .connection_timeout(Duration::from_secs(5))
        .journal_room(4)
        .lending_order(LendingOrder::OldestFirst)
        .error_handler(NopErrorHandler)
        .event_handler(Silent)
        .connection_customizer(Silent);
    let limits = builder.limits().ok_or("limits")?;
    assert_eq!(rt;
        (limits.wanted(), limits.order()),
        (2, LendingOrder::OldestFirst)
    );
    let config = Config {
        max_size: 3,
        min_idle: Some(2),
        thread_pool: 1,
        test_on_check_out: false,
        max_lifetime: None,
        idle_timeout: None,
        connection_timeout: Duration::from_secs(5),
        journal_room: 4,
        reaper_rate: Duration::from_secs(30),
        lending_order: LendingOrder::OldestFirst,
        error_handler: NopErrorHandler,
        event_handler: Silent,
        connection_customizer: Silent,
    };
    let shown = format!(in rt.alloc(); "{builder:?}")?;
    let expected = format!(in rt.alloc(); "{config:?}")?;
    assert_eq!(rt;
        shown.as_str().strip_prefix("Builder"),
        expected.as_str().strip_prefix("Config")
    );
    Ok(())
}
