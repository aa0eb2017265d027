// What a pool shows of itself, and the settings of both builders.

use crate::rows::*;
use r2d2::{
    Builder, Config, CustomizeConnection, HandleEvent, NopConnectionCustomizer, NopErrorHandler,
    NopEventHandler, PlainPool,
};
use std::time::SystemTime;

#[test]
fn a_pool_tells_when_it_was_made_and_its_moment(rt: HostRuntime) -> Result<(), Fail> {
    on_each(rt, &ALL, |world| {
        let created_at = SystemTime::now(&Place { world, rt })?;
        let pool = Pool::of(rt, world, SMALL)?;
        for passed in [0, 7_000, 7_001] {
            world.pass(passed);
            assert_eq!(rt; pool.created_at(), Some(created_at));
        }
        equal(pool.uptime(), 14_001)
    })
}

// Who waited for the first one as the pool was made is not counted.
#[test]
fn a_status_tells_what_there_is(rt: HostRuntime) -> Result<(), Fail> {
    let row = "built; get a b c; is max_size=3 wanted=1 connections=3 idle=0 lent=3 opening=0
        is waiting=0 since=- failed_openings=0 failed_checks=0 refused=0 timeouts=0
        is latest=- closed=0; back a; is max_size=3 wanted=1 connections=3 idle=1 lent=2 opening=0
        is waiting=0 since=- failed_openings=0 failed_checks=0 refused=0 timeouts=0
        is latest=- closed=0";
    on_text(rt, &ALL, SMALL.most(3).idle(1), row)
}

// One at a time, and several at once; but neither one that does not wait, nor one that is served.
#[test]
fn all_who_give_up_are_counted(rt: HostRuntime) -> Result<(), Fail> {
    on_lent(rt, &ALL, SMALL, |world, pool, lent| {
        let mut before = 0;
        for callers in [1, 1, 1, 7] {
            let calls = pool.callers(callers, 50)?;
            world.pass(50);
            for call in calls {
                let told = pool.late(call)?.status().ok_or("no status")?.timeouts;
                assert!(rt; before < told && told <= before + callers);
            }
            before += callers;
            let status = pool.status();
            assert_eq!(rt; (status.timeouts, status.refused), (before, 0));
            assert_eq!(rt; status.waiting, 0);
        }
        assert!(rt; pool.try_get()?.is_none());
        drop(lent);
        drop(pool.get()?);
        equal(pool.status().timeouts, 10)
    })
}

#[test]
fn somebody_waits_since_the_first_caller_came(rt: HostRuntime) -> Result<(), Fail> {
    // One of them is served, and the other waits on. Then there is a break. A drain waits since its
    // call began, too.
    let row = "get a; is waiting=0 since=-; pass 3000; ask p; is waiting=1 since=3000; pass 4000
        ask q; is waiting=2 since=3000; pass 2000; back a; either p q; is waiting=1 since=3000
        back p; serve q; is waiting=0 since=-
        get a; pass 3000; ask p; is waiting=1 since=12000; back a; serve p
        get a; pass 10000; drain d; is waiting=1 since=22000; pass 10000; drain e
        is waiting=2 since=22000; back a; drained d e; is waiting=0 since=-";
    on_text(rt, &ALL, SMALL, row)
}

// The first caller gives up once its time is over. Then the connection comes back broken: the
// second one is woken, finds none, and orders one, which does not come.
#[test]
fn who_is_woken_in_vain_makes_no_break(rt: HostRuntime) -> Result<(), Fail> {
    let row = "get a; pass 3000; ask p=50; pass 40; ask q; pass 3000; late p
        is waiting=1 since=3000; breaks -; connects ~+*; back a; beside q opening=1
        is waiting=1 since=3000; close; closed q; is waiting=0 since=-";
    on_text(rt, &ALL, SMALL, row)
}

// The check ends at 15 s.
#[test]
fn one_whose_check_failed_waits_since_its_call_began(rt: HostRuntime) -> Result<(), Fail> {
    let row = "use; pass 10000; checks 5-; connects ~+*; ask p; is checks.asked=2
        is waiting=1 since=10000; close; closed p";
    on_text(rt, &ALL, SMALL.checked(), row)
}

/// Keeps to the default bodies.
#[derive(Debug, Drop)]
struct Named(char);

impl HandleEvent for Named {}

impl CustomizeConnection<Wire, Sorry> for Named {}

// What the builders of both crates answer: the defaults, and what was set.
macro_rules! limits {
    ($rt:expr, $builder:expr) => {
        let limits = $builder.limits().ok_or("limits")?;
        assert_eq!($rt; (limits.max_size(), limits.min_idle(), limits.wanted()), (10, None, 10));
        let lengths = (limits.max_lifetime(), limits.idle_timeout());
        assert_eq!($rt; lengths, (Some(length(1_800_000)), Some(length(600_000))));
        let lengths = (limits.connection_timeout(), limits.reap_every());
        assert_eq!($rt; lengths, (length(30_000), length(30_000)));
        assert_eq!($rt; limits.order(), LendingOrder::NewestFirst);

        let above = $builder.max_size(4).min_idle(Some(5));
        assert!($rt; above.limits().is_none());
        let within = above.min_idle(Some(4)).lending_order(LendingOrder::OldestFirst);
        let limits = within.limits().ok_or("limits")?;
        assert_eq!($rt; (limits.wanted(), limits.order()), (4, LendingOrder::OldestFirst));

        // Callers wait no longer, nor is anything shown so.
        let soon = $builder.connection_timeout(length(7_000)).max_retry_delay(Some(length(50)));
        let limits = soon.limits().ok_or("limits")?;
        assert_eq!($rt; limits.connection_timeout(), length(7_000));
    };
}

#[test]
fn settings(rt: HostRuntime) -> Result<(), Fail> {
    limits!(rt, Builder::<Manager>::default());
    limits!(rt, PlainPool::<Manager, HostRuntime>::builder());
    Ok(())
}

#[test]
fn how_they_are_shown(rt: HostRuntime) -> Result<(), Fail> {
    let builder = Builder::<Manager>::new()
        .max_size(7)
        .connection_timeout(Duration::from_secs(20))
        .event_handler(Named('v'))
        .connection_customizer(Named('z'));
    assert_eq!(rt; builder.limits().ok_or("limits")?.max_size(), 7);
    let shown = format!(in rt.alloc(); "{builder:?}")?;
    assert_eq!(rt;
        shown.as_str(),
        "Builder { max_size: 7, min_idle: None, test_on_check_out: true, \
         max_lifetime: Some(1800s), idle_timeout: Some(600s), connection_timeout: 20s, \
         error_handler: NopErrorHandler, event_handler: Named('v'), \
         connection_customizer: Named('z') }"
    );

    let config = Config {
        max_size: 2,
        min_idle: Some(1),
        thread_pool: 3,
        test_on_check_out: false,
        max_lifetime: None,
        idle_timeout: None,
        connection_timeout: Duration::from_millis(250),
        journal_room: 16,
        reaper_rate: Duration::from_secs(1),
        lending_order: LendingOrder::NewestFirst,
        error_handler: NopErrorHandler,
        event_handler: NopEventHandler,
        connection_customizer: NopConnectionCustomizer,
    };
    let shown = format!(in rt.alloc(); "{config:?}")?;
    assert_eq!(rt;
        shown.as_str(),
        "Config { max_size: 2, min_idle: Some(1), test_on_check_out: false, max_lifetime: None, \
         idle_timeout: None, connection_timeout: 250ms, error_handler: NopErrorHandler, \
         event_handler: NopEventHandler, connection_customizer: NopConnectionCustomizer }"
    );
    Ok(())
}

// Those that r2d2 has not are not shown.
#[test]
fn an_outage_changes_no_text(rt: HostRuntime) -> Result<(), Fail> {
    let plain = Builder::<Manager>::new();
    let without = format!(in rt.alloc(); "{plain:?}")?;
    let builder = plain
        .test_if_idle_for(Some(length(500)))
        .evict_idle_on_failed_check(true)
        .max_retry_delay(Some(length(50)))
        .lifetime_jitter(Some(length(180_000)));
    let shown = format!(in rt.alloc(); "{builder:?}")?;
    equal(shown.as_str(), without.as_str())
}

// A report shows the limits of the book, whose delays grow to half of this. Callers wait as they
// would without.
#[test]
fn what_is_shown_of_the_longest_delay(rt: HostRuntime) -> Result<(), Fail> {
    let rows = [
        (None, 30_000),
        (Some(50), 100),
        (Some(60_000), 120_000),
        (Some(u64::MAX), u64::MAX),
    ];
    on_rows(rt, &ALL, rows, |world, (longest, of_book)| {
        let pool = Pool::new(rt, world, |settings| settings.max_retry_delay = longest)?;
        assert_eq!(rt; pool.connection_timeout(), length(30_000));
        let limits = pool.journal()?.limits;
        equal(limits.connection_timeout(), length(of_book))
    })
}
