// The pool, and the connections that it lends.
use super::pool_uses::{Load, audit, build_checked, can_serve, load_of, replace};
use super::user_types::{Kept, Kind, Listener, Numbers, Settings, Silent};
use r2d2::{
    Error, ErrorKind, Extensions, NopConnectionCustomizer, NopErrorHandler, NopEventHandler, Pool,
    PoolRuntime, PooledConnection, State,
};
use std::test::Fail;
use std::time::Duration;

type Heard<R> = Pool<Numbers, Listener, Listener, Listener, R>;

type HeardConnection<R> = PooledConnection<Numbers, Listener, Listener, Listener, R>;

type Plain<R> = Pool<Numbers, NopErrorHandler, NopEventHandler, NopConnectionCustomizer, R>;

// One connection, and a listener for everything.
fn heard_pool<R: PoolRuntime>(rt: R) -> Result<(Heard<R>, Listener), Fail> {
    let listener = Listener::new(rt.alloc())?;
    let pool = Settings::new()
        .max_size(1)
        .journal_room(64)
        .error_handler(listener)
        .event_handler(listener)
        .connection_customizer(listener)
        .build(rt, Numbers)?;
    Ok((pool, listener))
}

#[test]
fn lends_and_takes_back(rt: HostRuntime) -> Result<(), Fail> {
    let (pool, listener) = heard_pool(rt)?;
    let mut lent: HeardConnection<HostRuntime> = pool.get()?;
    assert_eq!(rt; *lent, 8);
    *lent = 9;
    let kept: &mut Extensions<Kept> = PooledConnection::extensions_mut(&mut lent);
    assert!(rt; kept.insert(Kept::Number(1)) == Ok(None));
    let shown = format!(in rt.alloc(); "{lent:?}")?;
    assert_eq!(rt; shown.as_str(), "9");
    let state: State = pool.state();
    assert_eq!(rt; (state.connections, state.idle_connections), (1, 0));
    drop(lent);

    let other = pool.try_clone()?;
    let mut lent = other.try_get()?.ok_or("none idle")?;
    assert_eq!(rt; *lent, 9);
    let kept = PooledConnection::extensions_mut(&mut lent);
    assert!(rt; kept.insert(Kept::Word('w')) == Ok(None));
    let kept: &Extensions<Kept> = PooledConnection::extensions(&lent);
    assert!(rt; kept.get(&Kind::OfNumber) == Some(&Kept::Number(1)));
    assert!(rt; kept.get(&Kind::OfWord) == Some(&Kept::Word('w')));
    assert!(rt; pool.try_get()?.is_none());
    // A connection of 0 has broken.
    replace(&mut lent, 0);
    drop(lent);
    assert_eq!(rt; listener.counts(), [1, 2, 2, 1, 1, 0, 0]);
    Ok(())
}

#[test]
fn waits_in_vain(rt: HostRuntime) -> Result<(), Fail> {
    let (pool, listener) = heard_pool(rt)?;
    let _lent = pool.get_timeout(Duration::from_secs(5))?;
    let refused: Error = pool.get_timeout(Duration::from_millis(5)).err().ok_or("found")?;
    assert_eq!(rt; (refused.kind(), refused.message()), (ErrorKind::Timeout, None));
    assert!(rt; refused.kind() != ErrorKind::Memory && refused.kind() != ErrorKind::Threads);
    assert_eq!(rt;
        refused.to_string(rt.alloc())?.as_str(),
        "timed out waiting for connection"
    );
    assert_eq!(rt; listener.counts(), [1, 1, 0, 0, 0, 1, 0]);
    Ok(())
}

#[test]
fn answers_its_settings(rt: HostRuntime) -> Result<(), Fail> {
    let pool = Plain::new(rt, Numbers)?;
    assert_eq!(rt; (pool.max_size(), pool.min_idle()), (10, None));
    assert!(rt; pool.test_on_check_out());
    assert_eq!(rt; pool.max_lifetime(), Some(Duration::from_secs(1800)));
    assert_eq!(rt; pool.idle_timeout(), Some(Duration::from_secs(600)));
    assert_eq!(rt; pool.connection_timeout(), Duration::from_secs(30));

    let builder = Plain::<HostRuntime>::builder().event_handler(Silent);
    let pool = builder.max_size(2).build_unchecked(rt, Numbers)?;
    assert_eq!(rt; pool.max_size(), 2);
    Ok(())
}

#[test]
fn a_user_of_its_contracts(rt: HostRuntime) -> Result<(), Fail> {
    let unfit = Settings::new().max_size(2).min_idle(Some(3));
    assert!(rt; build_checked(unfit, rt, Numbers)?.is_none());
    let fit = Settings::new().max_size(2).journal_room(8);
    let pool = build_checked(fit, rt, Numbers)?.ok_or("no pool")?;
    assert!(rt; can_serve(&pool, 2) && !can_serve(&pool, 3));
    let _lent = pool.get()?;
    let (connections, lent) = (2, 1);
    assert_eq!(rt; load_of(&pool), Load { connections, lent });
    let report = audit(&pool)?.ok_or("records were dropped")?;
    assert_eq!(rt; (report.records.len(), report.lent.len()), (3, 1));
    assert_eq!(rt; pool.journal()?.lost, 0);
    Ok(())
}
