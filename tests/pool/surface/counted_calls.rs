// A pool that counts its takes.
use super::pool_uses::lend_twice_and_audit;
use super::user_types::{Kept, Kind, Numbers, Settings};
use r2d2::{
    CountedConnection, CountedPool, NopConnectionCustomizer, NopErrorHandler, NopEventHandler,
};
use std::marker::Brand;
use std::sync::ledger::Blank;
use std::test::Fail;
use std::time::Duration;

type CountedNumbers<R, L> = CountedPool<
    Numbers,
    NopErrorHandler,
    NopEventHandler,
    NopConnectionCustomizer,
    R,
    L,
>;

#[test]
fn counted_pools(rt: HostRuntime) -> Result<(), Fail> {
    let (total, mut all) = Blank::new(1).open::<Brand>();
    let builder = Settings::new().max_size(1).journal_room(8);
    let pool: CountedNumbers<HostRuntime, Brand> = builder.build_counted(rt, Numbers, total)?;
    let other = pool.try_clone()?;
    let mut lent = other.get(&mut all)?;
    assert_eq!(rt; *lent, 7);
    *lent = 9;
    let kept = CountedConnection::extensions_mut(&mut lent).insert(Kept::Number(1));
    assert!(rt; kept == Ok(None));
    let kept = CountedConnection::extensions(&lent).get(&Kind::OfNumber);
    assert!(rt; kept == Some(&Kept::Number(1)));
    let shown = format!(in rt.alloc(); "{lent:?}")?;
    assert_eq!(rt; shown.as_str(), "9");
    drop(lent);

    let lent = pool.try_get(&mut all)?.ok_or("none is idle")?;
    let state = pool.state();
    assert_eq!(rt; (*lent, state.connections, state.idle_connections), (9, 1, 0));
    drop(lent);
    drop(pool.get_timeout(Duration::from_secs(5), &mut all)?);
    assert_eq!(rt; (pool.journal()?.takes, pool.audit(&mut all)?.takes), (3, 3));
    assert_eq!(rt; pool.max_size(), 1);
    Ok(())
}

#[test]
fn a_user_of_counted_pools(rt: HostRuntime) -> Result<(), Fail> {
    let (total, mut all) = Blank::new(1).open::<Brand>();
    let pool = Settings::new().build_counted(rt, Numbers, total)?;
    assert_eq!(rt; lend_twice_and_audit(&pool, &mut all)?.takes, 2);
    Ok(())
}
