// Pools of which nothing is to be said.

use crate::kinds::Settings;
use crate::service::Service;
use std::test::Fail;

// At half of its size for an hour, by a call in each second.
#[test]
fn well(rt: HostRuntime) -> Result<(), Fail> {
    let mut service = Service::new(rt, (8, 150), |_| {})?;
    service.plays("each 500 2 - 4000; go 60000, says Well x60")
}

// The same, where callers wait for no longer than a loan takes.
#[test]
fn well_with_little_patience(rt: HostRuntime) -> Result<(), Fail> {
    let mut service = Service::new(rt, (8, 150), |own| own.connection_timeout = 250)?;
    service.plays("rest 50 100; each 50 2 - 400; go 10000, says Well x10")
}

// Sixteen calls within a third of a second for eight connections, then none for five minutes.
#[test]
fn burst(rt: HostRuntime) -> Result<(), Fail> {
    for (room, patience) in [(16, 30_000), (16, 1_000), (100, 30_000), (100, 1_000)] {
        let mut service = Service::new(rt, (8, room), |own| own.connection_timeout = patience)?;
        service.plays("rest 20 40; each 20 1 - 150; go 160, says Well x2; rest 20 400")?;
        service.plays("says Well, rest 1000 60000 x5")?;
    }
    Ok(())
}

// Openings are tried again within a second, and some take eight; callers wait for longer.
#[test]
fn short_retries(rt: HostRuntime) -> Result<(), Fail> {
    let mut service = Service::new(rt, (8, 400), |own| {
        (own.max_retry_delay, own.max_lifetime) = (Some(1_000), Some(60_000));
    })?;
    service.plays("each 500 2 - 4000")?;
    for minute in 0..20 {
        service.plays(if minute % 3 == 2 { "connects 8000~+*" } else { "connects 5~+*" })?;
        service.plays("go 60000, says Well")?;
    }
    Ok(())
}

// The first openings are under way.
#[test]
fn a_start(rt: HostRuntime) -> Result<(), Fail> {
    for patience in [250, 30_000] {
        let mut service = Service::new(rt, (8, 100), |own| own.connection_timeout = patience)?;
        service.plays("connects 4000~+*; says Well, rest 100 1000 x12")?;
    }
    Ok(())
}

// Connections are closed for their age as they come back, each at one of its own where that is set.
#[test]
fn old_age(rt: HostRuntime) -> Result<(), Fail> {
    for jitter in [0, 10_000] {
        let aged = |own: &mut Settings| {
            (own.max_lifetime, own.lifetime_jitter) = (Some(30_000), Some(jitter));
        };
        Service::new(rt, (8, 400), aged)?.plays("each 500 2 - 4000; go 60000, says Well x10")?;
    }
    Ok(())
}

// The server was started anew: a check of what it had fails, or one of each connection.
#[test]
fn a_failed_check_after_a_restart(rt: HostRuntime) -> Result<(), Fail> {
    for calls in ["each 500 2 - 1000", "each 500 10 - 1000"] {
        for distrusts in [true, false] {
            let mut service = Service::new(rt, (8, 150), |own| {
                own.evict_idle_on_failed_check = distrusts;
            })?;
            service.plays(calls)?;
            service.plays("go 60000; rest 500 3000; lose; says Well; go 60000, says Well x3")?;
        }
    }
    Ok(())
}

// All that was there is closed, lent or idle, since the server has moved.
#[test]
fn moved(rt: HostRuntime) -> Result<(), Fail> {
    let mut service = Service::new(rt, (8, 150), |_| {})?;
    service.plays("each 500 2 - 8000; go 20000; evict; says Well")?;
    service.plays("each 500 10 - 4000; go 60000, says Well x3")
}

// Callers waited for more than ten of their twenty seconds in the first minutes; later ones do not.
#[test]
fn recovered(rt: HostRuntime) -> Result<(), Fail> {
    let mut service = Service::new(rt, (8, 40), |own| own.connection_timeout = 20_000)?;
    service.plays("rest 500 1000; each 500 2 - 7000; crowd 24, rest 500 60000")?;
    service.plays("says WasExhausted|WaitedLong; each 500 2 30000 1000; go 60000, report")?;
    service.plays("go 60000, says Well x3")
}
