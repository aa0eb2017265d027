// Pools with a trouble, and what is to be said first of it: the cause, and not what comes of it.

use crate::service::{Service, first_of};
use crate::world::Host;
use std::process::Abort;
use std::test::Fail;
use std::time::Duration;

// One of eight, called in each second, of which nothing was to be said in the first two minutes.
fn service<R: Host + Abort>(rt: R) -> Result<Service<R>, Fail> {
    let mut service = Service::new(rt, (8, 150), |_| {})?;
    service.plays("each 500 2 - 500; go 120000, says Well")?;
    Ok(service)
}

// One caller of 50 gives nothing back. The first one is late from the second report on.
#[test]
fn leak(rt: HostRuntime) -> Result<(), Fail> {
    let mut service = Service::new(rt, (8, 100), |_| {})?;
    for second in 1..721 {
        service.plays(if second % 50 == 0 { "each 500 2 - -" } else { "each 500 2 - 1000" })?;
        service.plays("crowd 1, rest 500 1000")?;
        if second % 60 == 0 {
            service.plays(if second < 80 { "report" } else { "says LentForLong" })?;
        }
    }
    Ok(())
}

// The server refuses all from the second minute on. What was open then is closed at first.
#[test]
fn down(rt: HostRuntime) -> Result<(), Fail> {
    let mut service = service(rt)?;
    service.plays("lose; connects -*; go 2000, says OpeningsFail")?;
    service.plays("go 8000, says OpeningsFail; go 30000, says NothingOpens")?;
    service.plays("go 60000, says NothingOpens; go 600000, says NothingOpens")
}

// No loan ends from the second minute on.
#[test]
fn stuck(rt: HostRuntime) -> Result<(), Fail> {
    service(rt)?.plays("each 500 2 - -; go 60000, says LentForLong x5")
}

// The server answers nothing from the second minute on. A check ends with its caller's time.
#[test]
fn silent(rt: HostRuntime) -> Result<(), Fail> {
    let mut service = service(rt)?;
    service.plays("checks ~+*; connects ~+*; go 40000, says ChecksFail")?;
    service.plays("go 40000, says NothingOpens x2")
}

// Exhausted for 97 % of the time, and everybody is served in time.
#[test]
fn exhausted(rt: HostRuntime) -> Result<(), Fail> {
    let mut service = Service::new(rt, (4, 150), |_| {})?;
    service.plays("rest 100 1000; each 100 1 - 9700")?;
    for _ in 0..20 {
        service.plays("crowd 8, rest 100 20000 x3; only OftenExhausted")?;
    }
    Ok(())
}

// Callers who wait for 50 ms, where a loan takes 200 and four come at a time for two connections.
#[test]
fn many_short_timeouts(rt: HostRuntime) -> Result<(), Fail> {
    for (patience, says) in [(30_000, "says TimedOut"), (50, "says WasExhausted")] {
        let mut service = Service::new(rt, (2, 300), |own| own.connection_timeout = patience)?;
        service.plays("rest 10 20; each 25 1 50 200")?;
        for _ in 0..5 {
            service.plays("crowd 4, rest 25 1000 x60")?;
            service.plays(says)?;
        }
    }
    Ok(())
}

// Each second connection is broken as it comes back.
#[test]
fn churn(rt: HostRuntime) -> Result<(), Fail> {
    let mut service = Service::new(rt, (8, 150), |_| {})?;
    service.plays("breaks -+%; each 500 2 - 500; go 60000, only Churn x10")
}

// Three outages of 5.5 s in an hour; callers wait or try again. Counts may reach beyond records.
fn outages<R: Host + Abort>(rt: R, calls: &'static str, room: usize) -> Result<(), Fail> {
    let (mut service, mut outage) = (Service::new(rt, (8, room), |_| {})?, None);
    service.plays(calls)?;
    service.call.retries = 20;
    for minute in 0..60 {
        service.plays("go 20000")?;
        if minute % 20 == 9 {
            outage = Some(service.moment());
            service.plays("lose; connects -*; go 5500; connects 5~+*")?;
        }
        service.plays("go 40000")?;
        let said = service.report()?;
        let first = first_of(rt.alloc(), &said)?;
        let is_told = outage.is_some_and(|at| said.from <= at && at <= said.until);
        let begins = first.as_str() == "OpeningsFail";
        assert!(rt; begins || !is_told, "{calls} {room} {minute}");
        let since = said.calls.map_or(Duration::ZERO, |calls| calls.since);
        let is_told = is_told || outage.is_some_and(|at| since <= at);
        assert!(rt; is_told || first.as_str() == "Well", "{calls} {room} {minute}");
    }
    Ok(())
}

#[test]
fn down_rarely(rt: HostRuntime) -> Result<(), Fail> {
    outages(rt, "each 500 2 1000 500", 400)?;
    outages(rt, "each 500 2 1000 500", 150)?;
    outages(rt, "each 500 2 - 500", 150)
}

// More call than may wait.
#[test]
fn refused(rt: HostRuntime) -> Result<(), Fail> {
    let mut service = Service::new(rt, (2, 150), |own| own.room = 4)?;
    service.plays("rest 10 20; each 500 1 - 1000")?;
    for _ in 0..5 {
        service.plays("crowd 12, rest 500 10000 x6; says Refused")?;
    }
    Ok(())
}
