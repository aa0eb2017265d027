// What a pool does to its book, and to one that counts.
use super::user_types::{Kept, Kind, Numbers, Silent};
use crate::engine::limits_of;
use r2d2::engine::{
    Counted, Outcome, Payload, Settled, Wakes, give_back, lend, lend_counted, open, settle, sweep,
};
use r2d2::journal::Book;
use r2d2::machine::{Returned, Take};
use r2d2::schedule::Job;
use std::alloc::Global;
use std::marker::Brand;
use std::sync::ledger::Blank;
use std::test::Fail;
use std::time::Duration;

fn book(alloc: Global) -> Result<Book<u32>, Fail> {
    Ok(Book::new(alloc, limits_of(1, None)?, Duration::ZERO, 8)?)
}

#[test]
fn engine(rt: HostRuntime) -> Result<(), Fail> {
    let (zero, soon) = (Duration::ZERO, Duration::from_millis(1));
    let mut book = book(rt.alloc())?;
    assert_eq!(rt; book.begin(zero), Job::Open { tries: 0 });
    assert_eq!(rt; book.number(0), Ok(0));
    let value = open(&Numbers, &Silent)?;
    let (settled, wakes) = settle(&mut book, zero, Outcome::Opened { id: 0, value });
    assert!(rt; matches!(settled, Settled::Admitted));
    let (caller, workers) = (true, false);
    assert_eq!(rt; wakes, Wakes { caller, workers });
    let (taken, _) = lend(&mut book, soon, true);
    assert!(rt; matches!(taken, Take::Found { id: 0, value: 7, .. }));
    let (returned, _) = give_back(&mut book, soon, 0, 7, false);
    assert!(rt; matches!(returned, Ok(Returned::Kept)));
    let mut released = Vec::with_capacity(rt.alloc(), book.limits().max_size() as usize)?;
    let (ordered, _) = sweep(&mut book, Duration::from_secs(2), &mut released);
    assert_eq!(rt; (ordered, released.len()), (1, 1));

    let payload = Payload::<u32, Kept>::new(rt.alloc(), 7);
    assert_eq!(rt; payload.connection, 7);
    assert!(rt; payload.extensions.get(&Kind::OfWord) == None);
    Ok(())
}

#[test]
fn counted_books(rt: HostRuntime) -> Result<(), Fail> {
    let (zero, soon) = (Duration::ZERO, Duration::from_millis(1));
    let (total, mut all) = Blank::new(1).open::<Brand>();
    let mut counted: Counted<u32, Brand> = Counted::new(book(rt.alloc())?, total);
    assert_eq!(rt; counted.begin(zero), Job::Open { tries: 0 });
    assert_eq!(rt; counted.number(0), Ok(0));
    let value = open(&Numbers, &Silent)?;
    let (settled, _) = counted.settle(zero, Outcome::Opened { id: 0, value });
    assert!(rt; matches!(settled, Settled::Admitted));
    assert!(rt; counted.take_error().is_none());
    let (taken, _) = lend_counted(&mut counted, soon, true, &mut all);
    assert!(rt; matches!(taken, Take::Found { id: 0, value: 7, .. }));
    let (returned, _) = counted.give_back(soon, 0, 7, false);
    assert!(rt; matches!(returned, Ok(Returned::Kept)));
    let takes = (counted.report()?.takes, counted.audit(&mut all)?.takes);
    assert_eq!(rt; takes, (1, 1));
    let room = counted.book().limits().max_size() as usize;
    let mut released = Vec::with_capacity(rt.alloc(), room)?;
    let (ordered, _) = counted.sweep(Duration::from_secs(2), &mut released);
    assert_eq!(rt; (ordered, released.len()), (1, 1));
    assert!(rt; counted.close().next().is_none());
    Ok(())
}
