// The public types as a user writes them out: each field with its type, each case of an enum by its
// name. What compiles here is what such a user's code rests on.
use super::core_calls::limits;
use super::user_types::{Numbers, Settings};
use r2d2::engine::{Outcome, Settled};
use r2d2::journal::{Base, Book, Record, Report};
use r2d2::machine::{Gone, Leftover, Limits, Refusal, Released, Returned, Take};
use r2d2::run::{Answer, Step, run};
use r2d2::schedule::Job;
use r2d2::{Error, ErrorKind, State};
use std::alloc::Global;
use std::test::Fail;
use std::time::Duration;

// The name of a value's case, where all cases are these, with what they have and of which types.
macro_rules! case_of {
    ($value:expr, $type:ident {
        $($case:ident $({ $($field:ident: $of:ty),* })? $(($($part:ident: $is:ty),*))?),*
    }) => {
        match $value {
            $($type::$case $({ $($field),* })? $(($($part),*))? => {
                $($(let _: $of = $field;)*)?
                $($(let _: $is = $part;)*)?
                stringify!($case)
            })*
        }
    };
}

// Takes a value apart, whose fields are these, of these types.
macro_rules! take_apart {
    ($value:expr, $type:ident { $($field:ident: $of:ty),* }) => {
        let $type { $($field),* } = $value;
        $(let _: $of = $field;)*
    };
}

fn name_of_take(take: Take<u32>) -> &'static str {
    case_of!(take, Take {
        Found { id: u64, birth: Duration, value: u32, ordered: u32 },
        Empty { ordered: u32 }
    })
}

fn name_of_job(job: Job) -> &'static str {
    case_of!(job, Job { Open { tries: u32 }, Reap, Wait(due: Duration), Nothing, Closed })
}

fn name_of_refusal(refusal: Refusal) -> &'static str {
    case_of!(refusal, Refusal { Closed, NotLent, NoOpening, IdsUsedUp, NotNumbered })
}

fn name_of_return(returned: Returned<u32>) -> &'static str {
    case_of!(returned, Returned { Kept, Closed { value: u32, age: Duration, ordered: u32 } })
}

fn name_of_gone(gone: Gone) -> &'static str {
    take_apart!(gone, Gone { age: Duration, ordered: u32 });
    "gone"
}

fn name_of_record(record: Record) -> &'static str {
    case_of!(record, Record {
        Taken { at: Duration, id: u64, ordered: u32 },
        Ordered { at: Duration, ordered: u32 },
        Admitted { at: Duration, id: u64 },
        Kept { at: Duration, id: u64 },
        Closed { at: Duration, id: u64, ordered: u32 },
        Reaped { at: Duration, ordered: u32 },
        ClosedAll { at: Duration }
    })
}

fn name_of_outcome(outcome: Outcome<u32>) -> &'static str {
    case_of!(outcome, Outcome {
        Opened { id: u64, value: u32 },
        Failed { tries: u32, text: Option<String> },
        Unsound { id: u64, text: Option<String> }
    })
}

fn name_of_settled(settled: Settled<u32>) -> &'static str {
    case_of!(settled, Settled {
        Admitted,
        Retry(due: Duration),
        Gone(gone: Gone),
        Refused(refusal: Refusal, value: Option<u32>)
    })
}

// Why a call failed. A later kind falls under the last arm.
fn name_of_error(error: &Error) -> &'static str {
    match error.kind() {
        ErrorKind::Timeout => "timeout",
        ErrorKind::Memory => "memory",
        ErrorKind::Threads => "threads",
        _ => "another",
    }
}

fn name_of_left(left: Leftover<u32>) -> &'static str {
    for (id, value) in left {
        let _: (u64, u32) = (id, value);
    }
    "closed"
}

// What a step answered, in words.
fn name_of(answer: Answer<u32>) -> &'static str {
    let refused = |(refusal, _): (Refusal, u32)| name_of_refusal(refusal);
    match answer {
        Answer::Take(take) => name_of_take(take),
        Answer::Begin(job) => name_of_job(job),
        Answer::Number(number) => number.map_or_else(name_of_refusal, |_: u64| "numbered"),
        Answer::Admit(admitted) => admitted.map_or_else(refused, |_: ()| "admitted"),
        Answer::Fail(due) => due.map_or_else(name_of_refusal, |_: Duration| "retry"),
        Answer::FailCheck(gone) => gone.map_or_else(name_of_refusal, name_of_gone),
        Answer::PutBack(returned) => returned.map_or_else(refused, name_of_return),
        Answer::Reap { released, ordered } => {
            let _: (Vec<Released<u32>>, u32) = (released, ordered);
            "reaped"
        }
        Answer::TakeError(text) => text.map_or("no error", |_: String| "error"),
        Answer::Close(left) => name_of_left(left),
    }
}

// One step of each kind.
fn all_steps(alloc: Global) -> Result<Vec<Step<u32>>, Fail> {
    let now = Duration::ZERO;
    let (id, tries, text) = (0, 0, None);
    Ok(vec![in alloc;
        Step::Take { now, or_order: true },
        Step::Begin { now },
        Step::Number { tries },
        Step::Admit { now, id, value: 7 },
        Step::Fail { now, tries, text },
        Step::FailCheck { now, id, text: None },
        Step::PutBack { now, id, value: 7, broken: true },
        Step::Reap { now },
        Step::TakeError,
        Step::Close
    ]?)
}

#[test]
fn steps_and_answers(rt: HostRuntime) -> Result<(), Fail> {
    let (core, answers) = run(rt.alloc(), limits()?, Duration::ZERO, all_steps(rt.alloc())?)?;
    assert!(rt; matches!(answers.get(1), Some(Answer::Begin(Job::Open { tries: 0 }))));
    let names: Vec<&str> = answers.into_iter().map(name_of).collect(rt.alloc())?;
    let expected = [
        "Empty", "Open", "numbered", "admitted", "NoOpening", "NotLent", "NotLent", "reaped",
        "no error", "closed",
    ];
    assert_eq!(rt; names.as_slice(), expected.as_slice());
    assert!(rt; core.is_closed());
    Ok(())
}

#[test]
fn reports_and_records(rt: HostRuntime) -> Result<(), Fail> {
    let mut book: Book<u32> = Book::new(rt.alloc(), limits()?, Duration::ZERO, 4)?;
    let _ = book.take(Duration::ZERO, true);
    let report: Report = book.report()?;
    take_apart!(report, Report {
        limits: Limits, base: Base, records: Vec<Record>, lost: u64, takes: u64, idle: Vec<u64>,
        lent: Vec<u64>, connections: u32, pending: u32, closed: bool
    });
    let names: Vec<&str> = records.into_iter().map(name_of_record).collect(rt.alloc())?;
    assert_eq!(rt; names.as_slice(), ["Ordered"].as_slice());
    assert_eq!(rt; (idle.len(), lent.len()), (0, 0));
    take_apart!(base, Base {
        at: Duration, idle: Vec<(u64, Duration, Duration)>, lent: Vec<(u64, Duration)>,
        connections: u32, pending: u32, closed: bool
    });
    assert_eq!(rt; (idle.len(), lent.len()), (0, 0));
    Ok(())
}

#[test]
fn what_an_engine_answers(rt: HostRuntime) -> Result<(), Fail> {
    let text = None;
    assert_eq!(rt; name_of_outcome(Outcome::Unsound { id: 0, text }), "Unsound");
    assert_eq!(rt; name_of_settled(Settled::Retry(Duration::ZERO)), "Retry");
    Ok(())
}

#[test]
fn errors_and_counts(rt: HostRuntime) -> Result<(), Fail> {
    let pool = Settings::new().max_size(1).build(rt, Numbers)?;
    let _lent = pool.get()?;
    let error = pool.get_timeout(Duration::ZERO).err().ok_or("lent twice")?;
    assert_eq!(rt; name_of_error(&error), "timeout");
    let message: Option<&str> = error.message();
    assert!(rt; message.is_none());
    let State { connections, idle_connections, .. } = pool.state();
    let counts: (u32, u32) = (connections, idle_connections);
    assert_eq!(rt; counts, (1, 0));
    Ok(())
}
