// The text of a report: as a reader of the documents expects it, and what is read from it again.

use crate::books::{met, ms, played, seeded};
use pool_reports::{Origin, Waits, from_json, from_json_of_pool, to_json, to_json_of_pool};
use r2d2_core::Report;
use std::alloc::{AllocError, Global};
use std::test::Fail;
use std::time::{Duration, SystemTime};

const TEXT: &str = concat!(
    r#"{"version":1,"limits":{"max_size":2,"min_idle":null,"max_lifetime":60000000000,"#,
    r#""idle_timeout":null,"connection_timeout":30000000000,"reap_every":30000000000,"#,
    r#""order":"newest_first"},"base":{"at":5000000,"idle":[[0,5000000,5000000]],"lent":[],"#,
    r#""connections":1,"pending":1,"closed":false},"records":["#,
    r#"{"kind":"taken","at":6000000,"id":0,"ordered":0},{"kind":"closed_all","at":6000000}],"#,
    r#""lost":1,"takes":1,"idle":[],"lent":[0],"connections":1,"pending":0,"closed":true}"#,
);

#[test]
fn a_report_has_this_text(rt: HostRuntime) -> Result<(), Fail> {
    let report = played(rt.alloc(), "2 - 2 60000: 5 open 6 take close")?;
    assert_eq!(rt; to_json(rt.alloc(), &report)?.as_str(), TEXT);
    assert!(rt; from_json(rt.alloc(), TEXT)?.replays()?);
    Ok(())
}

// White space and the order of fields do not matter, and small nanoseconds may be digits too.
#[test]
fn a_text_may_be_laid_out_otherwise(rt: HostRuntime) -> Result<(), Fail> {
    let text = r#" {"base": {"closed": false, "at": "7", "idle": [], "lent": [],
        "connections": 0, "pending": 1}, "records": [ ],
        "limits": {"order": "newest_first", "max_size": 1, "min_idle": 1, "max_lifetime": null,
        "idle_timeout": null, "connection_timeout": 1, "reap_every": 1},
        "lost": 0, "takes": 0, "idle": [], "lent": [], "connections": 0, "pending": 1,
        "closed": false, "version": 1}"#;
    let report = from_json(rt.alloc(), text)?;
    assert_eq!(rt; report.base.at, Duration::from_nanos(7));
    assert!(rt; report.replays()?);
    Ok(())
}

// All that a report says.
fn shown(alloc: Global, it: &Report) -> Result<String, AllocError> {
    let base = &it.base;
    let begin = (base.at, base.connections, base.pending, base.closed);
    let numbers = (it.lost, it.takes, it.connections, it.pending, it.closed);
    let mut text = format!(in alloc; "{:?} {begin:?} {numbers:?}", it.limits)?;
    write!(text, "{:?} {:?} {:?}", base.idle, base.lent, it.records)?;
    write!(text, "{:?} {:?}", it.idle, it.lent)?;
    Ok(text)
}

// Whether the report and its origin are what is read from their text, which is one line.
fn goes_round(alloc: Global, report: &Report, origin: Origin<'_>) -> Result<bool, Fail> {
    let text = to_json_of_pool(alloc, report, origin)?;
    let read = from_json_of_pool(alloc, text.as_str())?;
    let is_same = shown(alloc, report)? == shown(alloc, &read.report)?;
    Ok(is_same && read.origin() == origin && !text.as_str().contains('\n'))
}

#[test]
fn reports_at_random_go_round(rt: HostRuntime) -> Result<(), Fail> {
    for seed in 0..600 {
        let report = seeded(rt.alloc(), seed, 60, [0, 3, 200][seed as usize / 200])?;
        assert!(rt; goes_round(rt.alloc(), &report, Origin::unknown())?, "{seed}");
    }
    Ok(())
}

// A report of each kind of record, each field at its greatest. No pool makes it. I stands for the
// greatest id, N for the greatest number of connections, and T for the greatest moment.
const GREATEST: &str = concat!(
    r#"{"version":1,"limits":{"max_size":N,"min_idle":N,"max_lifetime":T,"idle_timeout":T,"#,
    r#""connection_timeout":T,"reap_every":T,"order":"oldest_first"},"base":{"at":BASE,"#,
    r#""idle":[[I,T,T],[0,T,T]],"lent":[[I,T],[0,T]],"connections":N,"pending":N,"closed":true},"#,
    r#""records":[{"kind":"taken","at":T,"id":I,"ordered":N},"#,
    r#"{"kind":"ordered","at":T,"ordered":N},{"kind":"admitted","at":T,"id":I},"#,
    r#"{"kind":"kept","at":T,"id":I},{"kind":"closed","at":T,"id":I,"ordered":N},"#,
    r#"{"kind":"reaped","at":T,"ordered":N},{"kind":"closed_all","at":T}],"#,
    r#""lost":I,"takes":I,"idle":[I,0],"lent":[0,I],"connections":N,"pending":N,"closed":true}"#,
);

// So do moments round the nanoseconds up to which a number is written.
#[test]
fn the_greatest_numbers_go_round(rt: HostRuntime) -> Result<(), Fail> {
    let (alloc, edge) = (rt.alloc(), Duration::from_nanos(u64::MAX));
    let (nano, longest) = (Duration::from_nanos(1), "\"18446744073709551615999999999\"");
    for (at, shown) in [
        (Duration::MAX, longest),
        (edge.saturating_sub(nano), "18446744073709551614"),
        (edge, "18446744073709551615"),
        (edge.saturating_add(nano), "\"18446744073709551616\""),
    ] {
        let text = GREATEST.replace(alloc, "BASE", shown)?;
        let text = text.as_str().replace(alloc, "T", longest)?;
        let text = text.as_str().replace(alloc, "N", "4294967295")?;
        let text = text.as_str().replace(alloc, "I", "18446744073709551615")?;
        let report = from_json(alloc, text.as_str())?;
        assert_eq!(rt; (report.base.at, report.takes), (at, u64::MAX));
        assert_eq!(rt; to_json(alloc, &report)?.as_str(), text.as_str());
        assert!(rt; goes_round(alloc, &report, Origin::unknown())?, "{at:?}");
    }
    Ok(())
}

#[test]
fn the_wall_clock_goes_round(rt: HostRuntime) -> Result<(), Fail> {
    let alloc = rt.alloc();
    let report = seeded(alloc, 3, 40, 10)?;
    let plain = to_json(alloc, &report)?;
    for (seconds, text) in [
        (0, "\"created_at\":\"1970-01-01T00:00:00Z\","),
        (1_769_860_800, "\"created_at\":\"2026-01-31T12:00:00Z\","),
        (253_402_207_200, "\"created_at\":\"9999-12-30T22:00:00Z\","),
        // It is above all that can be said.
        (253_402_300_800, ""),
    ] {
        let mut origin = Origin::unknown();
        origin.created_at = SystemTime::UNIX_EPOCH.checked_add(Duration::from_secs(seconds));
        let written = to_json_of_pool(alloc, &report, origin)?;
        let without = written.as_str().replacen(alloc, text, "", 1)?;
        assert_eq!(rt; without.as_str(), plain.as_str(), "{text}");
        let goes = goes_round(alloc, &report, origin)?;
        assert_eq!(rt; goes, !text.is_empty(), "{text}");
        let read = from_json(alloc, written.as_str())?;
        assert_eq!(rt; to_json(alloc, &read)?.as_str(), plain.as_str());
    }
    Ok(())
}

// So do what callers met, the latest error, and since when connections are lent.
#[test]
fn what_callers_met_goes_round(rt: HostRuntime) -> Result<(), Fail> {
    let report = seeded(rt.alloc(), 3, 40, 10)?;
    let bare = met(|it| {
        (it.connection_timeout, it.waiting) = (ms(1), u64::MAX);
        (it.timeouts, it.refused) = (1, 2);
        (it.failed_openings, it.failed_checks) = (3, 4);
    });
    let mut full = bare;
    (full.waiting_since, full.latest_failure) = (Some(Duration::MAX), Some(ms(5)));
    let (bound, longer, all) = (Duration::MAX, 6, u64::MAX);
    full.waits = Some(Waits { bound, longer, all });
    let loans = [(u64::MAX, ms(7)), (0, Duration::MAX)];
    let error = Origin::unknown().with_error("no\n\"route\"");
    for status in [bare, full] {
        for loans in [&loans[..], &[]] {
            let origin = error.with_status(status).with_loans(loans);
            let goes = goes_round(rt.alloc(), &report, origin)?;
            assert!(rt; goes, "{origin:?}");
        }
    }
    Ok(())
}

// The name of a pool and the moment of a report go round, whatever they are.
#[test]
fn the_origin_goes_round(rt: HostRuntime) -> Result<(), Fail> {
    let report = seeded(rt.alloc(), 3, 40, 10)?;
    let created_at = SystemTime::UNIX_EPOCH.checked_add(ms(100));
    for name in ["orders", "", "a\"b\\c\n\u{e9}{", "\"records\":["] {
        for at in [Duration::ZERO, ms(7), Duration::MAX] {
            let mut origin = Origin::at(created_at, at).named(name);
            let its = (origin.name, origin.created_at, origin.reported_at);
            assert_eq!(rt; its, (Some(name), created_at, Some(at)));
            origin.created_at = None;
            assert!(rt; goes_round(rt.alloc(), &report, origin)?, "{name}");
        }
    }
    Ok(())
}
