// The text, as a whole.

use pool_metrics::{Closings, Distribution, Reading, Scale, Snapshot, write};
use r2d2::Status;
use std::fmt;
use std::process::Abort;
use std::test::Fail;
use std::time::{Duration, SystemTime};

/// Of a pool of three, one of which is lent.
pub(crate) fn reading(pool: &str, snapshot: Snapshot) -> Reading<'_> {
    let status = Status {
        max_size: 5,
        wanted: 4,
        connections: 3,
        idle: 2,
        lent: 1,
        opening: 2,
        workers: None,
        waiting: 7,
        waiting_since: Some(Duration::from_secs(8)),
        failed_openings: 48,
        failed_checks: 6,
        refused: 9,
        timeouts: 10,
        latest_failure: Some(Duration::from_secs(11)),
        closed: false,
    };
    Reading {
        pool,
        status,
        snapshot,
    }
}

fn snapshot() -> Snapshot {
    let waits = [6, 0, 1, 0, 0, 0, 0, 0, 0, 0, 0, 0, 0, 2];
    let ages = [0, 0, 0, 0, 0, 0, 9, 0, 0, 0, 0, 0, 0, 0];
    let timed_out = [0, 0, 0, 0, 0, 0, 0, 0, 5, 0, 0, 0, 3, 0];
    Snapshot {
        opened: 12,
        // For each reason another count.
        closed: Closings {
            broken: 1,
            check_failed: 2,
            distrusted: 3,
            lifetime: 4,
            idle: 5,
            evicted: 6,
            detached: 7,
            pool_closed: 8,
        },
        timeouts: 8,
        errors: None,
        latest_error: None,
        latest_error_at: None,
        longest_loan: Duration::from_millis(90_500),
        timed_out_waits: Distribution::of(Scale::Short, timed_out, 95_000_000_000),
        waits: Distribution::of(Scale::Short, waits, 61_000_000_001),
        uses: Distribution::of(Scale::Short, [0; 14], 0),
        ages: Distribution::of(Scale::Long, ages, 9_900_000_000_000),
        openings: None,
    }
}

// The same, where so many errors were heard of, the latest at this moment.
fn heard(errors: u64, nanos: u64) -> Snapshot {
    let mut seen = snapshot();
    (seen.errors, seen.latest_error) = (Some(errors), Some(Duration::from_millis(1250)));
    seen.latest_error_at = Some(SystemTime::UNIX_EPOCH + Duration::from_nanos(nanos));
    seen
}

/// The page of these readings.
pub(crate) fn text(rt: HostRuntime, readings: &[Reading<'_>]) -> Result<String, Fail> {
    let mut text = String::new(rt.alloc());
    write(readings, &mut text)?;
    Ok(text)
}

// Of each metric its kind, its name, its values, behind those of their labels, and what it says.
const WHOLE: &str = "
    gauge count idle=2 used=1: Connections that are idle, and that are used.
    gauge max 5: How many connections the pool may have.
    gauge idle_min 4: How many connections the pool tries to keep idle.
    gauge pending_requests 7: Callers that wait now.
    gauge pending_openings 2: Openings not done yet, including failed ones to be retried.
    gauge longest_loan_seconds 90.5: How long the longest current loan has lasted.
    counter timeouts_total 8: Callers that timed out.
    counter failed_openings_total 48: Openings that failed, or whose connection was refused.
    counter failed_checks_total 6: Checks of connections that failed.
    counter rejected_total 9: Callers refused at once, since max_waiting callers waited.
    counter opened_total 12: Connections that were opened.
    counter closed_total broken=1 check_failed=2 distrusted=3 lifetime=4 idle=5 evicted=6 \
        detached=7 pool_closed=8: \
        Connections that left the pool, by the reason: a detached one was not closed.
    histogram wait_time_seconds 0.001=6 0.005=6 0.01=7 0.025=7 0.05=7 0.1=7 0.25=7 0.5=7 1=7 \
        2.5=7 5=7 10=7 30=7 +Inf=9 sum=61.000000001 count=9: \
        How long callers waited for the connections that they got.
    histogram timed_out_wait_time_seconds 0.001=0 0.005=0 0.01=0 0.025=0 0.05=0 0.1=0 0.25=0 0.5=0 \
        1=5 2.5=5 5=5 10=5 30=8 +Inf=8 sum=95 count=8: \
        How long callers waited that got no connection: the timeouts of their calls.
    histogram use_time_seconds 0.001=0 0.005=0 0.01=0 0.025=0 0.05=0 0.1=0 0.25=0 0.5=0 1=0 \
        2.5=0 5=0 10=0 30=0 +Inf=0 sum=0 count=0: \
        How long connections were used before they came back.
    histogram age_seconds 1=0 10=0 30=0 60=0 300=0 600=0 1800=9 3600=9 7200=9 21600=9 \
        43200=9 86400=9 604800=9 +Inf=9 sum=9900 count=9: \
        How old connections were when they left the pool.";

const PREFIX: &str = "db_client_connection";

// What follows on a metric's name where a value has this label, and the label's name.
fn label_of(metric: &str, label: &str) -> (&'static str, &'static str) {
    match (metric, label) {
        (_, "") => ("", ""),
        (_, "sum") => ("_sum", ""),
        (_, "count") => ("_count", ""),
        ("count", _) => ("", "db_client_connection_state"),
        ("closed_total", _) => ("", "reason"),
        _ => ("_bucket", "le"),
    }
}

// The lines of a metric of a pool: its name, and its values behind those of their labels.
fn write_lines(page: &mut String, pool: &str, metric: &str) -> Result<(), Fail> {
    let (name, values) = metric.split_once(' ').ok_or("values")?;
    for value in values.split(' ') {
        let (label, value) = value.split_once('=').unwrap_or(("", value));
        let (end, key) = label_of(name, label);
        write!(page, "{PREFIX}_{name}{end}{{{PREFIX}_pool_name=\"{pool}\"")?;
        if !key.is_empty() {
            write!(page, ",{key}=\"{label}\"")?;
        }
        writeln!(page, "}} {value}")?;
    }
    Ok(())
}

/// The page has these lines, one after another, of metrics of pools.
pub(crate) fn tells<R: AllocGlobal + Abort>(rt: &R, page: &str, told: &str) -> Result<(), Fail> {
    let mut lines = String::new(rt.alloc());
    for metric in told.split(", ") {
        let (pool, metric) = metric.split_once(' ').ok_or("a metric")?;
        write_lines(&mut lines, pool, metric)?;
    }
    assert!(rt; page.contains(lines.as_str()), "{lines} in {page}");
    Ok(())
}

// The page of a pool of which these metrics are known.
fn page_of(rt: HostRuntime, metrics: &str) -> Result<String, Fail> {
    let mut page = String::new(rt.alloc());
    for metric in metrics.trim().lines() {
        let (kind, metric) = metric.trim().split_once(' ').ok_or("a kind")?;
        let (metric, help) = metric.split_once(": ").ok_or("what it says")?;
        let (name, _) = metric.split_once(' ').ok_or("a name")?;
        writeln!(page, "# HELP {PREFIX}_{name} {help}")?;
        writeln!(page, "# TYPE {PREFIX}_{name} {kind}")?;
        write_lines(&mut page, "orders", metric)?;
    }
    Ok(page)
}

#[test]
fn the_whole_text(rt: HostRuntime) -> Result<(), Fail> {
    let page = text(rt, &[reading("orders", snapshot())])?;
    assert_eq!(rt; page.as_str(), page_of(rt, WHOLE)?.as_str());
    // Who can not be written to is told.
    assert!(rt; write(&[reading("orders", snapshot())], &mut Shut).is_err());
    Ok(())
}

// Only one of the two has a manager that is timed.
#[test]
fn each_metric_stands_once_for_all_pools(rt: HostRuntime) -> Result<(), Fail> {
    let openings = [12, 0, 0, 0, 0, 0, 0, 0, 0, 0, 0, 0, 0, 0];
    let mut timed = snapshot();
    timed.openings = Some(Distribution::of(Scale::Short, openings, 3_500_000));
    let readings = [reading("orders", snapshot()), reading("users", timed)];
    let page = text(rt, &readings)?;
    assert_eq!(rt; page.as_str().matches("# TYPE").count(), 17);
    tells(&rt, page.as_str(), "orders max 5, users max 5")?;
    tells(&rt, page.as_str(), "users create_time_seconds sum=0.0035 count=12")?;
    let other = "_create_time_seconds_count{db_client_connection_pool_name=\"orders\"}";
    assert!(rt; !page.as_str().contains(other));
    Ok(())
}

const NANOS: u64 = 1_796_000_000_012_345_000;

const LATEST: &str = "
    gauge latest_error_timestamp_seconds 1796000000.012345: \
        When the latest of these errors came, in seconds since 1970.";

// Where a handler tells of them: with the wall clock or without it, before the first one, and of
// one pool or both.
#[test]
fn errors_are_printed_of_each_pool_that_counts_them(rt: HostRuntime) -> Result<(), Fail> {
    let (seen, other) = (heard(54, NANOS), heard(3, 2 * NANOS));
    let (mut timeless, mut none) = (seen, heard(0, NANOS));
    (timeless.latest_error_at, none.latest_error_at) = (None, None);
    none.latest_error = None;
    let page = text(rt, &[reading("orders", seen)])?;
    assert!(rt; page.as_str().contains(page_of(rt, LATEST)?.as_str()));
    for (orders, users, counts, told) in [
        (seen, snapshot(), [1, 1], "orders errors_total 54"),
        (timeless, snapshot(), [1, 0], "orders errors_total 54"),
        (none, snapshot(), [1, 0], "orders errors_total 0"),
        (snapshot(), seen, [1, 1], "users errors_total 54"),
        (other, seen, [2, 2], "orders errors_total 3, users errors_total 54"),
    ] {
        let page = text(rt, &[reading("orders", orders), reading("users", users)])?;
        tells(&rt, page.as_str(), told)?;
        let names = ["_errors_total{", "_error_timestamp_seconds{"];
        assert_eq!(rt; names.map(|name| page.as_str().matches(name).count()), counts, "{told}");
        assert_eq!(rt; page.as_str().contains("latest_error"), counts[1] > 0, "{told}");
    }
    let page = text(rt, &[reading("orders", other), reading("users", seen)])?;
    let latest = "orders latest_error_timestamp_seconds 3592000000.02469, \
        users latest_error_timestamp_seconds 1796000000.012345";
    tells(&rt, page.as_str(), latest)
}

#[test]
fn a_name_is_escaped(rt: HostRuntime) -> Result<(), Fail> {
    let text = text(rt, &[reading("a\\n\"b\"\nß", snapshot())])?;
    tells(&rt, text.as_str(), "a\\\\n\\\"b\\\"\\nß max 5")?;
    // The line feed of the name begins no line.
    let mut lines = text.as_str().lines();
    assert!(rt; lines.all(|line| line.starts_with("db_client_") || line.starts_with("# ")));
    Ok(())
}

/// Takes nothing.
#[derive(Drop)]
struct Shut;

impl fmt::Write for Shut {
    fn write_str(&mut self, _text: &str) -> fmt::Result {
        Err(fmt::Error)
    }
}
