// What a story says, against the report that it tells.

use crate::books::{ms, played, seeded, values};
use pool_reports::story::{Coming, Counts, Ending, Life, Story, Use, story_to_json};
use r2d2_core::Report;
use std::test::Fail;
use std::time::Duration;

// Whether these connections are still idle, or lent, whatever their order.
fn are_still(story: &Story, what: Use, ids: &[u64]) -> bool {
    let still = || story.lives.iter().filter(|life| life.is_still(what));
    still().count() == ids.len() && still().all(|life| ids.contains(&life.id))
}

// Whether the story ends with what the report shows.
fn ends_as(story: &Story, report: &Report) -> bool {
    let is_full = report.lent.len() as u32 + report.pending >= report.limits.max_size();
    let counts = Counts {
        at: story.to,
        idle: report.idle.len() as u32,
        connections: report.connections,
        pending: report.pending,
        is_exhausted: is_full && !report.closed,
    };
    are_still(story, Use::Idle, report.idle.as_slice())
        && are_still(story, Use::Lent, report.lent.as_slice())
        && story.last_counts() == Some(counts)
        && story.closed == report.closed
}

// Whether a connection's stretches follow one another from birth to end, and change each time.
fn is_whole(life: &Life, to: Duration) -> bool {
    let (mut at, mut latest) = (life.birth, None);
    life.stretches.iter().all(|it| {
        // One that did not come in the report is known from its first stretch on.
        let begins = it.from == at || latest.is_none() && life.coming != Coming::Admitted;
        let follows = at <= it.from && latest != Some(it.what);
        (at, latest) = (it.to, Some(it.what));
        begins && follows && it.from <= it.to
    }) && at == life.ending.map_or(to, |ending| ending.at)
}

#[test]
fn each_story_ends_as_its_report(rt: HostRuntime) -> Result<(), Fail> {
    for seed in 0..1600 {
        let room = [0, 1, 9, 300][seed as usize % 4];
        let report = seeded(rt.alloc(), seed, 200, room)?;
        let story = Story::of(rt.alloc(), &report, None)?;
        assert!(rt; ends_as(&story, &report), "{seed} at {room}");
        let are_whole = story.lives.iter().all(|life| is_whole(life, story.to));
        assert!(rt; are_whole, "{seed} at {room}");
        assert_eq!(rt; story.counts.len(), report.records.len() + 1);
    }
    Ok(())
}

// With two records exchanged and one left out, one mostly does not replay.
#[test]
fn a_report_that_does_not_replay_is_told_as_far_as_it_goes(rt: HostRuntime) -> Result<(), Fail> {
    let mut strange: u32 = 0;
    for seed in 0..200 {
        let mut report = seeded(rt.alloc(), seed, 200, 50)?;
        let count = report.records.len();
        if count > 0 {
            let place = seed as usize * 7 % count;
            report.records.swap(place, seed as usize * 13 % count);
            report.records.remove(place);
        }
        strange += u32::from(!report.replays()?);
        let story = Story::of(rt.alloc(), &report, None)?;
        assert!(rt; story.lives.iter().all(|life| is_whole(life, story.to)), "{seed}");
        assert!(rt; story_to_json(rt.alloc(), &report, None)?.as_str().ends_with("}"));
    }
    assert!(rt; strange > 100, "{strange}");
    Ok(())
}

// Of two the newer one is lent and kept, and lent and closed; a reap closes the other one.
#[test]
fn tells_what_became_of_each(rt: HostRuntime) -> Result<(), Fail> {
    let deeds = "10 open 20 take 30 open 40 keep 50 take 60 break 130 reap 140 open close";
    let pool = format!(in rt.alloc(); "2 1 100 - 100: {deeds}")?;
    let report = played(rt.alloc(), pool.as_str())?;
    let story = Story::of(rt.alloc(), &report, None)?;
    let (begin, end) = (ms(0), ms(140));
    assert_eq!(rt; (story.from, story.to, story.length()), (begin, end, end));
    assert_eq!(rt; (story.closed, story.closing), (true, Some(end)));
    let first = &story.lives[0];
    let birth = (first.id, first.birth, first.coming);
    assert_eq!(rt; birth, (0, ms(10), Coming::Admitted));
    let ends = story.lives.iter().flat_map(|life| life.ending);
    let ends: Vec<Ending> = ends.collect(rt.alloc())?;
    let told = values(rt.alloc(), &first.stretches.as_slice())?;
    let stretches = "Stretch Idle 10ms 20ms Stretch Lent 20ms 40ms Stretch Idle 40ms 50ms \
        Stretch Lent 50ms 60ms";
    assert_eq!(rt; (told.as_str(), story.lives.len()), (stretches, 3));
    let told = values(rt.alloc(), &ends.as_slice())?;
    let ends = "Ending 60ms Closed Ending 130ms Reaped Ending 140ms ClosedAll";
    assert_eq!(rt; told.as_str(), ends);
    Ok(())
}

// What a page draws: a step for the base and for each record, and a lane for each connection.
#[test]
fn a_story_has_this_text(rt: HostRuntime) -> Result<(), Fail> {
    let report = played(rt.alloc(), "1 1 9: 10 open 20 take 30 break")?;
    let text = concat!(
        r#"{"limits":{"max_size":1,"min_idle":1,"max_lifetime":null,"idle_timeout":null,"#,
        r#""connection_timeout":30000000000,"reap_every":30000000000,"order":"newest_first"},"#,
        r#""wanted":1,"steps":[[0,0,0,1,1,"base",null,null],"#,
        r#"[10000000,0,1,0,0,"admitted",0,null],[20000000,1,0,0,1,"taken",0,0],"#,
        r#"[30000000,0,0,1,1,"closed",0,1]],"#,
        r#""lanes":[{"id":0,"birth":10000000,"came":"admitted","#,
        r#""stretches":[["idle",10000000,20000000],["lent",20000000,30000000]],"#,
        r#""end":["closed",30000000]}],"left_out":0}"#,
    );
    assert_eq!(rt; story_to_json(rt.alloc(), &report, Some(ms(40)))?.as_str(), text);
    Ok(())
}

// Of more connections than have lanes the newest are drawn.
#[test]
fn the_oldest_lanes_are_left_out(rt: HostRuntime) -> Result<(), Fail> {
    let report = played(rt.alloc(), "1 1 9000: open +1 take +1 break +8 x1003")?;
    let text = story_to_json(rt.alloc(), &report, None)?;
    assert!(rt; text.as_str().contains(r#""lanes":[{"id":3,"#));
    assert!(rt; text.as_str().ends_with(r#""left_out":3}"#));
    Ok(())
}
