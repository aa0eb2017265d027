// What is told of several reports of a pool.

use crate::tests::{late, meant, said};
use pool_reports::from_json;
use pool_reports::story::story_to_json;
use std::alloc::Global;
use std::test::Fail;

fn story_of(alloc: Global, report: &str) -> Result<String, Fail> {
    let report = from_json(alloc, meant(alloc, report)?.as_str())?;
    Ok(story_to_json(alloc, &report, None)?)
}

// A page has what was found on each report, by pools, in the order in which these came, and the
// story of the latest report of each, unless that does not replay; also of a pool without a name.
#[test]
fn a_page_has_all_reports_of_each_pool(rt: HostRuntime) -> Result<(), Fail> {
    let alloc = rt.alloc();
    let log = "$USERS\n$LENT\n$NEW~'limits'~'name':'a<b','limits'~\n$NEW\n\
        $WRONG~'limits'~'name':'users','limits'~\n";
    let story = story_of(alloc, "$NEW")?;
    let wanted = "{'pools':[{'name':'users','reports':[$0,$4],'last':null},{'name':null,\
        'reports':[$1,$3],'last':$STORY},{'name':'a<b','reports':[$2],'last':$STORY}]}\n= Unsound";
    let wanted = meant(alloc, wanted)?;
    let mut wanted = wanted.as_str().replace(alloc, "$STORY", story.as_str())?;
    let found = said(alloc, "--json", log)?;
    for (place, line) in found.as_str().lines().enumerate() {
        let word = format!(in alloc; "${place}")?;
        wanted = wanted.as_str().replace(alloc, word.as_str(), line)?;
    }
    let page = said(alloc, "--html", log)?;
    assert_eq!(rt; page.as_str(), wanted.as_str());
    let alone = said(alloc, "--html", "$LENT")?;
    assert!(rt; alone.as_str().contains(story_of(alloc, "$LENT")?.as_str()));
    assert_eq!(rt; said(alloc, "--html", "")?.as_str(), "{\"pools\":[]}\n= Sound");
    Ok(())
}

// What callers met is told since the latest report of the same pool that ends where this begins, so
// that it is all they met in the time of the report. A pool that was made anew begins anew.
#[test]
fn tells_what_callers_met_in_the_time_of_a_report(rt: HostRuntime) -> Result<(), Fail> {
    let alloc = rt.alloc();
    let mut log = String::new(alloc);
    for (name, begin, takes, timeouts) in [
        ("a", 9, 10, 4),
        ("b", 9, 10, 3),
        ("a", 10, 15, 9),
        ("a", 10, 16, 9),
        ("a", 11, 17, 9),
        ("a", 12, 17, 8),
    ] {
        let end = begin + 1;
        let told = format!(in alloc; ",'name':'{name}','reported_at':{end}000000000,'status':{{\
            'connection_timeout':5000000000,'waiting':3,'waiting_since':null,'waits':null,\
            'timeouts':{timeouts},'refused':1,'failed_openings':2,'failed_checks':0,\
            'latest_failure':7000000}},'latest_error':'no route'")?;
        writeln!(log, "{}", late(alloc, told.as_str(), begin, takes)?)?;
    }
    let (said, mut told) = (said(alloc, "", log.as_str())?, String::new(alloc));
    for line in said.as_str().lines().filter(|line| line.contains("calls timed out")) {
        writeln!(told, "{line}")?;
    }
    let wanted = "  ! 4 of 15 calls timed out since the pool was created (a concern from 1 on)
  ! 3 of 14 calls timed out since the pool was created (a concern from 1 on)
  ! 5 of 10 calls timed out since 10 s after the creation (a concern from 1 on)
  ! 5 of 11 calls timed out since 10 s after the creation (a concern from 1 on)
  ! 8 of 26 calls timed out since the pool was created (a concern from 1 on)
";
    assert_eq!(rt; told.as_str(), wanted);
    Ok(())
}

// The outcome is the worst of what was found, in whichever order.
#[test]
fn the_outcome_is_the_worst_of_all(rt: HostRuntime) -> Result<(), Fail> {
    for (log, outcome) in [
        ("$NEW\n$NEW\n$NEW\n", "Sound"),
        ("$NEW\n$LENT\n$NEW\n", "Concerned"),
        ("$LENT\n$LENT\n$NEW\n", "Concerned"),
        ("$LENT\n$WRONG\n$NEW\n", "Unsound"),
        ("$WRONG\n$NEW\n$LENT\n", "Unsound"),
    ] {
        let said = said(rt.alloc(), "", log)?;
        let (_, got) = said.as_str().rsplit_once("= ").ok_or("an end")?;
        assert_eq!(rt; got, outcome, "{log}");
    }
    Ok(())
}
