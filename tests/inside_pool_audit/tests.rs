// The text of the program.

use crate::asked::Asked;
use crate::asked::Form::{Html, Json, Words};
use crate::asked::Lines::{Log, Reports};
use crate::fault::Fault;
use crate::lines::serve;
use std::alloc::{AllocError, Global};
use std::io::{self, ErrorKind, Read};
use std::process::Abort;
use std::str;
use std::test::Fail;

// A report of a pool of one, which was just made.
const NEW: &str = "{'version':1,'limits':{'max_size':1,'min_idle':null,'max_lifetime':null,\
    'idle_timeout':null,'connection_timeout':9,'reap_every':9,'order':'newest_first'},\
    'base':{'at':0,'idle':[],'lent':[],'connections':0,'pending':1,'closed':false},'records':[],\
    'lost':0,'takes':0,'idle':[],'lent':[],'connections':0,'pending':1,'closed':false}";

// What is answered of it. It does not say what callers met.
const ANSWERS: &str = "  \
  nothing stands out, but the report does not say whether callers failed: it has no status
  covers 0.000 s, from 0.000 s after the creation to the last record
  0 opened, 0 closed at return, 0 closed while idle
  at most 0 of 1 lent at once; all of them lent or opening for 0.000 s
";

// The same in JSON.
const SUMMARY: &str = "'sound':true,'state':'unknown','concerns':[],'answers':[\
    'covers 0.000 s, from 0.000 s after the creation to the last record',\
    '0 opened, 0 closed at return, 0 closed while idle','at most 0 of 1 lent at once; all of them \
    lent or opening for 0.000 s'],'takes':0,'lost':0,'summary':{'from':0,'until':0,'most_lent':0,\
    'exhausted':0,'longest_exhaustion':0,'exhausted_since':0,'opening_since':0,'pending':1,\
    'opened':0,'closed':0,'closed_early':0,'returned':0,'reaped':0,'lent':[],'calls':null}}";

// A report of two, of which one is lent since before the base, and one since 104 milliseconds after
// the making; the pool was made at noon.
const LENT: &str = "{'version':1,'created_at':'$NOONZ','limits':{'max_size':2,$LIMITS,'base':{\
    'at':100000000,'idle':[[0,1,1]],'lent':[[1,1]],'connections':2,'pending':0,'closed':false},\
    'records':[{'kind':'taken','at':104000000,'id':0,'ordered':0},\
    {'kind':'closed','at':500000000,'id':1,'ordered':0},\
    {'kind':'ordered','at':600000000,'ordered':1},{'kind':'admitted','at':700000000,'id':2},\
    {'kind':'taken','at':7804000000,'id':2,'ordered':0}],'lost':9,'takes':4,'idle':[],\
    'lent':[0,2],'connections':2,'pending':0,'closed':false}";

// What stands for a text: the first ones may have others in them.
const WORDS: [(&str, &str); 21] = [
    ("$ORDERS", "$NEW~'limits'~'name':'orders','limits'~"),
    ("$USERS", "$NEW~'limits'~'name':'users','limits'~"),
    ("$WRONG", "$NEW~'records':[~'records':[{'kind':'kept','at':1,'id':4}~"),
    ("$KEPT", "connection 4 is kept, but it is not lent"),
    ("$BAD", "$NEW~'lost':0~'lost':-1~"),
    ("$WHY", "invalid value at column 254: -1"),
    ("$CUT", "a part of it is missing, or it stands in too many others"),
    ("$HINT", " (--find looks for reports within the lines of a log)"),
    ("$SOUND", "sound\n$ANSWERS"),
    ("$ANSWERS", ANSWERS),
    ("$SUMMARY", SUMMARY),
    ("$NEW", NEW),
    ("$LENT", LENT),
    ("$LIMITS", LIMITS),
    ("$KEEPER", "look for a caller that keeps its connection; give what callers do a timeout"),
    ("$RAN", "see what ran then; if it comes again, raise max_size or limit who calls"),
    ("$FROM", "from $NOON.1Z (0.100 s after the creation)"),
    ("$FIRST", "since $NOON.104Z (0.104 s after the creation)"),
    ("$SECOND", "since 2026-01-31T12:00:07.804Z (7.804 s after the creation)"),
    ("$NOON", "2026-01-31T12:00:00"),
    ("'", "\""),
];

const LIMITS: &str = "'min_idle':0,'max_lifetime':null,'idle_timeout':null,\
    'connection_timeout':9,'reap_every':9,'order':'newest_first'}";

// The text with others in the places of all such parts.
fn changed(alloc: Global, text: &str, parts: &[(&str, &str)]) -> Result<String, AllocError> {
    let mut changed = String::from_str(alloc, text)?;
    for (part, other) in parts {
        changed = changed.as_str().replace(alloc, part, other)?;
    }
    Ok(changed)
}

/// What is meant by a text with such words. $HEAD and $TAIL are that report beside the word 'base',
/// and $SPREAD has it over several lines. `~part~other~` puts another part in the place of the last
/// such one before it.
pub(crate) fn meant(alloc: Global, text: &str) -> Result<String, Fail> {
    let (head, tail) = NEW.split_once("'base'").ok_or("base")?;
    // Each field, and each item of a list, is on one of 28 lines.
    let spread = changed(alloc, NEW, &[(",", ",\n  "), ("{", "{\n  "), ("}", "\n  }")])?;
    let parts = [("$HEAD", head), ("$TAIL", tail), ("$SPREAD", spread.as_str())];
    let text = changed(alloc, text, &parts)?;
    let mut meant = changed(alloc, text.as_str(), &WORDS)?;
    while let Some((before, edit)) = meant.as_str().split_once('~') {
        let (part, edit) = edit.split_once('~').ok_or("no other part")?;
        let (other, behind) = edit.split_once('~').ok_or("no end")?;
        let (front, back) = before.rsplit_once(part).ok_or("there is no such part")?;
        meant = format!(in alloc; "{front}{other}{back}{behind}")?;
    }
    Ok(meant)
}

// What these arguments ask for.
fn asked(alloc: Global, arguments: &str) -> Result<Option<Asked<'_>>, AllocError> {
    let words = arguments.split(' ').filter(|word| !word.is_empty());
    let words: Vec<&str> = words.collect(alloc)?;
    Ok(Asked::of(words.as_slice()))
}

/// What is written, and behind it how it ends: the outcome, or a fault with its status.
fn played<I: Read + Drop>(alloc: Global, arguments: &str, input: I) -> Result<String, Fail> {
    let (asked, mut written) = (asked(alloc, arguments)?.ok_or("arguments")?, Vec::new(alloc));
    let got = serve(alloc, asked, input, &mut written);
    let written = str::from_utf8(written.as_slice())?;
    Ok(match got {
        Ok(outcome) => format!(in alloc; "{written}= {outcome:?}")?,
        Err(fault) => format!(in alloc; "{written}= {}: {fault}", fault.status())?,
    })
}

/// The same of what is meant by this input.
pub(crate) fn said(alloc: Global, arguments: &str, input: &str) -> Result<String, Fail> {
    played(alloc, arguments, meant(alloc, input)?.as_bytes())
}

// Looks whether this is said.
fn plays<R: AllocGlobal + Abort>(
    rt: &R,
    arguments: &str,
    input: &str,
    wanted: &str,
) -> Result<(), Fail> {
    let said = said(rt.alloc(), arguments, input)?;
    assert_eq!(rt; said.as_str(), meant(rt.alloc(), wanted)?.as_str());
    Ok(())
}

#[test]
fn says_of_each_line_what_it_is(rt: HostRuntime) -> Result<(), Fail> {
    let words = "line 2: $SOUNDline 4: $SOUND= Sound";
    plays(&rt, "", "\n$NEW\r\n \t\n$NEW", words)?;
    let input = "\n$NEW\r\n \t\n$NEW\n$WRONG\n";
    let words = "line 2: $SOUNDline 4: $SOUNDline 5: record 0: $KEPT\n= Unsound";
    plays(&rt, "", input, words)?;
    let json = "{'line':2,$SUMMARY\n{'line':4,$SUMMARY\n{'line':5,'sound':false,\
        'state':'unsound','record':0,'why':'$KEPT','answers':[],'takes':0,'lost':0}\n= Unsound";
    plays(&rt, "--json", input, json)?;
    plays(&rt, "", "", "no report\n= Sound")?;
    plays(&rt, "--json", "\n\n", "= Sound")?;
    // One that is no report is the last that is read.
    let words = "line 1: $SOUND= 6: line 3: version: missing$HINT";
    plays(&rt, "", "$NEW\n\n{}\n$NEW\n", words)?;
    let json = "{'line':1,$SUMMARY\n= 6: line 3: version: missing$HINT";
    plays(&rt, "--json", "$NEW\n\n{}\n$NEW\n", json)?;
    // What is wrong beside the records has no place among them.
    let json = "{'line':1,'sound':false,'state':'unsound','why':'the base: connections and \
        pending are 2 together, but max_size is 1','answers':[],'takes':0,'lost':0}\n= Unsound";
    plays(&rt, "--json", "$NEW~1,'closed':false},'~2,'closed':false},'~", json)
}

#[test]
fn arguments_ask_for_a_form_and_a_pool(rt: HostRuntime) -> Result<(), Fail> {
    for (arguments, form, lines, pool) in [
        ("", Words, Reports, None),
        ("--json", Json, Reports, None),
        ("--html", Html, Reports, None),
        ("--find", Words, Log, None),
        ("--pool a", Words, Reports, Some("a")),
        ("--pool --json", Words, Reports, Some("--json")),
        ("--find --pool a --json", Json, Log, Some("a")),
    ] {
        let due = Some(Asked { form, lines, pool });
        assert_eq!(rt; asked(rt.alloc(), arguments)?, due);
    }
    let others = "--text;a;--pool;--find --pool;--find --find;--pool a --find;--json --find";
    for arguments in others.split(';').chain("--json --html".split(';')) {
        assert_eq!(rt; asked(rt.alloc(), arguments)?, None, "{arguments}");
    }
    Ok(())
}

// Each line that is no report is told for itself, and `--find` only where it may help.
#[test]
fn says_what_a_line_is_that_is_no_report(rt: HostRuntime) -> Result<(), Fail> {
    let alloc = rt.alloc();
    let jq = "an object that does not end there: write each report on one line (jq -c . FILE)";
    for (input, why) in [
        ("$BAD", "$WHY"),
        ("$NEW~'version':1~'version':2~", "version: 2 is not one that can be read"),
        ("$NEW~'lost':0,~~", "missing field `lost` at column .."),
        ("{'base'$TAIL", "version: missing"),
        ("$HEAD~,~~", "not JSON at column .."),
        ("{'base'", "not JSON at column .."),
        ("$HEAD", jq),
        ("{ 'version': 1,\n", jq),
        ("{\n$HEAD~,~~\n", jq),
        ("{'level':'INFO','report':$NEW}", "version: missing$HINT"),
        ("{'level': 'INFO'}", "version: missing$HINT"),
        ("INFO starts", "not JSON at column 1$HINT"),
        ("{}", "version: missing$HINT"),
        ("[1,", "invalid type at column 1: [1$HINT"),
        ("7", "invalid type at column 1: 7$HINT"),
    ] {
        let (said, why) = (said(alloc, "", input)?, meant(alloc, why)?);
        let told = said.as_str().strip_prefix("= 6: line 1: ").ok_or("a line")?;
        let begin = why.as_str().strip_suffix("..").unwrap_or(told);
        let begins = told.starts_with(begin) && !told.ends_with("log)");
        let is_so = told == why.as_str() || begins && told != begin;
        assert!(rt; is_so, "{told} is not {why}");
    }
    let gzip = "= 6: the input is compressed: gzip -dc FILE | pool-audit";
    for (arguments, input, why) in [
        ("", &b"\x1f\x8b\x08\n"[..], gzip),
        ("--find", b"\x1f\x8b\x08\n", gzip),
        ("", b"\n\x1f\x8b\x08\n", "= 6: line 2: not UTF-8"),
        ("", b"\n{\"a\xff\":1}\n", "= 6: line 2: not UTF-8"),
    ] {
        assert_eq!(rt; played(alloc, arguments, input)?.as_str(), why);
    }
    Ok(())
}

// A report over several lines is read, and those behind it keep their numbers.
#[test]
fn reads_a_report_over_several_lines(rt: HostRuntime) -> Result<(), Fail> {
    let words = "line 2: $SOUNDline 30: $SOUND= Sound";
    plays(&rt, "", "\n$SPREAD\r\n$NEW\n", words)?;
    let words = "line 3: $SOUNDline 31: $SOUNDlines without a report: 2\n= Sound";
    plays(&rt, "--find", "INFO\n{'log': [\n$SPREAD\nINFO $NEW\n", words)?;
    let words = "line 1: $SOUNDline 3: $SOUNDlines without a report: 0\n= Sound";
    plays(&rt, "--find", "{\nINFO $NEW\n$NEW\n", words)?;
    let words = "line 3: damaged: a report over several lines behind other text: write it on one \
        line\nline 29: $SOUNDlines without a report: 27\n= 6: damaged reports: 1";
    plays(&rt, "--find", "INFO report: $SPREAD\n$NEW\n", words)
}

/// A reader that fails.
#[derive(Drop)]
struct Broken(ErrorKind);

impl Read for Broken {
    fn read(&mut self, _buf: &mut [u8]) -> io::Result<usize> {
        Err(io::Error::from(self.0))
    }
}

#[test]
fn failed_reads_and_writes_are_told(rt: HostRuntime) -> Result<(), Fail> {
    let (alloc, input) = (rt.alloc(), meant(rt.alloc(), "$NEW\n$NEW")?);
    for (error, told) in [
        (ErrorKind::BrokenPipe, "line 1: $SOUND= 3: read failed"),
        (ErrorKind::OutOfMemory, "line 1: $SOUND= 2: out of memory"),
    ] {
        let got = played(alloc, "", input.as_bytes().chain(Broken(error)))?;
        assert_eq!(rt; got.as_str(), meant(alloc, told)?.as_str());
    }
    let (asked, mut no_room) = (asked(alloc, "")?.ok_or("arguments")?, [0u8; 0]);
    let fault = serve(alloc, asked, input.as_bytes(), &mut no_room[..]).err().ok_or("written")?;
    assert_eq!(rt; (fault.status(), fault.to_string(alloc)?.as_str()), (3, "write failed"));
    let usage = "pool_audit [--find] [--pool NAME] [--json | --html]";
    assert_eq!(rt; Fault::NotUnderstood.to_string(alloc)?.as_str(), usage);
    Ok(())
}

// What is answered of the report of two.
const WHO: &str = "line 1: sound
  ! 1 lent for at least 9 ns: connection 0 for 7 s 700 ms, since $NOON.104Z
    $KEEPER
  ! was exhausted for 396 ms at a stretch (a concern from 9 ns on)
    $RAN
  covers 7.704 s, $FROM to the last record
  1 opened, 1 closed at return, 0 closed while idle
  at most 2 of 2 lent at once; all of them lent or opening for 0.496 s, 6 % of the time
  lent at the end: connection 0, for 7.700 s, $FIRST
  lent at the end: connection 2, for 0.000 s, $SECOND
= Concerned";

// Of the same pool, which stands still since its last record, up to the report.
const AN_HOUR_LATER: &str = "line 1: sound
  ! 2 lent for at least 9 ns: connection 0 for 1 h, since $NOON.104Z
    $KEEPER
  ! exhausted for 1 h, since 2026-01-31T12:00:07.804Z: 2 of 2 lent, 0 opening \
(a concern from 9 ns on)
    see who has the connections for so long; if all are short, raise max_size
  covers 3607.704 s, $FROM to the report
  1 opened, 1 closed at return, 0 closed while idle
  at most 2 of 2 lent at once; all of them lent or opening for 3600.496 s, 99 % of the time
  lent at the end: connection 0, for 3607.700 s, $FIRST
  lent at the end: connection 2, for 3600.000 s, $SECOND
= Concerned";

// Of the second that a report covers half was exhausted.
const HALF_EXHAUSTED: &str = "line 1: sound
  ! was exhausted for 500 ms at a stretch (a concern from 9 ns on)
    $RAN
  covers 1.000 s, from 9.000 s after the creation to the last record
  0 opened, 0 closed at return, 0 closed while idle
  at most 1 of 1 lent at once; all of them lent or opening for 0.500 s, 50 % of the time
= Concerned";

#[test]
fn answers_who_is_lent_and_how_long_all_were(rt: HostRuntime) -> Result<(), Fail> {
    plays(&rt, "", "$LENT", WHO)?;
    let json = "{'line':1,'sound':true,'state':'concerned','concerns':[{'kind':'lent_for_long',\
        'says':'1 lent for at least 9 ns: connection 0 for 7 s 700 ms, since $NOON.104Z',\
        'next':'$KEEPER'},{'kind':'was_exhausted','says':'was exhausted for 396 ms at a stretch \
        (a concern from 9 ns on)','next':'$RAN'}],'answers':['covers 7.704 s, $FROM to the last \
        record','1 opened, 1 closed at return, 0 closed while idle','at most 2 of 2 lent at once; \
        all of them lent or opening for 0.496 s, 6 % of the time','lent at the end: connection 0, \
        for 7.700 s, $FIRST','lent at the end: connection 2, for 0.000 s, $SECOND'],\
        'created_at':'$NOONZ','takes':4,'lost':9,'summary':{'from':100000000,'until':7804000000,\
        'most_lent':2,'exhausted':496000000,'longest_exhaustion':396000000,\
        'exhausted_since':7804000000,'opening_since':null,'pending':0,'opened':1,'closed':1,\
        'closed_early':1,'returned':1,'reaped':0,'lent':[{'id':0,'since':104000000},\
        {'id':2,'since':7804000000}],'calls':null}}\n= Concerned";
    plays(&rt, "--json", "$LENT", json)?;
    plays(&rt, "", "$LENT~'limits'~'reported_at':3607804000000,'limits'~", AN_HOUR_LATER)?;
    plays(&rt, "", late(rt.alloc(), "", 9, 4)?.as_str(), HALF_EXHAUSTED)?;
    let (front, _) = LENT.split_once(",{'kind':'closed'").ok_or("closed")?;
    let back = "'idle':[],'lent':[1,0],'connections':2,'pending':0,'closed':false}";
    let early = format!(in rt.alloc(); "{front}],'lost':9,'takes':4,{back}")?;
    let words = "line 1: sound
  ! 1 lent for at least 9 ns: connection 1 for more than 4 ms
    $KEEPER
  covers 0.004 s, $FROM to the last record
  0 opened, 0 closed at return, 0 closed while idle
  at most 2 of 2 lent at once; all of them lent or opening for 0.000 s, 0 % of the time
  lent at the end: connection 1, since before the base
  lent at the end: connection 0, for 0.000 s, $FIRST
= Concerned";
    plays(&rt, "", early.as_str(), words)
}

// What is wrong with a report that replays hides none of the answers. Where nothing is opening, it
// is not exhausted either.
#[test]
fn answers_what_a_report_that_replays_is_asked(rt: HostRuntime) -> Result<(), Fail> {
    let (alloc, zero) = (rt.alloc(), "since':0,'opening_since':0,'pending':0");
    let none = (zero, "since':null,'opening_since':null,'pending':0");
    let pending = ("'pending':1", "'pending':0");
    let (lost, takes) = (("'lost':0", "'lost':9"), ("'takes':0", "'takes':5"));
    let making = "the base: lost is 0, so it is that of a new pool, but pending is 0, and 1 are \
        wanted";
    let empty = "the counts: wanted are 1, and there is room, but idle has 0, and pending is 0";
    let (_, summary) = SUMMARY.split_once("'unknown',").ok_or("a state")?;
    let five = "the counts: takes is 5, but the records have 0";
    for (parts, why) in [
        (&[pending, none][..], making),
        (&[takes], five),
        (&[pending, none, lost], empty),
    ] {
        let (input, told) = (changed(alloc, NEW, parts)?, changed(alloc, summary, parts)?);
        let words = format!(in alloc; "line 1: {why}\n$ANSWERS= Unsound")?;
        plays(&rt, "", input.as_str(), words.as_str())?;
        let json = format!(in alloc; "{{'line':1,'sound':false,'state':'unsound','why':'{why}',\
            {told}\n= Unsound")?;
        plays(&rt, "--json", input.as_str(), json.as_str())?;
    }
    Ok(())
}

/// A report of one, of which this is told besides, which begins so many seconds after the creation
/// and covers one second; it is lent for the second half of that.
pub(crate) fn late(alloc: Global, told: &str, begin: u64, takes: u64) -> Result<String, Fail> {
    let end = begin + 1;
    let text = format!(in alloc; "{{'version':1{told},'limits':{{'max_size':1,$LIMITS,'base':{{\
        'at':{begin}000000000,'idle':[[0,1,1]],'lent':[],'connections':1,'pending':0,\
        'closed':false}},'records':[{{'kind':'taken','at':{begin}500000000,'id':0,'ordered':0}},\
        {{'kind':'kept','at':{end}000000000,'id':0}}],'lost':9,'takes':{takes},'idle':[0],\
        'lent':[],'connections':1,'pending':0,'closed':false}}")?;
    meant(alloc, text.as_str())
}

// Of so many connections all are lent since before the base.
#[test]
fn names_twenty_and_counts_the_others(rt: HostRuntime) -> Result<(), Fail> {
    let (alloc, (well, _)) = (rt.alloc(), ANSWERS.split_once("  at most").ok_or("answers")?);
    for (count, more) in [(20usize, 0), (21, 1), (43, 23)] {
        let ids: Vec<usize> = (0..count).collect(alloc)?;
        let lent: Vec<[usize; 2]> = (0..count).map(|id| [id, 0]).collect(alloc)?;
        let counts = format!(in alloc; "'connections':{count},'pending':0,'closed':false")?;
        let report = format!(in alloc; "{{'version':1,'limits':{{'max_size':{count},$LIMITS,'base':\
            {{'at':0,'idle':[],'lent':{lent:?},{counts}}},'records':[],'lost':99,'takes':99,\
            'idle':[],'lent':{ids:?},{counts}}}")?;
        let mut words = format!(in alloc; "line 1: sound\n{well}  at most {count} of {count} lent \
            at once; all of them lent or opening for 0.000 s\n")?;
        for id in 0..20 {
            writeln!(words, "  lent at the end: connection {id}, since before the base")?;
        }
        if more > 0 {
            writeln!(words, "  lent at the end: {more} more")?;
        }
        write!(words, "= Sound")?;
        plays(&rt, "", report.as_str(), words.as_str())?;
    }
    Ok(())
}

// What is found of a log of one line that has the report.
const FOUND: &str = "line 1: $SOUNDlines without a report: 0\n= Sound";

// Each of these lines would take long if it were searched anew from each brace to its end.
#[test]
fn a_line_of_many_objects_takes_no_longer_than_its_length(rt: HostRuntime) -> Result<(), Fail> {
    let cut = "line 1: damaged: $CUT\nno report\nlines without a report: 0\n\
        = 6: damaged reports: 1";
    let too_deep = "line 1: damaged: not JSON at column 1399\nno report\n\
        lines without a report: 0\n= 6: damaged reports: 1";
    for (open, close, words) in [
        ("{'a':", "", cut),
        ("{'records':", "", cut),
        ("{'records':[", "", cut),
        ("{'a':'{", "", cut),
        ("{'records':", "}", too_deep),
        ("{", "", FOUND),
        ("{}", "", FOUND),
        ("{'a':1}, ", "", FOUND),
        ("{'records':1} ", "", FOUND),
    ] {
        let open = open.repeat(rt.alloc(), 2_000)?;
        let close = close.repeat(rt.alloc(), 2_000)?;
        let line = format!(in rt.alloc(); "{open}$NEW{close}\n")?;
        plays(&rt, "--find", line.as_str(), words)?;
    }
    Ok(())
}

// A report is found however many objects stand before it, and in as many as a program writes.
#[test]
fn finds_a_report_within_others(rt: HostRuntime) -> Result<(), Fail> {
    for depth in [0usize, 1, 20, 60] {
        let open = "{'a': ".repeat(rt.alloc(), depth)?;
        for close in ["", "}"] {
            let close = close.repeat(rt.alloc(), depth)?;
            let line = format!(in rt.alloc(); "INFO {open}$NEW{close}\n")?;
            plays(&rt, "--find", line.as_str(), FOUND)?;
        }
    }
    Ok(())
}

// What reads like a report and is none is told and counted, and all others are audited.
#[test]
fn tells_what_is_sound_and_what_is_damaged_in_a_log(rt: HostRuntime) -> Result<(), Fail> {
    let log = "2026-01-31 INFO starts {'a':1}\n\n{ 'records': 7 }\n2026-01-31 INFO pool\
        {name='main'}: $NEW done\n{'level':'IN{FO','report':$NEW,'n':[$WRONG]}\n\
        {'never': closed 'records' {{{\n{'open': $NEW\n";
    let words = "line 4: $SOUNDline 5: $SOUNDline 5: record 0: $KEPT\nline 7: $SOUND\
        lines without a report: 3\n= Unsound";
    plays(&rt, "--find", log, words)?;
    plays(&rt, "--find", "a\nb", "no report\nlines without a report: 2\n= Sound")?;
    plays(&rt, "--find --json", "a\n\nb", "{'lines_without_a_report':2}\n= Sound")?;
    let log = "INFO $BAD\nINFO $HEAD\nINFO $TAIL\n{'version':7,'report':$BAD} $NEW\n\
        $NEW $HEAD\nINFO the limits are 'limits': 7, no 'records'\n";
    let words = "line 1: damaged: $WHY\nline 2: damaged: $CUT\nline 3: damaged: $CUT\n\
        line 4: damaged: $WHY\nline 4: $SOUNDline 5: $SOUNDline 5: damaged: $CUT\n\
        lines without a report: 1\n= 6: damaged reports: 5";
    plays(&rt, "--find", log, words)?;
    let json = "{'line':1,'damaged':'$CUT'}\n{'lines_without_a_report':0}\n\
        = 6: damaged reports: 1";
    plays(&rt, "--find --json", "$HEAD", json)
}

// A container's log has a service's line as a string of JSON, perhaps within another one.
#[test]
fn finds_a_report_in_a_string(rt: HostRuntime) -> Result<(), Fail> {
    let alloc = rt.alloc();
    let mut line = meant(alloc, "2026 $NEW \u{e9}")?;
    for _ in 0..2 {
        let inner = line.as_str().replace(alloc, "\\", "\\\\")?;
        let inner = inner.as_str().replace(alloc, "\"", "\\\"")?;
        line = format!(in alloc; "{{\"log\":\"{inner}\\n\\u00e9\",\"stream\":\"stdout\"}}")?;
        plays(&rt, "--find", line.as_str(), FOUND)?;
    }
    let none = "{\"log\":\"a \\\"b\\\" \\ud800\"}";
    plays(&rt, "--find", none, "no report\nlines without a report: 1\n= Sound")
}

#[test]
fn says_which_pool_a_report_is_of(rt: HostRuntime) -> Result<(), Fail> {
    let log = "$ORDERS\n$USERS\n$NEW\n";
    let words = "line 1, pool 'orders': $SOUNDline 2, pool 'users': $SOUNDline 3: $SOUND= Sound";
    plays(&rt, "", log, words)?;
    plays(&rt, "--json", "$ORDERS", "{'line':1,'pool':'orders',$SUMMARY\n= Sound")?;
    let words = "line 2, pool 'users': $SOUNDreports of other pools: 2\n= Sound";
    plays(&rt, "--pool users", log, words)
}

// A pool is asked for by its whole name. Where no report is of it, the fault says which there are.
#[test]
fn says_which_pools_there_are(rt: HostRuntime) -> Result<(), Fail> {
    let log = "$NEW~'limits'~'name':'db2','limits'~\n$NEW~'limits'~'name':'d','limits'~\n\
        $NEW~'limits'~'name':'db2','limits'~\n$NEW\n";
    let told = "no report\nreports of other pools: 4\n= 6: no report of pool 'db'; there are \
        'db2', 'd', one without a name";
    plays(&rt, "--pool db", log, told)?;
    let told = "no report\n= 6: no report of pool 'db'; there are no reports of others";
    plays(&rt, "--pool db", "\n", told)?;
    let mut many = String::new(rt.alloc());
    for number in 0..30 {
        writeln!(many, "$NEW~'limits'~'name':'{number}','limits'~")?;
    }
    let told = said(rt.alloc(), "--pool db", many.as_str())?;
    assert_eq!(rt; told.as_str().matches("\"").count(), 42);
    Ok(())
}
