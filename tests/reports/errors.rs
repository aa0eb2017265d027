// Each error of reading, with its text. Here ' stands for a quotation mark.

use crate::books::Host;
use pool_reports::from_json;
use std::alloc::Global;
use std::test::Fail;

const GOOD: &str = concat!(
    "{'version':1,'limits':{'max_size':3,'min_idle':null,'max_lifetime':null,",
    "'idle_timeout':null,'connection_timeout':1000,'reap_every':1000,'order':'newest_first'},",
    "'base':{'at':1,'idle':[[0,1,1]],'lent':[[1,1]],'connections':2,'pending':1,'closed':false},",
    "'records':[{'kind':'taken','at':2,'id':0,'ordered':0},{'kind':'kept','at':3,'id':1}],",
    "'lost':2,'takes':2,'idle':[1],'lent':[0],'connections':2,'pending':1,'closed':false}",
);

// What is said of a text.
fn said_of(alloc: Global, text: &str) -> Result<String, Fail> {
    let text = text.replace(alloc, "'", "\"")?;
    match from_json(alloc, text.as_str()) {
        Ok(_) => Ok(String::from_str(alloc, "read")?),
        Err(error) => Ok(error.to_string(alloc)?),
    }
}

// What is said of the good text with one part changed.
fn said(alloc: Global, part: &str, change: &str) -> Result<String, Fail> {
    let (front, back) = GOOD.split_once(part).ok_or("there is no such part")?;
    said_of(alloc, format!(in alloc; "{front}{change}{back}")?.as_str())
}

// A part of the good text, its change and what is said of that: behind an @ stands what is there in
// the change, and what ends with dots is not all that is said.
fn is_said(rt: &impl Host, row: &str) -> Result<(), Fail> {
    let (part, change) = row.trim_start().split_once(" => ").ok_or("a part")?;
    let (change, wanted) = change.split_once(" => ").ok_or("a change")?;
    let said = said(rt.alloc(), part, change)?;
    let begin = wanted.strip_suffix("..").unwrap_or(wanted);
    let text = match begin.split_once(" @ ") {
        Some((what, there)) => {
            let column = GOOD.find(part).unwrap_or(0) + change.find(there).unwrap_or(0) + 1;
            format!(in rt.alloc(); "{what} at column {column}: {there}")?
        }
        None => String::from_str(rt.alloc(), begin)?,
    };
    let text = text.as_str().replace(rt.alloc(), "'", "\"")?;
    let begins = said.as_str().starts_with(text.as_str()) && wanted.ends_with("..");
    assert!(rt; begins || said.as_str() == text.as_str(), "{row}: {said} is not {text}");
    Ok(())
}

fn each_is_said(rt: &impl Host, table: &str) -> Result<(), Fail> {
    table.trim().lines().try_for_each(|row| is_said(rt, row))
}

#[test]
fn numbers_have_their_ranges(rt: HostRuntime) -> Result<(), Fail> {
    let good = GOOD.replace(rt.alloc(), "'", "\"")?;
    assert!(rt; from_json(rt.alloc(), good.as_str())?.replays()?);
    let table = r"
        'id':0 => 'id':-1 => invalid value @ -1
        'id':0 => 'id':1.5 => invalid value @ 1.5
        'id':0 => 'id':'0' => invalid type @ '0'
        'id':0 => 'id':18446744073709551616 => invalid value @ 18446744073709551616
        'lost':2 => 'lost':null => invalid type @ null
        'pending':1 => 'pending':4294967296 => invalid value @ 4294967296
        'min_idle':null => 'min_idle':false => invalid type @ false
        'version':1 => 'version':'1' => invalid type @ '1'
        'id':0 => 'id':18446744073709551615 => read
        'pending':1 => 'pending':4294967295 => read";
    each_is_said(&rt, table)
}

// Moments are whole nanoseconds, and those of the wall clock are from 1970 on.
#[test]
fn the_wall_clock_shows_a_moment_from_1970_on(rt: HostRuntime) -> Result<(), Fail> {
    let table = "
        'at':3 => 'at':'18446744073709551616000000000' => \
            not whole nanoseconds @ '18446744073709551616000000000'
        'at':3 => 'at':'+3' => not whole nanoseconds @ '+3'
        'at':3 => 'at':'' => not whole nanoseconds @ ''
        'at':3 => 'at':' 3' => not whole nanoseconds @ ' 3'
        'at':3 => 'at':'3s' => not whole nanoseconds @ '3s'
        'at':3 => 'at':'000000000000000000000000000003' => \
            not whole nanoseconds @ '000000000000000000000000000003'
        'lost':2 => 'lost':2,'created_at':'noon' => not a time of the wall clock @ 'noon'
        'lost':2 => 'lost':2,'created_at':'1969-12-31T23:59:59Z' => \
            not a time of the wall clock @ '1969-12-31T23:59:59Z'
        'at':3 => 'at':18446744073709551616 => invalid value @ 18446744073709551616
        'at':3 => 'at':[3] => invalid type @ [3
        'at':3 => 'at':-3 => invalid value @ -3
        'lost':2 => 'lost':2,'reported_at':-1 => invalid value @ -1
        [[0,1,1]] => [[0,1,true]] => invalid type @ true
        'at':3 => 'at':'18446744073709551616' => read
        'at':3 => 'at':'18446744073709551615999999999' => read
        'at':3 => 'at':'\\u0033' => read";
    each_is_said(&rt, table)
}

// A record's kind is known at its end; a list of two or three has so many; no object is a list.
#[test]
fn each_place_wants_its_type(rt: HostRuntime) -> Result<(), Fail> {
    let table = r"
        'order':'newest_first' => 'order':'newest' => unknown variant @ 'newest'
        'order':'newest_first' => 'order':0 => invalid type @ 0
        'base':{ => 'base':7,'more':{ => invalid value @ 7
        {'kind':'kept','at':3,'id':1} => 3 => invalid type @ 3
        'kind':'kept' => 'kind':3 => invalid type @ 3
        'closed':false} => 'closed':0} => invalid type @ 0
        'idle':[[0,1,1]] => 'idle':{} => invalid type @ {
        [[0,1,1]] => [7] => invalid type @ 7
        [[1,1]] => [[-1,1]] => invalid value @ -1
        'idle':[1] => 'idle':[1,'2'] => invalid type @ '2'
        'lent':[0] => 'lent':0 => invalid type @ 0
        'lost':2 => 'lost':2,'name':7 => invalid type @ 7
        'kind':'kept' => 'kind':'lent' => unknown variant at column ..
        'kind':'kept' => 'kind':'Kept' => unknown variant at column ..
        'kind':'kept' => 'kind':'' => unknown variant at column ..
        'kind':'kept' => 'kind':']},{[,' => unknown variant at column ..
        [[0,1,1]] => [[0,1]] => invalid length at column ..
        [[0,1,1]] => [[0,1,1,1]] => invalid length at column ..
        [[1,1]] => [[1,1,1]] => invalid length at column ..
        [[1,1]] => [[1]] => invalid length at column ..
        'base':{ => 'base':[],'more':{ => invalid value @ [
        'limits':{ => 'limits':[3,null,null,null,9,9,'newest_first'],'more':{ => invalid value @ [3
        'lost':2 => 'lost':2,'status':[0] => invalid value @ [0
        {'kind':'kept','at':3,'id':1} => ['kept',3,1] => invalid type @ ['kept'";
    each_is_said(&rt, table)
}

#[test]
fn what_may_be_left_out_is_not_null(rt: HostRuntime) -> Result<(), Fail> {
    for name in "name created_at reported_at status latest_error loans".split(' ') {
        let change = format!(in rt.alloc(); "'lost':2,'{name}':null")?;
        let said = said(rt.alloc(), "'lost':2", change.as_str())?;
        assert!(rt; said.as_str().ends_with(": null"), "{said}");
    }
    Ok(())
}

#[test]
fn fields_are_all_there_and_no_others(rt: HostRuntime) -> Result<(), Fail> {
    let table = r"
        'lost':2, =>  => missing field `lost` at column ..
        'min_idle':null, =>  => missing field `min_idle` at column ..
        'base':{'at':1, => 'base':{ => missing field `at` at column ..
        'at':3, =>  => missing field `at` at column ..
        'kind':'kept', =>  => missing field `kind` at column ..
        ,'id':1} => } => missing field `id` at column ..
        'lost':2 => 'lost':2,'status':{} => missing field `connection_timeout` at column ..
        ,'id':1} => ,'id':1,'ordered':0} => unknown field @ 'ordered':0
        'lost':2 => 'lost':2,'found':1 => unknown field @ 'found':1
        'max_size':3 => 'max_size':3,'\n':1 => unknown field @ '\n':1
        'base':{ => 'base':{'since':1, => unknown field @ 'since':1
        'base':{ => 'base':{'records':[], => unknown field @ 'records':[";
    each_is_said(&rt, table)
}

#[test]
fn other_versions_and_limits_are_refused(rt: HostRuntime) -> Result<(), Fail> {
    let table = r"
        'version':1 => 'version':2 => version: 2 is not one that can be read
        'version':1 => 'version':2,'more':[] => version: 2 is not one that can be read
        'version':1 => 'version':1,'version':2 => version: 2 is not one that can be read
        'version':1,'limits' => 'version':2,'bounds' => version: 2 is not one that can be read
        'version':1 => 'version':2,'version':1 => read
        'version':1, =>  => version: missing
        'version':1,'limits':{ => 'limits':{'version':1, => version: missing
        'max_size':3 => 'max_size':0 => limits.max_size: zero
        'min_idle':null => 'min_idle':4 => limits.min_idle: above max_size
        'min_idle':null => 'min_idle':3 => read
        'reap_every':1000 => 'reap_every':0 => limits.reap_every: zero
        'max_lifetime':null => 'max_lifetime':0 => limits.max_lifetime: zero
        'idle_timeout':null => 'idle_timeout':0 => limits.idle_timeout: zero
        'connection_timeout':1000 => 'connection_timeout':0 => limits.connection_timeout: zero";
    each_is_said(&rt, table)
}

// Of a field that stands twice the last one counts, whatever the others say.
#[test]
fn of_fields_given_twice_the_last_one_counts(rt: HostRuntime) -> Result<(), Fail> {
    let table = r"
        'version':1 => 'version':1,'records':7 => read
        'version':1 => 'limits':[],'version':1 => read
        'version':1 => 'records':{'a':[]},'version':1 => read
        'takes':2 => 'takes':2,'records':[] => read
        'takes':2 => 'takes':2 , 'records' : [ ]  => read
        'at':3 => 'at':'x','at':3 => read
        {'kind':'kept','at':3,'id':1} => {'kind':'lent','at':3,'id':1,'kind':'kept'} => read
        'takes':2 => 'takes':2,'records':[7] => duplicate field `records` @ 'records':[7
        'takes':2 => 'takes':2,'records':null => duplicate field `records` @ 'records':null
        'max_size':3 => 'max_size':3,'max_size':0 => duplicate field `max_size` @ 'max_size':0";
    each_is_said(&rt, table)?;
    is_said(&rt, "'records':[ =>  'rec\\u006frds' : [\n => read")?;
    is_said(&rt, "'at':3,'id':1}], => 'at':3,'id':1} \r\n]\t,  => read")
}

#[test]
fn texts_that_are_no_json_are_refused(rt: HostRuntime) -> Result<(), Fail> {
    for (text, wanted) in [
        ("", "not JSON at column 0"),
        ("[]", "invalid type at column 1: ["),
        ("{", "not JSON at column 1"),
        ("{}", "version: missing"),
        ("{\n,", "not JSON at line 2, column 1"),
        ("{\n'version': -1}", "invalid value at line 2, column 12: -1"),
        ("nul", "not JSON at column 1"),
    ] {
        assert_eq!(rt; said_of(rt.alloc(), text)?.as_str(), wanted, "{text}");
    }
    Ok(())
}

// However deep a text nests, in what is read or in what is passed over, the stack is enough.
#[test]
fn deep_texts_are_refused(rt: HostRuntime) -> Result<(), Fail> {
    let (alloc, depth) = (rt.alloc(), 100_000);
    let (open, close) = ("[".repeat(alloc, depth)?, "]".repeat(alloc, depth)?);
    for part in ["'records':[", "'idle':[[0", "'lost':", "{'version':1,"] {
        for key in ["", "'more':"] {
            let change = format!(in alloc; "{part}{key}{open}{close},")?;
            let said = said(alloc, part, change.as_str())?;
            assert!(rt; said.as_str().contains(" at column "), "{said}");
        }
    }
    Ok(())
}
