// Tests in which one request for memory is refused: the run refuses the request that has the number `AT` in its process, and each
// test asks so often before its case that this is the one which it means. The cases stand in the module above. One may end early where
// its request is refused; an assertion that fails ends the process.

use super::*;
use std::alloc::{AllocError, Global};
use std::fs;
use std::process::Termination;

const AT: u64 = 1000;

// How many of so many requests were granted.
fn granted(alloc: Global, requests: u64) -> u64 {
    let mut granted: u64 = 0;
    for _ in 0..requests {
        let room: Result<Vec<u8>, AllocError> = Vec::with_capacity(alloc, 1);
        if room.is_ok() {
            granted = granted.saturating_add(1);
        }
    }
    granted
}

// From here on the request of this number, counted from 1, is the one that is refused.
fn refuse<R: Abort + AllocGlobal>(rt: &R, number: u64) {
    let before = AT.saturating_sub(number);
    assert_eq!(rt; granted(rt.alloc(), before), before);
}

#[test]
fn one_request_is_refused(rt: HostRuntime) -> Result<(), Fail> {
    refuse(&rt, 2);
    assert_eq!(rt; granted(rt.alloc(), 1), 1);
    assert_eq!(rt; granted(rt.alloc(), 1), 0);
    assert_eq!(rt; granted(rt.alloc(), AT), AT);
    Ok(())
}

// The program of these tests, which `rt try` puts where it runs, for a run in which a thread is refused.
#[test]
fn hands_itself_out(rt: HostRuntime) -> Result<(), Fail> {
    let program = fs::read(&rt, "program")?;
    fs::write(&rt, PROGRAM, program.as_slice())?;
    Ok(())
}
