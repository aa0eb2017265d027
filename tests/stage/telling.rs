// What handlers of events and of errors are told, what the customizer is asked, and in which order.

use crate::rows::*;
use log::sink::Locked;
use log::{Level, Logged};
use r2d2::{HandleError, LoggingErrorHandler};
use std::io;
use std::sync::{Arc, Mutex, Wait};

#[test]
fn events(rt: HostRuntime) -> Result<(), Fail> {
    let row = "breaks -*; get a; ask p=123; pass 123; late p; hear s0 a0 c0 T123; back a
        hear r0,123 g0,123,Broken e0; get b; hear s1 a1 c1";
    on_text(rt, &ALL, SMALL, row)
}

// Who finds none did not wait, and is told of nowhere. One that comes again is shown to nobody.
#[test]
fn event_on_try_get(rt: HostRuntime) -> Result<(), Fail> {
    let row = "find a; shown a=1; none; hear s0 a0 c0; back a; get b; shown b=1; back b
        hear r0 c0 r0";
    on_text(rt, &ALL, full(1), row)
}

// The first opening fails. What was set before the handlers still holds.
#[test]
fn they_may_be_set_in_any_order(rt: HostRuntime) -> Result<(), Fail> {
    let settings = SMALL.checked_after(1_000).retried();
    let mut backwards = settings;
    backwards.is_backwards = true;
    let row = "connects -; ask p; until failed_openings=1; hear C0; pass 50; serve p
        hear s0 a0 c0,50 r0; is checks.asked=0; pass 1000; use; is checks.asked=1";
    on_texts(rt, &ALL, [(settings, ""), (backwards, "")], row)
}

// A check takes 2 s, and tells when the connection is lent: the moment after it.
#[test]
fn a_quiet_pool_lends_after_the_check(rt: HostRuntime) -> Result<(), Fail> {
    on_each(rt, &QUIET, |world| {
        let pool = Pool::quiet(rt, world, |settings| settings.is_checked = true)?;
        world.pass(7_000);
        world.checks.goes("2+2-");
        assert_eq!(rt; pool.get()?.lent_at(), 9_000);
        assert_eq!(rt; pool.get()?.number(), 1);
        holds(world.once_heard(&[Shown(0), Failed(Check(1)), Ended(0), Shown(1)]))
    })
}

// What it refuses never was the pool's: it is dropped, and another is opened when that is due. What
// comes back broken is given to it.
#[test]
fn test_connection_customizer(rt: HostRuntime) -> Result<(), Fail> {
    on_play(rt, &ALL, SMALL.retried(), |mut play| {
        play.run("pass 7000; shows -")?;
        let (world, begun) = (play.world, play.world.sleeps_begun());
        play.run("ask p; until failed_openings=1")?;
        // The call sleeps until its end, and a worker in a thread until it tries again.
        world.watch(|| world.kind != Kind::Spawned || world.sleeps_begun() >= begun + 2);
        play.run("hear s0 S0; watch dropped=1; is opened=1 dropped=1; pass 50; take p=1")?;
        play.run("shown p=1; hear s1 a0 c0,50; breaks -; back p; hear r0 g0,0,Broken e1")
    })
}

#[test]
fn who_gives_up_is_told_what_it_refused(rt: HostRuntime) -> Result<(), Fail> {
    let row = "shows -*; ask p=50; until failed_openings=1; once s0 S0; pass 50; late p
        says shown 0; hear s0 S0 T50";
    on_text(rt, &ALL, SMALL, row)
}

#[test]
fn a_customizer_that_fails_each_second_time(rt: HostRuntime) -> Result<(), Fail> {
    let row = "shows -+-+-+; made; until failed_openings=2; hear s0 S0 s1 a0 s2 S2; pass 50
        until failed_openings=3; hear s3 a1 s4 S4; pass 50; until idle=3; hear s5 a2
        is opened=6 dropped=3; vanish; watch ended=1 dropped=6";
    on_text(rt, &ALL, full(3).retried().unawaited(), row)
}

// A handler is told of what failed once that is counted, and of what came before it is there.
#[test]
fn an_opening_is_told_of_between_its_steps(rt: HostRuntime) -> Result<(), Fail> {
    let (failed, came) = ("-+/~+/failed_openings=1", "+/+~+/connections=0 opening=1");
    let rows = [failed, came].map(|words| (SMALL.retried(), words));
    let row = "connects $1; hears $2; ask p; watch hears.hung=1; is $3; waits p; go hears
        pass 50; serve p";
    on_texts(rt, &BESIDE, rows, row)
}

// All three are told at once, and each of them holds up its caller.
#[test]
fn a_slow_handler_holds_up_its_own_caller_alone(rt: HostRuntime) -> Result<(), Fail> {
    let row = "hears ~+~+~+; ask p; is hears.hung=1; ask q; is hears.hung=2; ask r; is hears.hung=3
        waits p q r; go hears; all p q r";
    on_text(rt, &BESIDE, full(3), row)
}

/// A writer whose bytes others can read.
#[derive(Drop)]
struct Page<R> {
    text: Arc<Mutex<Vec<u8>>>,
    rt: R,
}

impl<R: Wait> io::Write for Page<R> {
    fn write(&mut self, bytes: &[u8]) -> io::Result<usize> {
        self.text.lock(&self.rt).extend_from_slice(bytes)?;
        Ok(bytes.len())
    }

    fn flush(&mut self) -> io::Result<()> {
        Ok(())
    }
}

#[test]
fn an_error_is_one_line_in_the_log(rt: HostRuntime) -> Result<(), Fail> {
    let text = Arc::new(rt.alloc(), Mutex::new(Vec::new(rt.alloc())))?;
    let page = Page {
        text: Arc::try_clone(&text)?,
        rt,
    };
    let handler = LoggingErrorHandler::new(Logged::new(rt, Level::Error, Locked::new(rt, page)));
    handler.handle_error("blammo");
    let line = b"[ERROR r2d2] blammo\n";
    assert_eq!(rt; text.lock(&rt).as_slice(), line.as_slice());
    let shown = format!(in rt.alloc(); "{handler:?}")?;
    equal(shown.as_str(), "LoggingErrorHandler")
}
