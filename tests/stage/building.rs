// What comes of building, and what a built pool says of itself.

use crate::rows::*;

const TIMED_OUT: &str = "timed out waiting for connection: connect 0";

fn is_send_sync<T: Send + Sync>(_value: &T) {}

// Why it gave up, as the clock moves on.
fn given_up<R: Host>(build: Building<R>) -> Result<Error, Fail> {
    build.world.watch(|| {
        build.world.pass(30);
        build.is_over()
    });
    Ok(build.end()?.err().ok_or("a pool")?)
}

// Each later opening would fail.
#[test]
fn test_max_size_ok(rt: HostRuntime) -> Result<(), Fail> {
    let row = "connects +++++-*; built; get a b c d e; is connections=5";
    on_text(rt, &ALL, full(5), row)
}

#[test]
fn test_is_send_sync(rt: HostRuntime) -> Result<(), Fail> {
    on_pools(rt, &ALL, SMALL, |_, pool| {
        is_send_sync(&pool.calls);
        Ok(())
    })
}

// The second try does not end. No caller waited in vain.
#[test]
fn test_initialization_failure(rt: HostRuntime) -> Result<(), Fail> {
    on_each(rt, &BUILT, |world| {
        world.connects.goes("-~-");
        let build = Pool::building(rt, world, full(1).waiting(50))?;
        assert!(rt; world.once_told(1));
        let text = given_up(build)?.to_string(rt.alloc())?;
        assert_eq!(rt; text.as_str(), TIMED_OUT);
        world.heard(&[Failed(Connect(0))])
    })
}

// The first try was over before the call.
#[test]
fn test_lazy_initialization_failure(rt: HostRuntime) -> Result<(), Fail> {
    let row = "connects -~-; made; until failed_openings=1; ask p=own; pass 1000; late p
        prints timed out waiting for connection: connect 0";
    on_text(rt, &ALL, full(1).unawaited().waiting(1_000), row)
}

// It waits for three. Two are opened meanwhile, the third opening fails, and is tried again.
#[test]
fn a_build_that_gives_up_tells_what_there_is(rt: HostRuntime) -> Result<(), Fail> {
    on_each(rt, &BUILT, |world| {
        world.connects.goes("~++-~-");
        let build = Pool::building(rt, world, full(3).most(5).waiting(50))?;
        // The making looks at the clock, the worker does, and `build` twice as it comes to wait.
        world.watch(|| world.connects.hung() == 1 && world.readings() >= 4);
        world.let_go(&world.connects);
        assert!(rt; world.once_heard(&[Failed(Connect(2))]));
        let error = given_up(build)?;
        assert_eq!(rt; error.kind(), ErrorKind::Timeout);
        assert_eq!(rt; error.message(), Some("connect 2"));
        assert!(rt; error.waited() > Some(Duration::from_millis(50)));
        let status = error.status().ok_or("no status")?;
        assert_eq!(rt; (status.max_size, status.wanted), (5, 3));
        assert_eq!(rt; (status.connections, status.idle), (2, 2));
        assert_eq!(rt; (status.waiting, status.closed), (0, false));
        assert_eq!(rt; (status.failed_openings, status.timeouts), (1, 0));
        // It leaves nothing.
        world.watch(|| {
            world.let_go(&world.connects);
            world.ended() == 1
        });
        equal((world.ended(), world.opened(), world.dropped()), (1, 2, 2))
    })
}

// Of three connections that are wanted idle two come in time, one after the other.
#[test]
fn a_build_waits_no_longer_for_each_connection(rt: HostRuntime) -> Result<(), Fail> {
    on_each(rt, &BUILT, |world| {
        world.connects.goes("~2+2+~+");
        let building = Pool::building(rt, world, full(3).waiting(3_000))?;
        // As it was made, for the wait and its end, and as the worker began.
        assert!(rt; world.watch(|| world.connects.hung() == 1 && world.readings() >= 4));
        world.let_go(&world.connects);
        let error = building.end()?.err().ok_or("a pool")?;
        assert_eq!(rt; error.kind(), ErrorKind::Timeout);
        equal(error.waited(), Some(Duration::from_secs(4)))
    })
}

// The first twelve openings fail. `max_retry_delay` is no bound of the wait.
#[test]
fn build_waits_as_long_as_a_caller(rt: HostRuntime) -> Result<(), Fail> {
    on_each(rt, &BUILT, |world| {
        world.connects.goes("------------");
        let mut settings = full(1);
        settings.max_retry_delay = Some(1);
        let build = Pool::building(rt, world, settings)?;
        for failed in 0..12 {
            assert!(rt; world.once_heard(&[Failed(Connect(failed))]));
            world.pass(1);
        }
        equal(build.end()??.status().connections, 1)
    })
}

// For its journal, or for its workers' lists: nothing is left of it, whether it waits or not.
#[test]
fn a_build_without_memory(rt: HostRuntime) -> Result<(), Fail> {
    on_each(rt, &ALL, |world| {
        let error = made(rt, world, SMALL.recorded(usize::MAX))
            .err()
            .ok_or("a pool")?;
        equal((error.kind(), world.ended()), (ErrorKind::Memory, 1))
    })?;
    let rows = [
        (usize::MAX, 0, false),
        (usize::MAX, 0, true),
        (1, usize::MAX, true),
    ];
    on_rows(rt, &BUILT, rows, |world, (workers, room, waits)| {
        let builder = builder(world, SMALL.workers(workers).recorded(room));
        let (place, manager) = (Place { world, rt }, Manager { world });
        let built = if waits {
            builder.build(place, manager)
        } else {
            builder.build_unchecked(place, manager)
        };
        assert_eq!(rt; built.err().ok_or("a pool")?.kind(), ErrorKind::Memory);
        assert_eq!(rt; (world.ended(), world.opened()), (1, 0));
        world.heard(&[])
    })
}

#[test]
fn a_million_connections_at_most(rt: HostRuntime) -> Result<(), Fail> {
    let row = "built; is connections=0; use; is connections=1";
    on_text(rt, &ALL, SMALL.most(1_000_000), row)
}

// Lengths of some nanoseconds, and of some seconds.
#[test]
fn getters(rt: HostRuntime) -> Result<(), Fail> {
    on_rows(rt, &BUILT, [1, 1_000_000_000], |world, unit| {
        let mut settings = full(1).most(4).living(5).expiring(6).waiting(7);
        settings.unit = unit;
        let pool = Pool::of(rt, world, settings)?;
        let clone = pool.try_clone()?;
        drop(pool);
        let Calls::Thread(pool) = &clone.calls else {
            return Err(Fail::from("another kind"));
        };
        assert_eq!(rt; (pool.max_size(), pool.min_idle()), (4, Some(1)));
        assert_eq!(rt; pool.test_on_check_out(), false);
        let of = |count| Duration::from_nanos(count * unit);
        assert_eq!(rt; pool.max_lifetime(), Some(of(5)));
        assert_eq!(rt; pool.idle_timeout(), Some(of(6)));
        equal(pool.connection_timeout(), of(7))
    })
}

#[test]
fn debug_texts(rt: HostRuntime) -> Result<(), Fail> {
    let alloc = rt.alloc();
    on_pools(rt, &BUILT, full(1), |_, pool| {
        let Calls::Thread(calls) = &pool.calls else {
            return Err(Fail::from("another kind"));
        };
        assert_eq!(rt;
            format!(in alloc; "{calls:?}")?.as_str(),
            "Pool { state: State { connections: 1, idle_connections: 1 }, \
             config: Config { max_size: 1, min_idle: Some(1), test_on_check_out: false, \
             max_lifetime: None, idle_timeout: None, connection_timeout: 30s, \
             error_handler: Ear, event_handler: Ear, connection_customizer: Ear }, \
             manager: Manager }"
        );
        let Lent::Thread(mut lent) = pool.get()? else {
            return Err(Fail::from("another kind"));
        };
        assert_eq!(rt; format!(in alloc; "{lent:?}")?.as_str(), "wire 0 shown 1");
        lent.shown = 8;
        assert_eq!(rt; format!(in alloc; "{lent:?}")?.as_str(), "wire 0 shown 8");
        let shown = format!(in alloc; "{:?}", calls.state())?;
        let wanted = "State { connections: 1, idle_connections: 0 }";
        equal(shown.as_str(), wanted)
    })
}
