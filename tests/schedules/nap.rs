// What pools are given beside a manager, and what tasks wait for, by the world's clock.

use crate::*;

/// A runtime and a timer of pools for tasks, and the handlers of those for threads.
#[derive(Clone, Copy)]
pub(crate) struct Place(pub(crate) &'static World);

impl fmt::Debug for Place {
    fn fmt<W: fmt::Write>(&self, f: &mut fmt::Formatter<W>) -> fmt::Result {
        f.write_str("Place")
    }
}

impl Clock for Place {
    fn monotonic(&self) -> io::Result<Duration> {
        Ok(Duration::from_millis(self.0.now()))
    }

    fn since_1970(&self) -> io::Result<Duration> {
        self.monotonic()
    }

    fn sleep(&self, duration: Duration) {
        self.0.rt.sleep(duration)
    }
}

impl Alloc for Place {
    type A = Global;

    fn alloc(&self) -> Global {
        self.0.rt.alloc()
    }
}

/// A sleep until then. A run sees by itself which have ended: none has a waker.
#[derive(Drop)]
pub(crate) struct Nap(&'static World, u64);

impl Future for Nap {
    type Output = ();

    fn poll(&mut self, _cx: &mut Context<'_>) -> Poll<()> {
        if self.0.now() >= self.1 {
            return Poll::Ready(());
        }
        self.0.sleeps_until(self.1);
        Poll::Pending
    }
}

impl r2d2_async::Timer for Place {
    type Sleep = Nap;

    fn sleep(&self, length: Duration) -> Nap {
        let now = self.0.now();
        Nap(self.0, now.saturating_add(length.as_millis() as u64))
    }
}

/// An opening, which takes one poll, or two where it is slow.
pub(crate) struct Opening {
    world: &'static World,
    is_slow: bool,
}

impl Future for Opening {
    type Output = Result<Line, fmt::Error>;

    fn poll(&mut self, cx: &mut Context<'_>) -> Poll<Result<Line, fmt::Error>> {
        if mem::replace(&mut self.is_slow, false) {
            return cx.yield_now();
        }
        Poll::Ready(Line::open(self.world))
    }
}

impl Drop for Opening {
    fn drop(self) {
        let Opening { world, is_slow: _ } = self;
        world.take_off(Count::Opening);
    }
}

/// A check, which takes two polls; one, where a failed one tells of others.
#[derive(Drop)]
pub(crate) struct Checking {
    line: Option<Line>,
    is_slow: bool,
    began: u64,
}

impl Future for Checking {
    type Output = (Line, Result<(), fmt::Error>);

    fn poll(&mut self, cx: &mut Context<'_>) -> Poll<(Line, Result<(), fmt::Error>)> {
        let line = if self.is_slow { None } else { self.line.take() };
        self.is_slow = false;
        let Some(mut line) = line else {
            return cx.yield_now();
        };
        let checked = line.ends_check(self.began);
        Poll::Ready((line, checked))
    }
}

impl r2d2_async::ManageConnection for Manager {
    type Connection = Line;

    type Error = fmt::Error;

    type Extension = ();

    type Connect = Opening;

    type Check = Checking;

    fn connect(&self) -> Opening {
        let (world, is_slow) = (self.0, self.0.plan.slow_openings);
        world.tell("begins to open a connection");
        world.add(Count::Opening);
        Opening { world, is_slow }
    }

    fn check(&self, mut line: Line) -> Checking {
        line.begins_check();
        Checking {
            line: Some(line),
            is_slow: !self.0.plan.distrusts,
            began: self.0.now(),
        }
    }

    fn has_broken(&self, line: &mut Line) -> bool {
        line.comes_back()
    }
}
