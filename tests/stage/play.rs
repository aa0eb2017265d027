// Rows in text. A step is a verb and what it is about, and ends at `;` or with its line. Lengths
// are in milliseconds. Calls, and connections that are lent, have names; a number may follow.
//
// - `connects ~-`: from now on the connects go so (script.rs); `go connects`: what hangs goes on.
// - `get a=0`: a connection comes at once, the first that was opened; `find a`: by `try_get`;
//   `use`: it goes back at once; `back a`, `away a`: it goes back, in this thread, or another one.
// - `ask p=50`: a call begins, for so long; `own`: for as long as the pool says; `come p`: it is
//   not polled yet; `rest p`: it came to its wait. So do drains: `drain d=50`, `drains d`.
// - `take p`: the call ends, and its connection has its name now; `serve p`: that goes back at
//   once; `turns p q`: they are served in this order; `all p q`: in any.
// - `late p`, `closed p`, `full p`, `undrained d`: it ends in vain; `with`: what it was told then.
// - `ends p`, `waits p`: it has ended, or not, as it was woken; `polled p`, `pending p`: at a poll.
// - `is idle=1 checks.asked=2`: so it is now; `until`, `watch`: at last; `never`: for a while not.
// - `mark checks`: from now on `checks.more` counts anew; `checks.since`: since they were set.
// - `hear s0 a0`: all that was told since the last such question; `once`: among other things.
// - `part`: the pool is dropped, but for what is lent; `vanish`: and its workers; `end`: all ends.

use crate::kinds::Call;
use crate::rows::*;
use futures::Future;
use r2d2::event::ReleaseReason;
use std::thread::JoinHandle;

/// Those who go by a name.
type Cast<T> = Vec<(&'static str, T)>;

/// A row in text, as it is played on a pool.
#[derive(Drop)]
pub(crate) struct Play<R: Host> {
    pub(crate) world: &'static World,
    pub(crate) pool: Pool<R>,
    lent: Cast<Lent<R>>,
    gets: Cast<Get<R>>,
    drains: Cast<Drain<R>>,
    /// What was detached.
    pub(crate) wires: Vec<Wire>,
    // Whether all went well in other threads.
    threads: Vec<JoinHandle<bool>>,
    // What the latest call was told that ended in vain, and the status with that, or the latest
    // one of a pool that is gone.
    error: Option<Error>,
    status: Option<Status>,
    // How often something was asked for, as a row marked it.
    mark: u64,
}

fn taken<T: Drop>(cast: &mut Cast<T>, name: &str) -> Result<T, Fail> {
    let place = cast.iter().position(|it| it.0 == name);
    let (_, taken) = cast.remove(place.ok_or("nobody has this name")?);
    Ok(taken)
}

fn verb_of(step: &'static str) -> (&'static str, &'static str) {
    step.split_once(' ').unwrap_or((step, ""))
}

fn number_if(word: &str) -> Option<u64> {
    match word {
        "max" => Some(u64::MAX),
        _ => word.parse::<u64>().ok(),
    }
}

fn number(word: &str) -> Result<u64, Fail> {
    Ok(number_if(word).ok_or("no number")?)
}

// `s0` tells that the customizer was shown the first connection. So do `a`, of an acquire; `c0,5`,
// of a checkout after 5 ms, and `r0,5`, of a return; `g0,5,Broken`, of a release; `e0`, of a
// connection that the customizer was given, and `d0`, of one that was dropped. `T` and a length
// tell of a timeout; `C0`, `S0` and `K0`, of a connect, a showing and a check that failed.
fn told(word: &str) -> Result<Told, Fail> {
    let mut parts = word[1..].split(',');
    let id = number(parts.next().unwrap_or(""))?;
    let length = number(parts.next().unwrap_or("0"))?;
    Ok(match &word[..1] {
        "s" => Shown(id),
        "a" => Acquire(id),
        "c" => Checkout(id, length),
        "r" => Checkin(id, length),
        "g" => Release(id, length, reason(parts.next().unwrap_or(""))?),
        "e" => Ended(id),
        "d" => Dropped(id),
        "T" => Timeout(id),
        "C" => Failed(Connect(id)),
        "S" => Failed(Sorry::Shown(id)),
        "K" => Failed(Check(id)),
        _ => return Err(Fail::from("nothing is told so")),
    })
}

fn reason(word: &str) -> Result<ReleaseReason, Fail> {
    Ok(match word {
        "Broken" => Broken,
        "CheckFailed" => CheckFailed,
        "Detached" => Detached,
        "Distrusted" => Distrusted,
        "Evicted" => Evicted,
        "Idle" => Idle,
        "Lifetime" => Lifetime,
        "PoolClosed" => PoolClosed,
        _ => return Err(Fail::from("no such reason")),
    })
}

// What goes by this name, or nothing.
fn in_status(status: Status, name: &str) -> Option<Option<u64>> {
    Some(Some(match name {
        "since" => return Some(status.waiting_since.map(milliseconds)),
        "latest" => return Some(status.latest_failure.map(milliseconds)),
        "workers" => return Some(status.workers.map(u64::from)),
        "max_size" => u64::from(status.max_size),
        "wanted" => u64::from(status.wanted),
        "connections" => u64::from(status.connections),
        "idle" => u64::from(status.idle),
        "lent" => u64::from(status.lent),
        "opening" => u64::from(status.opening),
        "waiting" => status.waiting,
        "failed_openings" => status.failed_openings,
        "failed_checks" => status.failed_checks,
        "refused" => status.refused,
        "timeouts" => status.timeouts,
        "closed" => u64::from(status.closed),
        _ => return None,
    }))
}

impl World {
    fn script(&self, name: &str) -> Option<&Script> {
        Some(match name {
            "connects" => &self.connects,
            "checks" => &self.checks,
            "breaks" => &self.breaks,
            "shows" => &self.shows,
            "hears" => &self.hears,
            "tells" => &self.tells,
            "readings" => &self.readings,
            "allocs" => &self.allocs,
            _ => return None,
        })
    }

    // What the world does, and what was told in it; whether that is a step of the world.
    fn step(&self, verb: &str, rest: &'static str) -> Result<bool, Fail> {
        match verb {
            "" => {}
            "pass" => self.pass(number(rest)?),
            "go" => self.let_go(self.script(rest).ok_or("no such script")?),
            "hang" => self.hang_at(told(rest)?),
            "forget" => self.forget(),
            "tell_drops" => self.tell_drops(),
            "settle" => holds(!self.glimpse(|| false))?,
            "hear" => self.heard(self.tolds(rest)?.as_slice())?,
            "once" => holds(self.once_heard(self.tolds(rest)?.as_slice()))?,
            "hung" => holds(self.once_hung())?,
            _ => match self.script(verb) {
                Some(script) => script.goes(rest),
                None => return Ok(false),
            },
        }
        Ok(true)
    }

    // All that these words tell of.
    fn tolds(&self, words: &str) -> Result<Vec<Told>, Fail> {
        let mut tolds = Vec::new(self.rt.alloc());
        for word in words.split_whitespace() {
            tolds.push(told(word)?)?;
        }
        Ok(tolds)
    }
}

fn one_call<T: Drop, F: Future<Output: Drop>>(
    verb: &str,
    call: &mut Call<T, F>,
) -> Result<(), Fail> {
    holds(match verb {
        "ends" => call.has_ended(),
        "waits" => !call.has_ended(),
        "woken" => call.is_woken(),
        "asleep" => !call.is_woken(),
        "polled" => call.poll(),
        "pending" => !call.poll(),
        _ => return Err(Fail::from("no such verb")),
    })
}

impl<R: Host> Play<R> {
    fn new(world: &'static World, pool: Pool<R>) -> Play<R> {
        let alloc = world.rt.alloc();
        Play {
            world,
            pool,
            lent: Vec::new(alloc),
            gets: Vec::new(alloc),
            drains: Vec::new(alloc),
            wires: Vec::new(alloc),
            threads: Vec::new(alloc),
            error: None,
            status: None,
            mark: 0,
        }
    }

    /// Plays these steps.
    pub(crate) fn run(&mut self, text: &'static str) -> Result<(), Fail> {
        for line in text.lines() {
            for step in line.split(';') {
                if let Err(why) = self.step(step.trim()) {
                    println!(self.world.rt; "at: {step}; {:?}", self.now()).ok();
                    return Err(why);
                }
            }
        }
        Ok(())
    }

    // The status, or the latest one if the pool is gone.
    fn now(&self) -> Option<Status> {
        match &self.pool.calls {
            Calls::Gone => self.status,
            calls => Some(calls.status()),
        }
    }

    // What goes by this name: in this status, or in that of now. Lengths are in milliseconds.
    fn seen(&self, status: Option<Status>, name: &str) -> Option<Option<u64>> {
        let (world, error) = (self.world, self.error.as_ref());
        if let Some((script, what)) = name.split_once('.') {
            let script = world.script(script)?;
            return Some(Some(match what {
                "asked" => script.asked(),
                "more" => script.asked() - self.mark,
                "since" => script.asked_since(),
                "hung" => script.hung(),
                _ => return None,
            }));
        }
        Some(match name {
            "waited" => error?.waited().map(milliseconds),
            "ahead" => error?.ahead().map(|count| count as u64),
            "slept" => world.slept(),
            "opened" => Some(world.opened()),
            "dropped" => Some(world.dropped()),
            "ended" => Some(world.ended()),
            "given_up" => Some(world.given_up()),
            _ => return in_status(status.or_else(|| self.now())?, name),
        })
    }

    // Whether this is so: `idle=1`, or `idle>=1`, and `since=-` where there is none.
    fn is_so(&self, status: Option<Status>, word: &str) -> Option<bool> {
        let (name, least) = word.split_once(">=").unwrap_or((word, ""));
        if least != "" {
            return Some(self.seen(status, name)? >= Some(number_if(least)?));
        }
        let (name, wanted) = word.split_once('=')?;
        let wanted = match wanted {
            "-" => None,
            _ => Some(number_if(wanted)?),
        };
        Some(self.seen(status, name)? == wanted)
    }

    fn are(&self, status: Option<Status>, words: &str) -> bool {
        let is_so = |word: &str| self.is_so(status, word) == Some(true);
        words.split_whitespace().all(|word| word.split('|').any(is_so))
    }

    fn step(&mut self, step: &'static str) -> Result<(), Fail> {
        let (verb, rest) = verb_of(step);
        match self.world.step(verb, rest)? {
            true => Ok(()),
            false => self.look(verb, rest),
        }
    }

    // What is seen of the pool.
    fn look(&mut self, verb: &'static str, rest: &'static str) -> Result<(), Fail> {
        match verb {
            "is" => holds(self.are(None, rest)),
            "with" => holds(self.status.is_some() && self.are(self.status, rest)),
            "mark" => {
                self.mark = self.world.script(rest).ok_or("no such script")?.asked();
                Ok(())
            }
            "until" => self.pool.until(|status| self.are(Some(*status), rest)),
            "watch" => holds(self.world.watch(|| self.are(None, rest))),
            "never" => holds(!self.world.glimpse(|| self.are(None, rest))),
            "opening" => self.pool.until_opening(number(rest)?),
            "says" | "prints" | "bare" => self.step_of_error(verb, rest),
            "none" => holds(self.pool.try_get()?.is_none()),
            "some" => holds(self.pool.try_get()?.is_some()),
            "busy" => holds(self.pool.is_to_work()),
            "idles" => holds(!self.pool.is_to_work()),
            _ => self.step_of_pool(verb, rest),
        }
    }

    // What the pool does.
    fn step_of_pool(&mut self, verb: &'static str, rest: &'static str) -> Result<(), Fail> {
        match verb {
            "to" => self.come_to(number(rest)? * 1_000),
            "use" => {
                let lent = self.pool.get()?;
                holds(rest == "" || lent.number() == number(rest)?)
            }
            "evict" => equal(self.pool.evict()? as u64, number(rest)?),
            "close" => Ok(self.pool.close()),
            "work" => Ok(self.pool.work()),
            "poll" => Ok(self.pool.poll_workers()),
            "dismiss" => Ok(self.pool.dismiss()),
            "shed" => Ok(self.wires.clear()),
            "evicting" | "closing" | "reporting" => self.call_aside(verb, rest),
            "join" => self.join(),
            "refused" => self.pool.refused().map(|error| self.error = Some(error)),
            "beside" => self.go_beside(rest),
            "either" => self.one_of(rest),
            "turns" => {
                let line = self.called(rest)?;
                self.pool.in_turn(line)
            }
            "all" => {
                let calls = self.called(rest)?;
                equal(calls.len() as u64, self.pool.all_end(calls)?)
            }
            "part" | "parting" | "vanish" | "end" => self.leave(verb),
            _ => self.steps_of_all(verb, rest),
        }
    }

    // The clock goes to this moment of the pool's life.
    fn come_to(&self, then: u64) -> Result<(), Fail> {
        let now = self.pool.uptime();
        self.world.turn_back(now.saturating_sub(then));
        Ok(self.world.pass(then.saturating_sub(now)))
    }

    // What the latest call was told that ended in vain.
    fn step_of_error(&mut self, verb: &str, rest: &'static str) -> Result<(), Fail> {
        let error = self.error.as_ref().ok_or("no error")?;
        match verb {
            "says" => equal(error.message().unwrap_or("nothing"), rest),
            "prints" => equal(error.to_string(self.world.rt.alloc())?.as_str(), rest),
            _ => {
                let is_bare = error.message().is_none() && error.status().is_none();
                holds(is_bare && error.waited().is_none() && error.ahead().is_none())
            }
        }
    }

    // A call in a thread of its own; so many are to be evicted.
    fn call_aside(&mut self, verb: &'static str, rest: &str) -> Result<(), Fail> {
        let (rt, wanted) = (self.pool.rt, number_if(rest));
        let call = move |calls: &Calls<R>| match verb {
            "evicting" => calls.evict(rt).is_ok_and(|count| Some(count as u64) == wanted),
            "reporting" => calls.journal().is_ok(),
            _ => {
                calls.close();
                true
            }
        };
        Ok(self.threads.push(self.pool.aside(call)?)?)
    }

    // All threads end, and all went well in them.
    fn join(&mut self) -> Result<(), Fail> {
        while !self.threads.is_empty() {
            holds(self.threads.remove(0).join(&self.pool.rt))?;
        }
        Ok(())
    }

    // The pool is gone, but for what is lent; by another thread; with its workers; or wholly.
    fn leave(&mut self, verb: &str) -> Result<(), Fail> {
        self.status = self.now();
        let calls = self.pool.go();
        if verb == "parting" {
            return self.in_a_thread(move || drop(calls));
        }
        drop(calls);
        match verb {
            "part" => Ok(()),
            "vanish" => Ok(self.pool.dismiss_all()),
            _ => self.pool.at_end(),
        }
    }

    fn in_a_thread<F: FnOnce() + Send + Drop + 'static>(&mut self, act: F) -> Result<(), Fail> {
        let act = move || {
            act();
            true
        };
        Ok(self.threads.push(thread::spawn(&self.pool.rt, act)?)?)
    }

    // A call goes on until the status is so.
    fn go_beside(&mut self, rest: &'static str) -> Result<(), Fail> {
        let (name, wanted) = rest.split_once(' ').ok_or("until when")?;
        let mut get = taken(&mut self.gets, name)?;
        let is_so = |status: &Status| self.are(Some(*status), wanted);
        self.pool.until_beside(&mut get, is_so)?;
        Ok(self.gets.push((name, get))?)
    }

    // One of two is lent a connection, and the other one waits on, by the second name.
    fn one_of(&mut self, rest: &'static str) -> Result<(), Fail> {
        let (one, other) = rest.split_once(' ').ok_or("two names")?;
        let mut calls = self.called(rest)?;
        let lent = first_ended(self.world, self.pool.rt, &mut calls, || ())??;
        self.lent.push((one, lent))?;
        Ok(self.gets.push((other, calls.remove(0)))?)
    }

    fn called(&mut self, names: &str) -> Result<Vec<Get<R>>, Fail> {
        let mut calls = Vec::new(self.world.rt.alloc());
        for name in names.split_whitespace() {
            calls.push(taken(&mut self.gets, name)?)?;
        }
        Ok(calls)
    }

    // The same step for each of these names, behind which a number may stand.
    fn steps_of_all(&mut self, verb: &str, rest: &'static str) -> Result<(), Fail> {
        for word in rest.split_whitespace() {
            let (name, value) = word.split_once('=').unwrap_or((word, ""));
            self.step_of_one(verb, name, value)?;
        }
        if rest.is_empty() {
            return Err(Fail::from("no such verb"));
        }
        Ok(())
    }

    fn step_of_one(&mut self, verb: &str, name: &'static str, value: &str) -> Result<(), Fail> {
        let own = || if value == "" { Ok(LONG) } else { number(value) };
        let pool = &self.pool;
        match verb {
            "ask" if value == "own" => self.gets.push((name, pool.begin_plainly()?))?,
            "ask" => self.gets.push((name, pool.begin(own()?)?))?,
            "come" => self.gets.push((name, pool.comes(own()?)?))?,
            "rest" => self.gets.push((name, pool.begun(own()?)?))?,
            "drain" => self.drains.push((name, pool.drain(own()?)?))?,
            "drains" => self.drains.push((name, pool.drains(own()?)?))?,
            "get" => {
                let lent = pool.get()?;
                return self.keep(name, lent, value);
            }
            "find" => {
                let lent = pool.try_get()?.ok_or("none")?;
                return self.keep(name, lent, value);
            }
            "back" => drop(taken(&mut self.lent, name)?),
            "detach" => self.wires.push(taken(&mut self.lent, name)?.detach())?,
            "away" => {
                let lent = taken(&mut self.lent, name)?;
                self.in_a_thread(move || drop(lent))?;
            }
            "at" | "id" | "shown" | "keep" | "write" | "reads" => {
                return self.step_of_lent(verb, name, number(value)?);
            }
            "again" => {
                let lent = taken(&mut self.lent, name)?;
                self.gets.push((name, pool.again(lent)?))?;
            }
            _ => return self.step_of_call(verb, name, value),
        }
        Ok(())
    }

    // What is seen of a connection that is lent, and what is kept beside it.
    fn step_of_lent(&mut self, verb: &str, name: &str, value: u64) -> Result<(), Fail> {
        let lent = self.lent.iter_mut().find(|it| it.0 == name);
        let (_, lent) = lent.ok_or("nothing is lent under this name")?;
        match verb {
            "at" => equal(lent.lent_at(), value),
            "id" => equal(lent.id(), value),
            "shown" => equal(lent.shown(), value),
            "keep" => Ok(lent.keep(Kept::number(value as u32))),
            "write" => Ok(lent.write(value)),
            _ => equal(lent.mark(), value),
        }
    }

    // It is lent under this name; which one it is may be given.
    fn keep(&mut self, name: &'static str, lent: Lent<R>, wanted: &str) -> Result<(), Fail> {
        holds(wanted == "" || lent.number() == number(wanted)?)?;
        Ok(self.lent.push((name, lent))?)
    }

    // How a call goes on, or ends.
    fn step_of_call(&mut self, verb: &str, name: &'static str, value: &str) -> Result<(), Fail> {
        if verb == "drained" || verb == "undrained" {
            let drain = taken(&mut self.drains, name)?;
            let left = self.pool.drained(drain)?.err();
            holds(left.is_some() == (verb == "undrained"))?;
            self.status = left.or(self.status);
            return Ok(());
        }
        if let Some((_, drain)) = self.drains.iter_mut().find(|it| it.0 == name) {
            return match verb {
                "leave" => taken(&mut self.drains, name).map(drop),
                _ => one_call(verb, drain),
            };
        }
        let mut get = taken(&mut self.gets, name)?;
        let kind = match verb {
            "leave" => return Ok(()),
            "serve" | "take" => {
                let lent = self.pool.end(get)??;
                self.keep(name, lent, value)?;
                return match verb {
                    "take" => Ok(()),
                    _ => self.step_of_one("back", name, ""),
                };
            }
            "late" => ErrorKind::Timeout,
            "closed" => ErrorKind::Closed,
            "full" => ErrorKind::QueueFull,
            _ => {
                match verb {
                    "comes" => holds(self.pool.ends(&mut get))?,
                    "in_time" => holds(self.pool.ends_in_time(&mut get))?,
                    _ => one_call(verb, &mut get)?,
                }
                return Ok(self.gets.push((name, get))?);
            }
        };
        let error = self.pool.vain(get, kind)?;
        self.status = error.status();
        self.error = Some(error);
        Ok(())
    }
}

/// Plays a row on each of these kinds, on a pool with these settings: with more than text.
pub(crate) fn on_play<R: Host, F: Fn(Play<R>) -> Result<(), Fail>>(
    rt: R,
    kinds: &[Kind],
    settings: Settings,
    row: F,
) -> Result<(), Fail> {
    on_pools(rt, kinds, settings, |world, pool| {
        row(Play::new(world, pool))
    })
}

/// Plays this text. Steps of the world may come before `made;`, or before `built;`, where the pool
/// is made by `build`.
pub(crate) fn on_text<R: Host>(
    rt: R,
    kinds: &[Kind],
    settings: Settings,
    text: &'static str,
) -> Result<(), Fail> {
    let built = text.split_once("built;");
    let (before, after) = built.or(text.split_once("made;")).unwrap_or(("", text));
    on_each(rt, kinds, |world| {
        for step in before.split(';') {
            let (verb, rest) = verb_of(step.trim());
            holds(world.step(verb, rest)?)?;
        }
        let pool = match built {
            Some(_) => Pool::built(rt, world, settings)?,
            None => Pool::of(rt, world, settings)?,
        };
        Play::new(world, pool).run(after)
    })
}

const SIGNS: [&str; 6] = ["$1", "$2", "$3", "$4", "$5", "$6"];

/// The same with each of these settings and words, which end at a `/` and stand for these signs.
pub(crate) fn on_texts<R: Host, const N: usize>(
    rt: R,
    kinds: &[Kind],
    rows: [(Settings, &'static str); N],
    text: &'static str,
) -> Result<(), Fail> {
    for (settings, words) in rows {
        println!(rt; "{words}").ok();
        let mut filled = String::from_str(rt.alloc(), text)?;
        for (sign, word) in SIGNS.into_iter().zip(words.split('/')) {
            filled = filled.as_str().replace(rt.alloc(), sign, word.trim())?;
        }
        let filled: &'static String = Box::leak(Box::new(rt.alloc(), filled)?);
        on_text(rt, kinds, settings, filled.as_str())?;
    }
    Ok(())
}
