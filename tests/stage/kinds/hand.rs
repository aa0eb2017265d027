// Calls that go on: in threads of their own, or in tasks that a row polls by hand.

use crate::kinds::{Calls, Drain, Get, Pool, length};
use crate::world::{Host, World};
use futures::Future;
use futures::task::Poll;
use futures::test::MockTask;
use std::sync::Arc;
use std::sync::atomic::{AtomicBool, Ordering};
use std::test::Fail;
use std::thread;
use std::thread::JoinHandle;

/// A call in a thread of its own.
#[derive(Drop)]
pub(crate) struct Beside<T> {
    handle: JoinHandle<T>,
    is_over: Arc<AtomicBool>,
}

impl<T: Send + Drop + 'static> Beside<T> {
    /// It begins.
    pub(crate) fn start<R: Host, C>(rt: R, call: C) -> Result<Beside<T>, Fail>
    where
        C: FnOnce() -> T + Send + Drop + 'static,
    {
        let is_over = Arc::new(rt.alloc(), AtomicBool::new(false))?;
        let theirs = Arc::try_clone(&is_over)?;
        let call = move || {
            let answer = call();
            theirs.store(true, Ordering::SeqCst);
            answer
        };
        let handle = thread::spawn(&rt, call)?;
        Ok(Beside { handle, is_over })
    }
}

impl<T: Drop> Beside<T> {
    pub(crate) fn is_over(&self) -> bool {
        self.is_over.load(Ordering::SeqCst)
    }

    /// What it ends with, which it is to do now.
    pub(crate) fn end<R: Host>(self, rt: R, world: &World) -> Result<T, Fail> {
        if !world.watch(|| self.is_over()) {
            return Err(Fail::from("it does not end"));
        }
        let Beside { handle, .. } = self;
        Ok(handle.join(&rt))
    }
}

/// A task that is polled by hand.
#[derive(Drop)]
pub(crate) struct Hand<F: Future<Output: Drop>> {
    task: MockTask,
    future: F,
    pub(crate) output: Option<F::Output>,
}

impl<F: Future<Output: Drop>> Hand<F> {
    pub(crate) fn new<R: Host>(rt: R, future: F) -> Result<Hand<F>, Fail> {
        Ok(Hand {
            task: MockTask::new(&rt)?,
            future,
            output: None,
        })
    }

    /// One poll, whether it was woken or not. Whether it has ended.
    pub(crate) fn poll(&mut self) -> bool {
        if self.output.is_none() {
            if let Poll::Ready(output) = self.task.poll(&mut self.future) {
                self.output = Some(output);
            }
        }
        self.output.is_some()
    }

    /// Polls for as long as it is woken. Whether it has ended.
    pub(crate) fn run(&mut self) -> bool {
        for _ in 0..1_000 {
            if !self.is_woken() || self.poll() {
                break;
            }
        }
        self.output.is_some()
    }

    /// Whether it was woken since its last poll began.
    pub(crate) fn is_woken(&self) -> bool {
        self.task.is_woken()
    }
}

/// A call that waits: in a thread, or in a task that is polled by hand.
#[derive(Drop)]
pub(crate) enum Call<T, F: Future<Output: Drop>> {
    Thread(Beside<T>),
    Hand(Hand<F>),
}

impl<T: Drop, F: Future<Output: Drop>> Call<T, F> {
    /// Whether it has ended: where it is polled by hand, if it was woken for that.
    pub(crate) fn has_ended(&mut self) -> bool {
        match self {
            Call::Thread(beside) => beside.is_over(),
            Call::Hand(hand) => hand.run(),
        }
    }

    /// Whether it was woken since its last poll began, where it is polled by hand.
    pub(crate) fn is_woken(&self) -> bool {
        match self {
            Call::Thread(_) => false,
            Call::Hand(hand) => hand.is_woken(),
        }
    }

    /// One poll by hand, whether it was woken or not. Whether it has ended.
    pub(crate) fn poll(&mut self) -> bool {
        match self {
            Call::Thread(_) => false,
            Call::Hand(hand) => hand.poll(),
        }
    }
}

impl<R: Host> Pool<R> {
    /// A `get` that is not polled yet, where it is polled by hand.
    pub(crate) fn comes(&self, timeout: u64) -> Result<Get<R>, Fail> {
        match &self.calls {
            Calls::Task(tasks) => {
                let get = tasks.get_timeout(length(timeout))?;
                Ok(Call::Hand(Hand::new(self.rt, get)?))
            }
            _ => Err(Fail::from("no task")),
        }
    }

    /// A drain that is not polled yet, where it is polled by hand.
    pub(crate) fn drains(&self, timeout: u64) -> Result<Drain<R>, Fail> {
        match &self.calls {
            Calls::Task(tasks) => {
                let drain = tasks.drain(length(timeout))?;
                Ok(Call::Hand(Hand::new(self.rt, drain)?))
            }
            _ => Err(Fail::from("no task")),
        }
    }

    /// One poll of each worker that is polled by hand, whether it was woken or not.
    pub(crate) fn poll_workers(&self) {
        for hand in self.hands.lock(&self.rt).iter_mut() {
            hand.poll();
        }
    }

    /// Whether a worker that is polled by hand was woken.
    pub(crate) fn is_to_work(&self) -> bool {
        self.hands.lock(&self.rt).iter().any(|hand| hand.is_woken())
    }

    /// The first worker that is polled by hand is dropped.
    pub(crate) fn dismiss(&self) {
        let first = self.hands.lock(&self.rt).remove(0);
        drop(first);
    }

    /// All of them are.
    pub(crate) fn dismiss_all(&self) {
        self.hands.lock(&self.rt).clear();
    }
}
