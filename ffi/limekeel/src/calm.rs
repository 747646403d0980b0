//! Waiting until pressure at a budget has ended.
//!
//! The archive tells each turn of pressure to the call that made it, and wakes nobody, so that is here. No ring is lost: who waits
//! says so and then looks at the budget; who ends pressure has changed the budget and then reads whether one waits.

use crate::budget::Budget;
use crate::waits::{Bell, end_of, lock};
use std::future::Future;
use std::mem::replace;
use std::pin::Pin;
use std::sync::Mutex;
use std::sync::atomic::{AtomicBool, Ordering};
use std::task::{Context, Poll, Waker};
use std::time::Duration;

/// Who waits until pressure at a budget has ended.
#[derive(Debug, Default)]
pub(crate) struct Waiters {
    threads: Bell,
    /// Whether a task may wait that is not woken yet.
    awaited: AtomicBool,
    tasks: Mutex<Tasks>,
}

/// Each task that waits has a place of its own until its future is dropped.
#[derive(Debug, Default)]
struct Tasks {
    places: Vec<Place>,
    /// The first place that is free, if there is one.
    free: Option<usize>,
}

#[derive(Debug)]
enum Place {
    /// Nobody's, and the next that is free.
    Free(Option<usize>),
    /// A task's, with its waker until it is woken.
    Taken(Option<Waker>),
}

impl Tasks {
    /// A place for one more, if memory is not refused.
    fn enter(&mut self) -> Option<usize> {
        if let Some(place) = self.free {
            let Place::Free(next) = replace(&mut self.places[place], Place::Taken(None)) else {
                unreachable!("it is free")
            };
            self.free = next;
            return Some(place);
        }
        self.places.try_reserve(1).ok()?;
        self.places.push(Place::Taken(None));
        Some(self.places.len() - 1)
    }

    fn leave(&mut self, place: usize) -> Place {
        replace(&mut self.places[place], Place::Free(self.free.replace(place)))
    }

    /// The waker of the first from a place on that waits.
    fn next_waker(&mut self, from: &mut usize) -> Option<Waker> {
        while *from < self.places.len() {
            *from += 1;
            if let Place::Taken(waker) = &mut self.places[*from - 1] {
                if waker.is_some() {
                    return waker.take();
                }
            }
        }
        None
    }
}

impl Waiters {
    /// Wakes all who wait, after pressure has ended.
    #[cold]
    pub(crate) fn ring(&self) {
        self.threads.ring();
        if !self.awaited.swap(false, Ordering::SeqCst) {
            return;
        }
        let mut from = 0;
        loop {
            // a waker may run or drop what locks this mutex, so it is called without it
            let woken = lock(&self.tasks).next_waker(&mut from);
            match woken {
                Some(waker) => waker.wake(),
                None => return,
            }
        }
    }

    /// Sleeps until this is no more so, or for as long as the limit is: then it answers false.
    pub(crate) fn wait(&self, limit: Option<Duration>, is_pressed: impl Fn() -> bool) -> bool {
        self.threads.wait(limit.and_then(end_of), || (!is_pressed()).then_some(())).is_some()
    }

    /// Ready if this is no more so; else the task is woken at the next end, by the place that it has or takes.
    fn poll(&self, place: &mut Option<usize>, cx: &mut Context<'_>, is_pressed: impl Fn() -> bool) -> Poll<()> {
        if !is_pressed() {
            return Poll::Ready(());
        }
        let mut tasks = lock(&self.tasks);
        *place = place.or_else(|| tasks.enter());
        let Some(place) = *place else {
            drop(tasks);
            // no memory to be woken by: it asks again
            cx.waker().wake_by_ref();
            return Poll::Pending;
        };
        let old = replace(&mut tasks.places[place], Place::Taken(Some(cx.waker().clone())));
        self.awaited.store(true, Ordering::SeqCst);
        drop(tasks);
        // what a user's waker does when it is dropped is not done under the mutex
        drop(old);
        if is_pressed() { Poll::Pending } else { Poll::Ready(()) }
    }
}

/// The future of the end of pressure at a budget, from [`Budget::calm`]: it is ready once no pressure stands.
///
/// Each that waits is woken at each end. It can be dropped at any time.
#[derive(Debug)]
#[must_use = "it waits only while it is polled"]
pub struct Calm {
    budget: Budget,
    place: Option<usize>,
}

impl Calm {
    pub(crate) fn new(budget: Budget) -> Calm {
        Calm { budget, place: None }
    }
}

impl Future for Calm {
    type Output = ();

    fn poll(mut self: Pin<&mut Self>, cx: &mut Context<'_>) -> Poll<()> {
        let Calm { budget, place } = &mut *self;
        budget.waiters().poll(place, cx, || budget.is_pressed())
    }
}

impl Drop for Calm {
    fn drop(&mut self) {
        if let Some(place) = self.place {
            // what stood there is dropped without the mutex
            let _old = lock(&self.budget.waiters().tasks).leave(place);
        }
    }
}

#[cfg(test)]
mod tests {
    use super::Waiters;
    use std::cell::Cell;
    use std::task::{Context, Poll, Waker};
    use std::time::Duration;

    /// The end comes, and is rung, between the first look of one that waits and its word that it does: nobody rings for it again.
    #[test]
    fn an_end_is_seen_that_comes_as_one_begins_to_wait() {
        let waiters = Waiters::default();
        let looks = Cell::new(0);
        let is_pressed = || {
            looks.set(looks.get() + 1);
            let before = looks.get() == 1;
            if before {
                waiters.ring();
            }
            before
        };
        let mut place = None;
        let answer = waiters.poll(&mut place, &mut Context::from_waker(Waker::noop()), is_pressed);
        assert_eq!((answer, looks.get()), (Poll::Ready(()), 2));
        looks.set(0);
        assert!(waiters.wait(Some(Duration::from_secs(20)), is_pressed));
        assert_eq!(looks.get(), 2);
    }
}
