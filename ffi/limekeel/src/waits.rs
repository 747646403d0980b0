//! How threads wait for each other: for the lock of a shared connection, and until one rings.
//!
//! The archive tries its lock once a call and wakes nobody, so all of that is here. What is told of a connection does not hang
//! on it: the archive's lock keeps calls apart, and a fault in this file could at most let a thread wait.

use std::sync::atomic::{AtomicBool, Ordering};
use std::sync::{Condvar, Mutex, MutexGuard, PoisonError};
use std::thread;
use std::time::{Duration, Instant};

/// What a thread that found the lock taken lets pass before each further try, in microseconds, before it gives its processor away:
/// one try for each. The lock is had for less than a microsecond most often, but who has it makes more calls meanwhile, and that
/// costs less than to hand over the lock, and what it guards, for each: threads that try again at once were seen to make half as many
/// calls together.
#[derive(Clone, Copy)]
pub(crate) struct Pauses([u64; 6]);

/// Of most calls.
const SHORT: Pauses = Pauses([2, 4, 8, 16, 16, 16]);
/// Of those of the thread that sends: if it met one call it goes on behind that; else what is written meanwhile goes by the same
/// call to the socket.
const LONG: Pauses = Pauses([2, 30, 30, 30, 30, 30]);
/// How often it gives its processor away between tries then, before it stands in line.
const YIELDS: u32 = 12;
/// How long the first in line sleeps between two tries.
const NAP: Duration = Duration::from_micros(50);
/// How long one waits in line before those stand in line too who come: in line each costs the waking of a thread.
const PATIENCE: Duration = Duration::from_millis(50);
/// Over how many bells those in line are spread, so that few wake in vain.
const SEATS: usize = 16;

/// A mutex that is never poisoned: what is kept under those of this crate is whole between any two statements that may panic.
pub(crate) fn lock<T>(mutex: &Mutex<T>) -> MutexGuard<'_, T> {
    mutex.lock().unwrap_or_else(PoisonError::into_inner)
}

/// Who waits for the archive's lock. Each thread in line has it before those behind it; and if the first has waited for long,
/// before all others. So who waits for long has it once those before it, and each call that is under way, are done.
#[derive(Debug, Default)]
pub(crate) struct Line {
    /// Whether the first has waited so long that nobody else tries.
    pressed: AtomicBool,
    tickets: Mutex<Tickets>,
    seats: [Condvar; SEATS],
}

#[derive(Debug, Default)]
struct Tickets {
    /// The next that is given.
    next: u32,
    /// That of the first in line.
    first: u32,
}

impl Line {
    /// What this call returns if it has the lock at once; else it returns nothing, and changes nothing.
    #[inline]
    pub(crate) fn at_once<T>(&self, call: impl FnOnce() -> Option<T>) -> Option<T> {
        // a late look at the flag costs the first in line one more nap, and nothing else hangs on it
        if self.pressed.load(Ordering::Relaxed) { None } else { call() }
    }

    /// What this call returns once it had the lock; till then it returns nothing, and changes nothing.
    #[inline]
    pub(crate) fn had<T>(&self, mut call: impl FnMut() -> Option<T>) -> T {
        match self.at_once(&mut call) {
            Some(answer) => answer,
            None => self.tried_again(SHORT, &mut call),
        }
    }

    /// The same for the thread that sends.
    #[inline]
    pub(crate) fn had_by_sender<T>(&self, mut call: impl FnMut() -> Option<T>) -> T {
        match self.at_once(&mut call) {
            Some(answer) => answer,
            None => self.tried_again(LONG, &mut call),
        }
    }

    #[cold]
    fn tried_again<T>(&self, pauses: Pauses, call: &mut impl FnMut() -> Option<T>) -> T {
        let spins = pauses.0.map(Some);
        for spin in spins.into_iter().chain((0..YIELDS).map(|_| None)) {
            if self.pressed.load(Ordering::Relaxed) {
                break;
            }
            match spin {
                Some(micros) => look_for(Duration::from_micros(micros), || false),
                None => thread::yield_now(),
            }
            if let Some(answer) = call() {
                return answer;
            }
        }
        self.in_line(call)
    }

    /// Stands in line, and tries until it has the lock.
    fn in_line<T>(&self, call: &mut impl FnMut() -> Option<T>) -> T {
        let since = Instant::now();
        let mine = self.stands_first();
        let answer = loop {
            let long = since.elapsed() >= PATIENCE;
            if long {
                self.pressed.store(true, Ordering::Relaxed);
            }
            if let Some(answer) = call() {
                break answer;
            }
            // nobody comes in between any more, so the lock is free soon
            if long { thread::yield_now() } else { thread::sleep(NAP) }
        };
        // the next says so itself
        self.pressed.store(false, Ordering::Relaxed);
        lock(&self.tickets).first = mine.wrapping_add(1);
        self.seat(mine.wrapping_add(1)).notify_all();
        answer
    }

    /// Takes a ticket and waits until it is the first.
    fn stands_first(&self) -> u32 {
        let mut tickets = lock(&self.tickets);
        let mine = tickets.next;
        tickets.next = mine.wrapping_add(1);
        // the number is read under the mutex under which it is written before its seat is woken
        while tickets.first != mine {
            tickets = self.seat(mine).wait(tickets).unwrap_or_else(PoisonError::into_inner);
        }
        mine
    }

    /// Where who has this ticket waits.
    fn seat(&self, ticket: u32) -> &Condvar {
        &self.seats[ticket as usize % SEATS]
    }
}

/// Looks until it has come what one is to wait for, or this time is over; the processor is not given away. Pauses come between looks,
/// each twice as long as the one before it up to a microsecond or so.
pub(crate) fn look_for(time: Duration, mut came: impl FnMut() -> bool) {
    if came() {
        return;
    }
    let start = Instant::now();
    let mut turn = 0;
    while start.elapsed() < time {
        (0..1 << turn).for_each(|_| std::hint::spin_loop());
        if came() {
            return;
        }
        turn = (turn + 1).min(4);
    }
}

/// Where threads sleep until something came.
///
/// No ring is lost. Who waits notes how often was rung, then says that it waits, and then looks. Who lets something come changes
/// that first and then reads whether one waits. Both look under one lock (the archive's, or a mutex) or by atomics in one order:
/// so either who waits sees what came, or who lets it come, or one that did so just before, sees that one waits, and then the
/// number differs. The note comes first: a ring that is late, for what is gone by now, may take back what the waiter says, and
/// counts before or after. If the waiter noted that count, it would sleep with nobody knowing of it. Each who is woken does all of
/// this again.
#[derive(Debug, Default)]
pub(crate) struct Bell {
    /// Whether one may wait that is not woken yet.
    awaited: AtomicBool,
    rung: Mutex<u64>,
    sleepers: Condvar,
}

impl Bell {
    /// Looks, and sleeps between looks, until something came or the time is over: then it returns nothing.
    pub(crate) fn wait<T>(&self, end: Option<Instant>, mut look: impl FnMut() -> Option<T>) -> Option<T> {
        if let Some(came) = look() {
            return Some(came);
        }
        loop {
            let seen = *lock(&self.rung);
            self.awaited.swap(true, Ordering::SeqCst);
            if let Some(came) = look() {
                return Some(came);
            }
            if !self.sleeps(seen, end) {
                return look();
            }
        }
    }

    /// Sleeps until it was rung more often than that, or the time is over: then it answers false.
    fn sleeps(&self, seen: u64, end: Option<Instant>) -> bool {
        let mut rung = lock(&self.rung);
        while *rung == seen {
            let Some(end) = end else {
                rung = self.sleepers.wait(rung).unwrap_or_else(PoisonError::into_inner);
                continue;
            };
            let left = end.saturating_duration_since(Instant::now());
            if left.is_zero() {
                return false;
            }
            rung = self.sleepers.wait_timeout(rung, left).unwrap_or_else(PoisonError::into_inner).0;
        }
        true
    }

    /// Wakes all who wait, after something came.
    #[inline]
    pub(crate) fn ring(&self) {
        // read before it is changed, since most often nobody waits
        if self.awaited.load(Ordering::SeqCst) && self.awaited.swap(false, Ordering::SeqCst) {
            *lock(&self.rung) += 1;
            self.sleepers.notify_all();
        }
    }
}

/// When a limit of time ends that begins now: a limit that no clock can tell is none.
pub(crate) fn end_of(limit: Duration) -> Option<Instant> {
    Instant::now().checked_add(limit)
}

#[cfg(test)]
mod tests {
    use super::{Bell, Line, lock};
    use std::sync::Mutex;
    use std::sync::atomic::{AtomicBool, Ordering};
    use std::thread;
    use std::time::{Duration, Instant};

    /// Waits until this is so, for ten seconds at most.
    fn until(what: &str, mut holds: impl FnMut() -> bool) {
        let start = Instant::now();
        while !holds() {
            assert!(start.elapsed() < Duration::from_secs(10), "{what}");
            thread::sleep(Duration::from_millis(1));
        }
    }

    /// Whatever becomes of a test, its threads have the lock at the end.
    struct Released<'a>(&'a AtomicBool);

    impl Drop for Released<'_> {
        fn drop(&mut self) {
            self.0.store(false, Ordering::SeqCst);
        }
    }

    #[test]
    fn nobody_passes_one_that_has_waited_for_long() {
        let (line, taken) = (Line::default(), AtomicBool::new(true));
        let call = || (!taken.load(Ordering::SeqCst)).then_some(7);
        thread::scope(|scope| {
            let _released = Released(&taken);
            let first = scope.spawn(|| line.had(call));
            // till then others may pass it
            assert_eq!(line.at_once(|| Some(1)), Some(1));
            until("it stands in line", || lock(&line.tickets).next == 1);
            until("it has waited for long", || line.at_once(|| Some(1)).is_none());
            let second = scope.spawn(|| line.had(call));
            until("so the second stands in line", || lock(&line.tickets).next == 2);
            taken.store(false, Ordering::SeqCst);
            assert_eq!((first.join().expect("it ends"), second.join().expect("it ends")), (7, 7));
        });
        assert_eq!(line.at_once(|| Some(1)), Some(1));
    }

    #[test]
    fn those_in_line_are_served_in_order() {
        const THREADS: u32 = 40;
        let (line, taken, order) = (Line::default(), AtomicBool::new(true), Mutex::new(Vec::new()));
        thread::scope(|scope| {
            let _released = Released(&taken);
            for at in 0..THREADS {
                let (line, taken, order) = (&line, &taken, &order);
                scope.spawn(move || {
                    line.had(|| (!taken.load(Ordering::SeqCst)).then(|| lock(order).push(at)));
                });
                until("each stands in line", || lock(&line.tickets).next == at + 1);
            }
            taken.store(false, Ordering::SeqCst);
        });
        assert_eq!(*lock(&order), (0..THREADS).collect::<Vec<_>>());
    }

    /// One rings for what another wait has taken already, just as this one begins. Were that ring to take back what the waiter says
    /// and be noted as seen, the next would find nobody to wake.
    #[test]
    fn a_late_ring_takes_no_wake_from_who_begins_to_wait() {
        let (bell, came) = (Bell::default(), AtomicBool::new(false));
        let start = Instant::now();
        thread::scope(|scope| {
            let mut rung = lock(&bell.rung);
            let waiter = scope.spawn(|| {
                bell.wait(start.checked_add(Duration::from_secs(20)), || came.load(Ordering::SeqCst).then_some(()))
            });
            // it cannot note the number yet
            thread::sleep(Duration::from_millis(100));
            if bell.awaited.swap(false, Ordering::SeqCst) {
                *rung += 1;
            }
            drop(rung);
            // by now it sleeps
            thread::sleep(Duration::from_millis(100));
            came.store(true, Ordering::SeqCst);
            bell.ring();
            assert_eq!(waiter.join().expect("it ends"), Some(()));
        });
        assert!(start.elapsed() < Duration::from_secs(10), "it slept until its time was over");
    }
}
