//! Who may write next, and who is woken.
//!
//! All of it is under one mutex, which is had for the calls of the connection that go with it, and over no `await` nor
//! write to the stream. So that a writer finds room and writes is one step. No waker is called or dropped under the
//! mutex, and no message is dropped under it: a waker may hold the last reference to a task, and what is dropped may
//! lock the mutex again.
//!
//! The transport gathers and takes away without the mutex, and what that changed is noted behind it. Till then there
//! seems to be less room than there is, and never more: the room is what the connection said at the last note, less
//! what was written since.
//!
//! All who wait stand in one list: writers, which wait for room; those who wait until messages are sent; and the pump,
//! which waits for work. **Who is not there any more was let in, and the room that it asked for is kept.** One may write
//! as long as less is kept than there is room for before the connection is unwritable. Each step ends with this: as long
//! as one may write, the first writer in the list is let in. So none may while a writer is in the list, and nobody passes
//! one that waits; and the pending bytes with the room that is kept pass the high mark by one message at most.
//!
//! Whoever is let in is woken, at once or one by one. After a sending they are a chain: the first is woken, each that
//! comes wakes the next, and the last wakes the pump, if that has work by then. So they run behind each other where the
//! pump ran, and what the mutex guards stays with that processor. If all are woken at once, other threads take some of
//! them, and all meet at the mutex. The pump does not return from a poll while some of a chain are not woken, unless it
//! has seen to it that it is polled again, and wakes them then: so one that is woken and does not come keeps nobody
//! asleep. A chain that is slow ends, and all are woken: its tasks have other work to do.
//!
//! No wake-up is lost: who waits looks and joins the list in one step, and whoever brings about what it waits for takes
//! it off in the step that notes it: a flush, a sending, the end. And who waits has all flushed that was written before,
//! and who writes after it has waited flushes too: so nobody waits for what nobody sends.

use crate::message::{Message, WriteError, bytes};
use limekeel::{Outcome, SharedConnection};
use std::collections::{BTreeMap, VecDeque};
use std::hint::spin_loop;
use std::mem::{replace, take};
use std::sync::{Arc, Mutex, MutexGuard, PoisonError};
use std::task::{Context, Poll, Waker, ready};
use std::time::{Duration, Instant};

/// How often the mutex is tried before a thread sleeps on it, each time after twice as long a pause, the first of some
/// microseconds: who has it makes more calls meanwhile, and that costs less than to hand it over for each. All together
/// they are some 200 microseconds: who sleeps has to be woken by one that would write.
const TRIES: u32 = 6;

/// How long a chain may take for each message that is written meanwhile, as if they were 32 more. One that takes longer
/// is of tasks that have other work to do, which several threads can do at once.
const EACH: Duration = Duration::from_nanos(750);

/// What the writers and the pump of a connection have in common.
#[derive(Debug)]
pub struct Shared {
    pub connection: SharedConnection,
    /// What a message counts beside its bytes.
    pub overhead: u64,
    pub gate: Mutex<Gate>,
}

/// Each outbound has one of its own, so that the receipts of several are not counted in one place.
pub type Link = Arc<Arc<Shared>>;

#[derive(Debug, Default)]
pub struct Gate {
    /// How many bytes make the connection unwritable, as far as is noted. It is 0 while the connection is unwritable.
    pub room: u64,
    /// How much room is kept for those who were woken and have not written yet.
    pub kept: u64,
    /// All who wait, by what they wait for, and then in order of arrival, with how much room is kept when one is woken.
    waiting: BTreeMap<Place, (u64, Waker)>,
    arrivals: u64,
    /// Who is woken as soon as the mutex is free again.
    woken: VecDeque<Waker>,
    /// Who is woken when the one before it has come, and behind them the pump, once it has work.
    chain: VecDeque<Waker>,
    /// When the chain began, and how many messages were written before. None if all are woken at once.
    began: Option<(Instant, u64)>,
    /// Whether one of the chain has come, so that the next is woken.
    has_come: bool,
    /// How often it was sent since a chain was slow, or 0 if the last was not.
    slow: u8,
    /// How many messages were written, and how many of them are sent.
    pub written: u64,
    pub sent: u64,
    /// Whether the pump is to flush.
    wanted: bool,
    /// Whether nothing can be written any more, and what became of the pump.
    pub is_over: bool,
    end: Option<Outcome>,
}

/// What one waits for.
#[derive(Clone, Copy, Debug, PartialEq, Eq, PartialOrd, Ord)]
pub enum Event {
    /// A writer, until there is room.
    Room,
    /// Until so many messages are sent, or the pump has ended.
    Sent(u64),
    /// The pump, until there is something to send, or nothing comes any more.
    Work,
}

/// What one waits for, and when it arrived.
type Place = (Event, u64);

/// How many messages were written with this one.
pub type Wrote = Poll<Result<u64, WriteError>>;

impl Shared {
    /// Does something under the mutex, and then lets in whom there is room for, and wakes.
    pub fn with<T>(&self, call: impl FnOnce(&mut Gate) -> T) -> T {
        let mut gate = self.lock();
        let answer = call(&mut gate);
        while !gate.waiting.is_empty() && gate.kept < gate.room && gate.wakes_first(Event::Room, Event::Room) {}
        let (next, woken) = (gate.next_of_chain(), take(&mut gate.woken));
        drop(gate);
        next.into_iter().chain(woken).for_each(Waker::wake);
        answer
    }

    #[inline]
    fn lock(&self) -> MutexGuard<'_, Gate> {
        for turn in 0..TRIES {
            if let Ok(gate) = self.gate.try_lock() {
                return gate;
            }
            (0..64 << turn).for_each(|_| spin_loop());
        }
        // nothing that panics leaves it half changed
        self.gate.lock().unwrap_or_else(PoisonError::into_inner)
    }

    /// How much a message counts.
    fn size(&self, message: Option<&impl Message>) -> u64 {
        bytes(message).len() as u64 + self.overhead
    }

    /// Writes a message if one may. It is left to the caller unless it has moved into the connection.
    pub fn write<M: Message>(&self, gate: &mut Gate, message: &mut Option<M>, flushes: bool, is_turn: bool) -> Wrote {
        ready!(gate.enters(is_turn))?;
        let size = self.size(message.as_ref());
        gate.written = M::WRITE(&self.connection, message).map_err(WriteError::Refused)?.id + 1;
        gate.room = gate.room.saturating_sub(size);
        if flushes {
            gate.flush();
        }
        Poll::Ready(Ok(gate.written))
    }

    /// Whether the pump has something to send now.
    pub fn has_work(&self, gate: &mut Gate) -> bool {
        if take(&mut gate.wanted) {
            // it is not closed, and no promise is cancelled
            let _ = self.connection.flush();
        }
        self.connection.look().size > 0
    }

    /// Notes that so many messages are sent, and how much room there is.
    pub fn has_sent(&self, count: u64) {
        self.with(|gate| {
            gate.sent = count;
            gate.room = self.connection.look().before_unwritable.into();
            gate.slow = gate.slow.wrapping_add(u8::from(gate.slow > 0));
            if gate.chain.is_empty() {
                // after slow ones at the next sending, and after twice as many each time
                gate.has_come = gate.slow.count_ones() < 2;
                gate.began = gate.has_come.then(|| (Instant::now(), gate.written));
            }
            while gate.wakes_first(Event::Sent(0), Event::Sent(count)) {}
        });
    }

    /// Whether some of a chain are not woken yet. The pump comes again then, and wakes them.
    pub fn has_chain(&self) -> bool {
        self.with(|gate| {
            gate.began = gate.began.filter(|_| !gate.chain.is_empty());
            gate.began.is_some()
        })
    }
}

impl Gate {
    /// Ready if one may write: since its turn has come, or there is room.
    pub fn enters(&self, is_turn: bool) -> Poll<Result<(), WriteError>> {
        if self.is_over {
            return Poll::Ready(Err(WriteError::Gone));
        }
        if is_turn || self.kept < self.room { Poll::Ready(Ok(())) } else { Poll::Pending }
    }

    /// Has the pump flush what was written.
    pub fn flush(&mut self) {
        if !replace(&mut self.wanted, true) {
            self.wakes_first(Event::Work, Event::Work);
        }
    }

    /// What became of the last of this many messages, if that is known.
    pub fn outcome(&self, count: u64) -> Option<Outcome> {
        if count <= self.sent { Some(Outcome::Success) } else { self.end }
    }

    /// Lets nobody write any more; all that was written is sent, unless the pump has ended so.
    pub fn ends(&mut self, end: Option<Outcome>) {
        (self.is_over, self.wanted, self.end) = (true, true, end.or(self.end));
        self.ends_chain();
        while self.wakes_first(Event::Room, Event::Work) {}
    }

    /// Wakes the first of those who wait for these events, if there is one, and keeps room for it.
    fn wakes_first(&mut self, from: Event, to: Event) -> bool {
        let Some((&place, _)) = self.waiting.range((from, 0)..=(to, u64::MAX)).next() else { return false };
        let (size, waker) = self.waiting.remove(&place).expect("it stands there");
        self.kept += size;
        let is_one_by_one = self.began.is_some() && !matches!(from, Event::Sent(_));
        if is_one_by_one { &mut self.chain } else { &mut self.woken }.push_back(waker);
        true
    }

    /// Wakes all who are left of a chain.
    pub fn ends_chain(&mut self) {
        self.began = None;
        self.woken.append(&mut self.chain);
    }

    /// The next of the chain, if the one before it has come.
    fn next_of_chain(&mut self) -> Option<Waker> {
        if !take(&mut self.has_come) || self.chain.is_empty() {
            return None;
        }
        let (at, written) = self.began?;
        if self.written > written && at.elapsed() > EACH * (32 + self.written - written) as u32 {
            self.slow = self.slow.max(1);
            self.ends_chain();
        } else if self.chain.len() == 1 {
            self.slow = 0;
        }
        self.chain.pop_front()
    }
}

/// One that waits, or may come to wait. It waits no more when this is dropped.
#[derive(Debug)]
pub struct Waiting {
    pub shared: Link,
    /// Where it waits, or was woken, and how much room it asked for.
    place: Option<Place>,
    size: u64,
}

impl Waiting {
    pub fn new(shared: &Link) -> Waiting {
        Waiting { shared: Arc::clone(shared), place: None, size: 0 }
    }

    /// Waits for an event, with room of this size, until this call is ready. It is told whether that room was kept.
    pub fn poll<T, C>(&mut self, cx: &mut Context<'_>, event: Event, size: u64, call: C) -> Poll<T>
    where
        C: FnOnce(&Shared, &mut Gate, bool) -> Poll<T>,
    {
        let Waiting { shared, place, size: asked } = self;
        // the waker that it leaves is dropped without the mutex
        let (answer, _left) = shared.with(|gate| {
            let stood = place.and_then(|place| gate.waiting.remove(&place));
            let is_turn = place.is_some() && stood.is_none();
            gate.kept -= if is_turn { *asked } else { 0 };
            gate.has_come |= is_turn && place.is_some_and(|(event, _)| event == Event::Room);
            let answer = call(shared, gate, is_turn && size <= *asked);
            if answer.is_ready() {
                *place = None;
                return (answer, stood);
            }
            gate.arrivals += 1;
            *asked = size;
            gate.waiting.insert(*place.get_or_insert((event, gate.arrivals)), (size, cx.waker().clone()));
            if event != Event::Work {
                // who waits does not wait for what nobody sends
                gate.flush();
            }
            (answer, stood)
        });
        answer
    }

    /// Writes a message, as soon as there is room and it is this one's turn.
    pub fn poll_write<M: Message>(&mut self, cx: &mut Context<'_>, message: &mut Option<M>, flushes: bool) -> Wrote {
        let size = self.shared.size(message.as_ref());
        // others may wait behind it for what nobody else flushes
        let call = |shared: &Shared, gate: &mut Gate, turn| shared.write(gate, message, flushes || turn, turn);
        self.poll(cx, Event::Room, size, call)
    }
}

impl Clone for Waiting {
    /// One that waits for nothing yet, by a link of its own.
    fn clone(&self) -> Waiting {
        Waiting::new(&Arc::new(Arc::clone(&self.shared)))
    }
}

impl Drop for Waiting {
    fn drop(&mut self) {
        if self.place.is_some() {
            // what is ready leaves its place
            let _ = self.poll(&mut Context::from_waker(Waker::noop()), Event::Work, 0, |_, _, _| Poll::Ready(()));
        }
    }
}
