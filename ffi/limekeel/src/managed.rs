//! A connection with a life.

use crate::block::Block;
use crate::connection::{Estimate, Marks};
use crate::lends::Made;
use crate::managed_raw::Managed;
use crate::promises::{Cancelled, Node};
use crate::raw::{Gather, Pieces};
use crate::replies::{Change, Flushed, Refusal, Refused, Removed, Taken, Written, done};
use crate::room::Room;
use crate::send::{Sent, SentTurns, Source, in_turns, once};
use crate::views::{Current, Look, Promise};
use limekeel_sys as sys;
use std::io::{self, IoSlice, Write};

/// What a managed connection is held to. Times are in units of the caller.
#[derive(Clone, Copy, Debug, PartialEq, Eq)]
pub struct Limits {
    /// The most bytes that may be pending. A write past it is refused as [`Refusal::Full`].
    pub most_pending: u32,
    /// How long a window is in which the peer has to take something.
    pub window: u64,
    /// The least number of bytes that it has to take in each window; with 0 no peer is ever named.
    pub least_bytes: u64,
}

/// What a call returned, and whether the end is reached by it. Nothing tells the end again.
#[must_use = "nothing tells the end, the change of writability or the settlements again"]
#[derive(Clone, Copy, Debug, PartialEq, Eq)]
pub struct Told<T> {
    /// What the call of a connection returns.
    pub answer: T,
    /// Whether the end was asked for, and nothing that was accepted is left, for the first time now.
    pub finished: bool,
}

/// Messages, and the bytes that they count together, each with the overhead.
#[derive(Clone, Copy, Debug, Default, PartialEq, Eq)]
pub struct Count {
    /// How many messages.
    pub messages: u64,
    /// The bytes that they count.
    pub bytes: u64,
}

/// How often calls were refused, by the reason: each as the [`Refusal`] of its name.
#[derive(Clone, Copy, Debug, Default, PartialEq, Eq)]
pub struct Refusals {
    /// A call of a closed connection.
    pub closed: u64,
    /// A write once the end was asked for.
    pub finishing: u64,
    /// A message too large to be counted.
    pub oversize: u64,
    /// A write past the limit.
    pub full: u64,
    /// A write with which more than 4294967295 bytes would be pending.
    pub too_much: u64,
    /// A write for which there was no memory.
    pub no_memory: u64,
    /// Progress while no message is flushed.
    pub nothing_flushed: u64,
    /// Progress past 9223372036854775807.
    pub too_far: u64,
    /// A removal of more bytes than the flushed blocks in front hold.
    pub too_many_bytes: u64,
    /// A user bit outside 1 to 31.
    pub bad_index: u64,
    /// A close while flushed messages are left.
    pub flushed_left: u64,
    /// A cancellation of a promise under which nothing was written.
    pub unknown_promise: u64,
}

/// What was written, and how it ended: what was accepted is what was sent, failed, was cancelled and is pending.
#[derive(Clone, Copy, Debug, Default, PartialEq, Eq)]
pub struct Numbers {
    /// All that was accepted.
    pub accepted: Count,
    /// What was taken away as sent.
    pub sent: Count,
    /// What was taken away as failed: by a close, a giving up or a failing.
    pub failed: Count,
    /// What was cancelled in time, from the flush on that voided it.
    pub cancelled: Count,
    /// What is pending.
    pub pending: Count,
    /// The most bytes that were pending at any moment.
    pub peak: u64,
    /// How often it became unwritable.
    pub stops: u64,
    /// For how long it was unwritable, all together, in units of the caller: time goes on at ticks alone.
    pub stopped: u64,
    /// How often calls were refused, by the reason.
    pub refusals: Refusals,
}

impl Refusals {
    fn of(told: sys::Refusals) -> Refusals {
        Refusals {
            closed: told.closed,
            finishing: told.finishing,
            oversize: told.oversize,
            full: told.full,
            too_much: told.too_much,
            no_memory: told.no_memory,
            nothing_flushed: told.nothing_flushed,
            too_far: told.too_far,
            too_many_bytes: told.too_many_bytes,
            bad_index: told.bad_index,
            flushed_left: told.flushed_left,
            unknown_promise: told.unknown_promise,
        }
    }
}

impl Count {
    fn of(told: sys::Count) -> Count {
        Count { messages: told.messages, bytes: told.bytes }
    }
}

/// A [`crate::Connection`] that ends in order, refuses what is past a limit, names a peer that stalls, and counts.
///
/// Its calls are those of a connection. A call that is refused changes nothing, and reaches no end. A deadline is the caller's:
/// once it is over, [`ManagedConnection::give_up`] fails what is left.
///
/// ```
/// use limekeel::{Estimate, Limits, ManagedConnection, Marks, Refusal};
///
/// let limits = Limits { most_pending: 1000, window: 30, least_bytes: 1 };
/// let mut connection = ManagedConnection::open(Marks::default(), Estimate::default(), limits, 0)?;
/// let _ = connection.write(b"the last words")?;
/// assert_eq!(connection.write(&[0; 1000]), Err(Refusal::Full));
/// let _ = connection.flush()?;
/// assert!(!connection.finish()); // something is left
/// assert_eq!(connection.write(b"more"), Err(Refusal::Finishing));
/// assert!(!connection.tick(100) && connection.tick(130)); // the peer took nothing for a window
/// let told = connection.send_to(&mut Vec::new())?;
/// assert!(told.finished);
/// let numbers = connection.numbers();
/// assert_eq!(numbers.sent, numbers.accepted);
/// assert_eq!((numbers.refusals.full, numbers.refusals.finishing), (1, 1));
/// # Ok::<(), Box<dyn std::error::Error>>(())
/// ```
#[derive(Debug)]
pub struct ManagedConnection {
    handle: Managed,
    cancelled: Cancelled,
}

impl ManagedConnection {
    /// A connection with nothing written, held to these limits. The clock of the caller stands at `now`.
    pub fn open(marks: Marks, estimate: Estimate, limits: Limits, now: u64) -> Result<ManagedConnection, Refusal> {
        Ok(ManagedConnection { handle: Managed::open(marks, estimate, limits, now)?, cancelled: Cancelled::default() })
    }

    /// Asks for the end: from now on each write is [`Refusal::Finishing`], and all else goes on. It returns whether the end is
    /// reached by that, since nothing is left of what was accepted; else the call that takes the last of it away tells so.
    #[must_use = "nothing tells the end again"]
    pub fn finish(&mut self) -> bool {
        self.handle.finish().holds
    }

    /// Tells the time, and returns whether the peer is named as one that stalls: something was flushed since a tick a window ago
    /// or more, and it took fewer than `least_bytes` since. It is named once, until it took as many, or all. A time behind the
    /// last one tells nothing.
    #[must_use = "a peer is named once"]
    pub fn tick(&mut self, now: u64) -> bool {
        self.handle.tick(now).holds
    }

    /// Writes a copy of these bytes. [`Refusal::Finishing`] comes after [`Refusal::Closed`], and [`Refusal::Full`] after
    /// [`Refusal::Oversize`], before anything is allocated.
    #[inline]
    pub fn write(&mut self, bytes: &[u8]) -> Result<Written, Refusal> {
        Written::of(self.handle.write(bytes))
    }

    /// Writes the bytes of a block, which the message then shares: nothing is copied. It is refused as [`Self::write`] is.
    pub fn write_block(&mut self, block: &Block) -> Result<Written, Refusal> {
        Written::of(self.handle.write_block(&block.slot))
    }

    /// Writes bytes that are there for good: nothing is copied. It is refused as [`Self::write`] is.
    pub fn write_static(&mut self, bytes: &'static [u8]) -> Result<Written, Refusal> {
        Written::of(self.handle.write_static(bytes))
    }

    /// Writes the bytes of `owner` where they lie, as [`crate::Connection::write_owned`]. It is refused as [`Self::write`] is.
    pub fn write_owned<T: AsRef<[u8]> + Send + 'static>(&mut self, owner: T) -> Result<Written, Refused<T>> {
        let answer = self.handle.lends().write_owned(owner).answer;
        answer.map(Written::accepted).map_err(|(refusal, owner)| Refused { refusal, owner })
    }

    /// Room for one message of at most `most` bytes, to make it in place, as [`crate::Connection::reserve`]. The limit is asked when
    /// the message is written.
    pub fn reserve(&mut self, most: usize) -> Result<Room<'_>, Refusal> {
        Ok(Room::new(Made::new(self.handle.lends(), most)?, None))
    }

    /// Writes a region: `length` bytes of something that the caller sends, as of a file.
    pub fn write_region(&mut self, length: u64) -> Result<Written, Refusal> {
        Written::of(self.handle.write_region(length))
    }

    /// Writes any other message, by a number that means something to the caller alone.
    pub fn write_other(&mut self, value: u32) -> Result<Written, Refusal> {
        Written::of(self.handle.write_other(value))
    }

    /// As [`crate::Connection::flush`].
    pub fn flush(&mut self) -> Result<Told<Flushed>, Refusal> {
        let told = self.handle.flush();
        Ok(Told { answer: Flushed::of(told.flushed)?, finished: told.finished })
    }

    /// As [`crate::Connection::remove`].
    pub fn remove(&mut self) -> Result<Told<Removed>, Refusal> {
        let told = self.handle.remove();
        self.removed(told)
    }

    /// As [`crate::Connection::remove_with`].
    pub fn remove_with(&mut self, cause: u32) -> Result<Told<Removed>, Refusal> {
        let told = self.handle.remove_with(cause);
        self.removed(told)
    }

    /// As [`crate::Connection::take_sent`].
    pub fn take_sent(&mut self, n: u64) -> Result<Told<Taken>, Refusal> {
        let told = self.handle.take_sent(n);
        self.taken(told)
    }

    /// As [`crate::Connection::progress`].
    pub fn progress(&mut self, n: u64) -> Result<Told<()>, Refusal> {
        let told = self.handle.progress(n);
        Ok(Told { answer: done(told.status)?, finished: told.finished })
    }

    /// As [`crate::Connection::cancel`].
    pub fn cancel(&mut self, id: u64) -> Result<Told<bool>, Refusal> {
        // memory comes first, so that nothing has changed if it is refused
        let node = if self.promise(id) == Some(Promise::Waiting) { Some(Node::new(id)?) } else { None };
        let told = self.handle.cancel(id);
        done(told.cancelled.status)?;
        if let Some(node) = node.filter(|_| told.cancelled.in_time) {
            self.cancelled.insert(node);
        }
        Ok(Told { answer: told.cancelled.in_time, finished: told.finished })
    }

    /// As [`crate::Connection::fail_flushed`].
    pub fn fail_flushed(&mut self, cause: u32, notify: bool) -> Result<Told<Taken>, Refusal> {
        let told = self.handle.fail_flushed(cause, notify);
        self.taken(told)
    }

    /// As [`crate::Connection::close`].
    pub fn close(&mut self, cause: u32) -> Result<Told<Taken>, Refusal> {
        let told = self.handle.close(cause);
        self.taken(told)
    }

    /// As [`crate::Connection::give_up`]. After [`Self::finish`] it is what to do at a deadline: the promise of each message that
    /// is left fails, once, and the end is reached.
    pub fn give_up(&mut self, cause: u32) -> Result<Told<Taken>, Refusal> {
        let told = self.handle.give_up(cause);
        self.taken(told)
    }

    /// As [`crate::Connection::ask_ahead`].
    #[inline]
    pub fn ask_ahead(&mut self) {
        self.handle.ask_ahead();
    }

    /// As [`crate::Connection::shrink_to_fit`].
    pub fn shrink_to_fit(&mut self) {
        self.handle.shrink_to_fit();
    }

    /// As [`crate::Connection::user_bit`].
    pub fn user_bit(&mut self, index: u32, writable: bool) -> Result<Told<Option<Change>>, Refusal> {
        let told = self.handle.user_bit(index, writable);
        done(told.changed.status)?;
        Ok(Told { answer: Change::of(told.changed.change), finished: told.finished })
    }

    /// As [`crate::Connection::set_marks`].
    pub fn set_marks(&mut self, marks: Marks) -> Result<Told<()>, Refusal> {
        let told = self.handle.set_marks(marks.low, marks.high);
        Ok(Told { answer: done(told.status)?, finished: told.finished })
    }

    /// As [`crate::Connection::send_to`].
    pub fn send_to<W: Write + ?Sized>(&mut self, writer: &mut W) -> io::Result<Told<Sent>> {
        let mut sending = Sending { managed: self, finished: false };
        let answer = once(&mut sending, |pieces: &[IoSlice<'_>]| writer.write_vectored(pieces))?;
        Ok(Told { answer, finished: sending.finished })
    }

    /// As [`crate::Connection::send_until_blocked`].
    pub fn send_until_blocked<W: Write + ?Sized>(
        &mut self,
        writer: &mut W,
        max_turns: u32,
    ) -> Result<Told<SentTurns>, Refusal> {
        let mut sending = Sending { managed: self, finished: false };
        let mut write = |pieces: &[IoSlice<'_>]| writer.write_vectored(pieces);
        let answer = in_turns(&mut sending, max_turns, &mut write)?;
        Ok(Told { answer, finished: sending.finished })
    }

    /// What was written, and how it ended. It goes over the flushed messages, and does not allocate.
    #[must_use]
    pub fn numbers(&self) -> Numbers {
        let told = self.handle.numbers();
        Numbers {
            accepted: Count::of(told.accepted),
            sent: Count::of(told.sent),
            failed: Count::of(told.failed),
            cancelled: Count::of(told.cancelled),
            pending: Count::of(told.pending),
            peak: told.peak,
            stops: told.stops,
            stopped: told.stopped,
            refusals: Refusals::of(told.refusals),
        }
    }

    /// What is pending now.
    #[must_use]
    pub fn look(&self) -> Look {
        Look::of(self.handle.look())
    }

    /// Whether writers may go on.
    #[must_use]
    pub fn is_writable(&self) -> bool {
        self.handle.state().writable
    }

    /// Whether a close was accepted.
    #[must_use]
    pub fn is_closed(&self) -> bool {
        self.handle.state().closed
    }

    /// Whether no message is flushed and not yet removed.
    #[must_use]
    pub fn is_empty(&self) -> bool {
        self.handle.state().empty
    }

    /// Whether the end was asked for.
    #[must_use]
    pub fn is_finishing(&self) -> bool {
        self.handle.state().finishing
    }

    /// Whether the end was reached: a call has told it.
    #[must_use]
    pub fn is_finished(&self) -> bool {
        self.handle.state().finished
    }

    /// As [`crate::Connection::promise`].
    #[must_use]
    pub fn promise(&self, id: u64) -> Option<Promise> {
        Promise::of(self.handle.promise(id))
    }

    /// The promise of the first flushed message.
    #[must_use]
    pub fn front(&self) -> Option<u64> {
        let told = self.handle.front();
        told.any.then_some(told.id)
    }

    /// What is left of the first flushed message.
    #[must_use]
    pub fn current(&self) -> Option<Current> {
        Current::of(self.handle.current())
    }

    /// As [`crate::Connection::pieces`].
    #[must_use]
    pub fn pieces<const N: usize>(&self, max_bytes: u32) -> Pieces<'_, N> {
        self.handle.pieces(max_bytes)
    }

    fn removed(&mut self, told: sys::ToldRemoved) -> Result<Told<Removed>, Refusal> {
        let answer = Removed::of(told.removed)?;
        self.cancelled.removed(&answer);
        Ok(Told { answer, finished: told.finished })
    }

    fn taken(&mut self, told: sys::ToldTaken) -> Result<Told<Taken>, Refusal> {
        let taken = Taken::of(told.taken)?;
        Ok(Told { answer: self.cancelled.settled_by(taken), finished: told.finished })
    }
}

/// A managed connection while it sends.
struct Sending<'a> {
    managed: &'a mut ManagedConnection,
    /// Whether the end is reached by what it sent.
    finished: bool,
}

impl Source for Sending<'_> {
    fn gathers(&self) -> &impl Gather {
        &self.managed.handle
    }

    fn is_closed(&self) -> bool {
        self.managed.is_closed()
    }

    fn is_empty(&self) -> bool {
        self.managed.is_empty()
    }

    fn take(&mut self, bytes: u64) -> Result<Taken, Refusal> {
        let told = self.managed.handle.take_sent(bytes);
        self.finished |= told.finished;
        Taken::of(told.taken)
    }

    fn settled_by(&mut self, taken: Taken) -> Taken {
        self.managed.cancelled.settled_by(taken)
    }
}
