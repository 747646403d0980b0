use crate::block::Block;
use crate::budget::Budget;
use crate::calm::Waiters;
use crate::common::{Common, Role, look_for_a_while};
use crate::connection::{Estimate, Marks};
use crate::handles::{Sender, Sharer};
use crate::replies::{Change, Flushed, Refusal, Refused, Taken, Written, WrittenAndFlushed, done};
use crate::transport::Transport;
use crate::views::{Glance, Look, Promise};
use crate::waits::{end_of, lock};
use limekeel_sys as sys;
use std::alloc::{Layout, handle_alloc_error};
use std::error::Error;
use std::fmt;
use std::sync::Arc;
use std::sync::atomic::Ordering;
use std::time::{Duration, Instant};

/// A connection that any number of threads write to, while one sends: each thread has a clone, or a reference to one, and the
/// one that sends the [`Transport`].
///
/// Each call takes the connection's lock and lets it go, and is accepted or refused as that of a [`crate::Connection`] after all
/// calls that were accepted before it, from whatever thread: that is proved of the archive below. A call waits while other
/// threads have the lock, and for nothing else, unless its name says so; one that has waited for 50 milliseconds is passed by none
/// that came later. A thread that panics leaves the connection as it was between two calls.
///
/// Clones can be dropped at any time. The last clone or transport frees the connection with all that waits in it.
///
/// ```
/// use limekeel::{Estimate, Marks, Moment, SharedConnection};
/// use std::thread;
///
/// let (connection, mut transport) = SharedConnection::open(Marks { low: 500, high: 1000 }, Estimate::default())?;
/// let mut socket = Vec::new();
/// thread::scope(|scope| {
///     for _ in 0..4 {
///         let writer = connection.clone();
///         scope.spawn(move || {
///             for _ in 0..100 {
///                 let _ = writer.write_waiting(b"news").expect("it is open, and there is a transport");
///                 let _ = writer.flush().expect("it is open");
///             }
///         });
///     }
///     drop(connection);
///     // until nobody writes any more and all is sent
///     while transport.wait_for_work() == Moment::Ready {
///         let _ = transport.send_to(&mut socket).expect("it takes all");
///     }
/// });
/// assert_eq!(socket.len(), 4 * 100 * 4);
/// # Ok::<(), limekeel::Refusal>(())
/// ```
#[derive(Debug)]
pub struct SharedConnection {
    // the archive's connection goes before what its messages are lent
    sharer: Sharer,
    common: Arc<Common>,
}

/// Up to how many bytes the archive copies under its lock.
const FEW_BYTES: usize = 2048;

/// What was found at the end of a wait.
#[must_use = "it may not be what was waited for"]
#[derive(Clone, Copy, Debug, PartialEq, Eq, Hash)]
pub enum Moment {
    /// What was waited for: the connection is writable, or a flushed message is there.
    Ready,
    /// The connection is closed.
    Closed,
    /// Whom one waits for is gone: a writer was not writable, and no [`Transport`] is there, which could make room; or no message
    /// was flushed, and no [`SharedConnection`] is there, which could write one.
    Abandoned,
    /// The time is over.
    NotYet,
}

/// Why a write that waits did not write. Nothing changed.
#[derive(Clone, Copy, Debug, PartialEq, Eq, Hash)]
pub enum Unwritten {
    /// The write was refused; [`Refusal::Closed`] comes also if the connection was closed meanwhile.
    Refused(Refusal),
    /// The connection was not writable, and no [`Transport`] is there, which could make room.
    Abandoned,
    /// The time is over.
    NotYet,
}

impl fmt::Display for Unwritten {
    fn fmt(&self, f: &mut fmt::Formatter<'_>) -> fmt::Result {
        match self {
            Unwritten::Refused(refusal) => fmt::Display::fmt(refusal, f),
            Unwritten::Abandoned => f.write_str("the connection is not writable, and nobody sends"),
            Unwritten::NotYet => f.write_str("the connection was not writable in time"),
        }
    }
}

impl Error for Unwritten {}

impl From<Refusal> for Unwritten {
    fn from(refusal: Refusal) -> Unwritten {
        Unwritten::Refused(refusal)
    }
}

impl SharedConnection {
    /// A connection with nothing written, and its transport.
    pub fn open(marks: Marks, estimate: Estimate) -> Result<(SharedConnection, Transport), Refusal> {
        SharedConnection::begin(Sender::open(marks, estimate)?, None)
    }

    /// A connection with nothing written within this budget, and its transport: at each moment what is pending of it is at most
    /// what it holds of the budget, so all connections of the budget hold its room at most, whatever threads do.
    ///
    /// Each write takes of the budget what it lacks, or the quantum: it is [`Refusal::OverBudget`] if there is no room for that,
    /// and nothing changed then. What is spare above two quanta goes back once messages are gone, and all that it holds with the
    /// last clone or transport. No call returns how it changed pressure: ask [`Budget::is_pressed`] before you read, or wait for
    /// the end ([`Budget::wait_while_pressed`], [`Budget::calm`]), of which whatever call ends it wakes.
    ///
    /// ```
    /// use limekeel::{Bounds, Budget, Estimate, Marks, Refusal, SharedConnection};
    ///
    /// let budget = Budget::open(Bounds { room: 1000, low: 200, high: 800 }, 0)?;
    /// let (slow, mut transport) = SharedConnection::within(&budget, Marks::default(), Estimate::default())?;
    /// let (fast, _fast) = SharedConnection::within(&budget, Marks::default(), Estimate::default())?;
    /// let _ = slow.write_and_flush(&[0; 804])?; // counts 900, 96 of them for the message itself
    /// assert!(budget.is_pressed()); // read less
    /// assert_eq!(fast.write(&[0; 5]), Err(Refusal::OverBudget));
    /// let _ = transport.give_up(7)?; // one of them has to go
    /// assert_eq!(budget.look().total, 0);
    /// let _ = fast.write(&[0; 5])?;
    /// # Ok::<(), limekeel::Refusal>(())
    /// ```
    pub fn within(budget: &Budget, marks: Marks, estimate: Estimate) -> Result<(SharedConnection, Transport), Refusal> {
        SharedConnection::begin(budget.open_shared(marks, estimate)?, Some(budget.waiters()))
    }

    fn begin(mut sender: Sender, waiters: Option<&Arc<Waiters>>) -> Result<(SharedConnection, Transport), Refusal> {
        let common = Arc::new(Common::new(waiters));
        let connection = SharedConnection::new(sender.another()?, &common);
        let sharer = connection.another()?;
        let transport = Transport::new(Role { sender, sharer, gone: 0 }, &common);
        Ok((connection, transport))
    }

    /// One more that can write.
    pub(crate) fn new(sharer: Sharer, common: &Arc<Common>) -> SharedConnection {
        common.sharers.fetch_add(1, Ordering::SeqCst);
        SharedConnection { sharer, common: Arc::clone(common) }
    }

    fn another(&self) -> Result<Sharer, Refusal> {
        self.common.line.had(|| self.sharer.another())
    }

    /// A second one of the same connection, as for another thread. [`Refusal::NoMemory`] comes if the allocator refused the few
    /// bytes of a handle.
    pub fn try_clone(&self) -> Result<SharedConnection, Refusal> {
        Ok(SharedConnection::new(self.another()?, &self.common))
    }

    /// Writes a copy of these bytes after all else, as [`crate::Connection::write`], also if the connection is not writable. Small
    /// messages that wait together share memory; more than 2048 bytes are copied before the lock is taken, so that no thread waits
    /// for that.
    #[inline]
    pub fn write(&self, bytes: &[u8]) -> Result<Written, Refusal> {
        if bytes.len() > FEW_BYTES {
            return self.write_many(bytes);
        }
        Written::of(self.common.write(|| self.sharer.write(bytes), || self.sharer.write_within(bytes)))
    }

    #[cold]
    fn write_many(&self, bytes: &[u8]) -> Result<Written, Refusal> {
        if !self.common.is_covered() {
            if let Some(told) = self.common.line.at_once(|| self.sharer.write(bytes)) {
                return Written::of(told);
            }
        }
        // not copied again at each try
        self.write_block(&Block::new(bytes)?)
    }

    /// Writes as [`SharedConnection::write`], and flushes behind it, under one lock (Netty's `writeAndFlush`): no call of another
    /// thread comes between the two, and it costs half of both. A write that is refused is not flushed. It wakes the transport if
    /// that waits for work.
    ///
    /// ```
    /// use limekeel::{Estimate, Marks, SharedConnection};
    ///
    /// let (connection, _transport) = SharedConnection::open(Marks::default(), Estimate::default())?;
    /// let _ = connection.write(b"head")?;
    /// let done = connection.write_and_flush(b"body")?;
    /// assert_eq!((done.written.id, done.flushed.count), (1, 2));
    /// # Ok::<(), limekeel::Refusal>(())
    /// ```
    #[inline]
    pub fn write_and_flush(&self, bytes: &[u8]) -> Result<WrittenAndFlushed, Refusal> {
        if bytes.len() > FEW_BYTES {
            return self.write_many_and_flush(bytes);
        }
        self.flushed_behind(
            self.common
                .write_and_flush(|| self.sharer.write_and_flush(bytes), || self.sharer.write_and_flush_within(bytes)),
        )
    }

    #[cold]
    fn write_many_and_flush(&self, bytes: &[u8]) -> Result<WrittenAndFlushed, Refusal> {
        if !self.common.is_covered() {
            if let Some(told) = self.common.line.at_once(|| self.sharer.write_and_flush(bytes)) {
                return self.flushed_behind(told);
            }
        }
        self.write_block_and_flush(&Block::new(bytes)?)
    }

    /// Writes as [`SharedConnection::write_block`], and flushes behind it, as [`SharedConnection::write_and_flush`].
    #[inline]
    pub fn write_block_and_flush(&self, block: &Block) -> Result<WrittenAndFlushed, Refusal> {
        self.flushed_behind(self.common.write_and_flush(
            || self.sharer.write_block_and_flush(&block.slot),
            || self.sharer.write_block_and_flush_within(&block.slot),
        ))
    }

    /// Tells those who wait of the flush behind a write.
    #[inline]
    fn flushed_behind(&self, told: sys::WrittenAndFlushed) -> Result<WrittenAndFlushed, Refusal> {
        let done = WrittenAndFlushed::of(told)?;
        self.tell(done.flushed);
        Ok(done)
    }

    #[inline]
    fn tell(&self, flushed: Flushed) {
        if flushed.count > 0 {
            self.common.work.ring();
        }
        if flushed.change == Some(Change::Writable) {
            self.common.writers.ring();
        }
    }

    /// Writes a region: `length` bytes of something that who has the transport sends, as of a file: [`Transport::current`] tells
    /// it, once it is in front.
    pub fn write_region(&self, length: u64) -> Result<Written, Refusal> {
        Written::of(self.common.write(|| self.sharer.write_region(length), || self.sharer.write_region_within(length)))
    }

    /// Writes any other message, by a number that means something to the caller alone.
    pub fn write_other(&self, value: u32) -> Result<Written, Refusal> {
        Written::of(self.common.write(|| self.sharer.write_other(value), || self.sharer.write_other_within(value)))
    }

    /// Waits until the connection is writable, and writes then, as [`SharedConnection::write`]. Threads that found it writable at
    /// once may all write: so the pending bytes pass the high mark by a message of each thread at most.
    pub fn write_waiting(&self, bytes: &[u8]) -> Result<Written, Unwritten> {
        self.write_at(self.wait_until(None), bytes)
    }

    /// The same, but the wait for room ends after `limit`.
    pub fn write_within(&self, bytes: &[u8], limit: Duration) -> Result<Written, Unwritten> {
        self.write_at(self.wait_writable_within(limit), bytes)
    }

    fn write_at(&self, moment: Moment, bytes: &[u8]) -> Result<Written, Unwritten> {
        match moment {
            Moment::Ready => Ok(self.write(bytes)?),
            Moment::Closed => Err(Refusal::Closed.into()),
            Moment::Abandoned => Err(Unwritten::Abandoned),
            Moment::NotYet => Err(Unwritten::NotYet),
        }
    }

    /// Writes the bytes of a block, which the message then shares: nothing is copied.
    #[inline]
    pub fn write_block(&self, block: &Block) -> Result<Written, Refusal> {
        Written::of(
            self.common.write(|| self.sharer.write_block(&block.slot), || self.sharer.write_block_within(&block.slot)),
        )
    }

    /// Writes bytes that are there for good: nothing is copied, and nothing is kept for them.
    #[inline]
    pub fn write_static(&self, bytes: &'static [u8]) -> Result<Written, Refusal> {
        Written::of(self.common.write(|| self.sharer.write_static(bytes), || self.sharer.write_static_within(bytes)))
    }

    /// Writes the bytes of `owner` where they lie, as [`crate::Connection::write_owned`]: nothing is copied. The owner moves into a
    /// small allocation of its own. The thread drops it whose call told the message as gone, before that returns, or the one that
    /// frees the connection.
    ///
    /// ```
    /// use limekeel::{Estimate, Marks, SharedConnection};
    ///
    /// let (connection, mut transport) = SharedConnection::open(Marks::default(), Estimate::default())?;
    /// let image = vec![7; 100_000];
    /// let at = image.as_ptr();
    /// let _ = connection.write_owned(image)?;
    /// let _ = connection.flush()?;
    /// let sent = transport.send_with(|pieces| {
    ///     assert_eq!(pieces[0].as_ptr(), at);
    ///     Ok(pieces[0].len())
    /// });
    /// assert_eq!(sent.expect("it took all").bytes, 100_000);
    /// # Ok::<(), limekeel::Refusal>(())
    /// ```
    pub fn write_owned<T: AsRef<[u8]> + Send + 'static>(&self, owner: T) -> Result<Written, Refused<T>> {
        self.common.write_owned(&self.sharer, owner).map_err(|(refusal, owner)| Refused { refusal, owner })
    }

    /// Lets the transport have all that was written so far, by whatever thread, and fixes its promises. It wakes the transport
    /// if that waits for work.
    #[inline]
    pub fn flush(&self) -> Result<Flushed, Refusal> {
        let flushed = Flushed::of(self.common.line.had(|| self.sharer.flush()))?;
        self.tell(flushed);
        Ok(flushed)
    }

    /// Takes a promise back, and returns whether that came in time: a promise that a flush has fixed stays as it is.
    /// [`Refusal::NoMemory`] comes if the allocator refused.
    pub fn cancel(&self, id: u64) -> Result<bool, Refusal> {
        self.common.cancel(&self.sharer, id)
    }

    /// Closes for good, as [`crate::Connection::close`]: each command of each thread is refused after it, and all who wait are
    /// woken. [`Refusal::FlushedLeft`] comes while flushed messages are there, which the transport takes away.
    pub fn close(&self, cause: u32) -> Result<Taken, Refusal> {
        let taken = Taken::of(self.common.line.had(|| self.sharer.close(cause)))?;
        self.common.closes();
        self.common.settle(&self.sharer);
        Ok(self.common.settled_by(taken))
    }

    /// Sets the user bit 1 to 31, which makes the connection unwritable, or clears it if `writable` is set. It wakes those who wait
    /// for room if they may go on.
    pub fn user_bit(&self, index: u32, writable: bool) -> Result<Option<Change>, Refusal> {
        let told = self.common.line.had(|| self.sharer.user_bit(index, writable));
        done(told.status)?;
        let change = Change::of(told.change);
        if change == Some(Change::Writable) {
            self.common.writers.ring();
        }
        Ok(change)
    }

    /// Sets other marks. They change nothing by themselves: the next rise or fall goes by them.
    pub fn set_marks(&self, marks: Marks) -> Result<(), Refusal> {
        done(self.common.line.had(|| self.sharer.set_marks(marks)))
    }

    /// Of a connection within a budget: gives back all that it holds above what is pending, as before it is idle.
    pub fn rest(&self) {
        self.common.rest(&self.sharer);
    }

    /// The bytes that it holds of its budget: at least those that are pending, as [`crate::BudgetedConnection::held`]. None
    /// if it was opened within no budget.
    #[must_use]
    pub fn held(&self) -> Option<u64> {
        let told = self.common.line.had(|| self.sharer.held());
        debug_assert!(done(told.status).is_ok());
        told.is_within.then_some(told.held)
    }

    /// What has become of a promise, or nothing if no write was accepted under it.
    #[must_use]
    pub fn promise(&self, id: u64) -> Option<Promise> {
        Promise::of(self.common.line.had(|| self.sharer.promise(id)))
    }

    /// What is pending now.
    #[must_use]
    pub fn look(&self) -> Look {
        Look::of(self.common.line.had(|| self.sharer.look()))
    }

    /// Whether a close was accepted, from a call that has returned.
    #[must_use]
    pub fn is_closed(&self) -> bool {
        self.common.is_closed()
    }

    /// The word and the pending bytes, without the lock: never older than the last call by this clone, and perhaps older than the
    /// newest call by another.
    #[inline]
    #[must_use]
    pub fn glance(&self) -> Glance {
        Glance::of(self.common.line.had(|| self.sharer.glance()))
    }

    /// Whether writers may go on, as a [`SharedConnection::glance`] shows.
    #[inline]
    #[must_use]
    pub fn is_writable(&self) -> bool {
        self.glance().word == 0
    }

    /// Sleeps until the connection is writable or closed, or nobody sends. Never [`Moment::NotYet`].
    pub fn wait_writable(&self) -> Moment {
        self.wait_until(None)
    }

    /// The same, but no longer than `limit`.
    pub fn wait_writable_within(&self, limit: Duration) -> Moment {
        self.wait_until(end_of(limit))
    }

    fn wait_until(&self, end: Option<Instant>) -> Moment {
        look_for_a_while(|| self.is_writable() || self.is_closed());
        self.common.writers.wait(end, || self.moment()).unwrap_or(Moment::NotYet)
    }

    fn moment(&self) -> Option<Moment> {
        if self.is_closed() {
            return Some(Moment::Closed);
        }
        if self.look().word == 0 {
            return Some(Moment::Ready);
        }
        self.common.nobody_sends().then_some(Moment::Abandoned)
    }

    /// The transport, if it was dropped, as by a thread that panicked: nothing is sent until someone has it.
    ///
    /// ```
    /// use limekeel::{Estimate, Marks, Moment, SharedConnection};
    ///
    /// let (connection, transport) = SharedConnection::open(Marks { low: 100, high: 200 }, Estimate::default())?;
    /// let _ = connection.write(&[0; 200])?;
    /// let _ = connection.flush()?;
    /// assert!(connection.transport().is_none());
    /// drop(transport);
    /// assert_eq!(connection.wait_writable(), Moment::Abandoned);
    /// let mut transport = connection.transport().expect("it was dropped");
    /// let _ = transport.give_up(1)?;
    /// assert_eq!(connection.wait_writable(), Moment::Closed);
    /// # Ok::<(), limekeel::Refusal>(())
    /// ```
    #[must_use]
    pub fn transport(&self) -> Option<Transport> {
        let role = lock(&self.common.role).take()?;
        Some(Transport::new(role, &self.common))
    }
}

impl Clone for SharedConnection {
    /// As [`SharedConnection::try_clone`], but ends the process if memory is refused.
    fn clone(&self) -> SharedConnection {
        self.try_clone().unwrap_or_else(|_| handle_alloc_error(Layout::new::<SharedConnection>()))
    }
}

impl Drop for SharedConnection {
    fn drop(&mut self) {
        if self.common.sharers.fetch_sub(1, Ordering::SeqCst) == 1 {
            self.common.work.ring();
        }
    }
}
