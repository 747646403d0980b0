use crate::block::Block;
use crate::promises::{Cancelled, Node};
use crate::raw::{Gather, Handle, Pieces};
use crate::replies::{Change, Flushed, Refusal, Refused, Removed, Taken, Written, done};
use crate::room::Room;
use crate::views::{Counts, Current, Look, Promise};
use std::io::IoSlice;

/// The two marks, in bytes: writers stop above the high one, and go on below the low one. The default is Netty's.
#[derive(Clone, Copy, Debug, PartialEq, Eq)]
pub struct Marks {
    /// At most the high mark. Under a low mark of 0 a connection that was once unwritable stays so for good.
    pub low: u32,
    /// At most 2147483647.
    pub high: u32,
}

impl Default for Marks {
    fn default() -> Marks {
        Marks { low: 32768, high: 65536 }
    }
}

/// How many bytes a message counts. The default is Netty's.
#[derive(Clone, Copy, Debug, PartialEq, Eq)]
pub struct Estimate {
    /// Bytes that each message counts beside its own, at most 65535.
    pub overhead: u32,
    /// Bytes of a message that is neither a block nor a region, at most 65535.
    pub unknown: u32,
}

impl Default for Estimate {
    fn default() -> Estimate {
        Estimate { overhead: 96, unknown: 8 }
    }
}

/// What a server has written to one client and the socket has not yet taken (Netty's `ChannelOutboundBuffer`), without
/// end.
///
/// Only [`Connection::open`], a write, a reservation and a cancellation need memory. A call that is refused changes nothing.
#[derive(Debug)]
pub struct Connection {
    pub(crate) handle: Handle,
    pub(crate) cancelled: Cancelled,
}

impl Connection {
    /// A connection with nothing written.
    pub fn open(marks: Marks, estimate: Estimate) -> Result<Connection, Refusal> {
        let mut handle = Handle::none();
        done(handle.open(marks.low, marks.high, estimate.overhead, estimate.unknown))?;
        Ok(Connection { handle, cancelled: Cancelled::default() })
    }

    /// Writes a copy of these bytes after all else. They are not sent before a flush. Messages of at most 2048 bytes that
    /// wait together share memory. If it is refused, nothing has changed.
    #[inline]
    pub fn write(&mut self, bytes: &[u8]) -> Result<Written, Refusal> {
        Written::of(self.handle.write(bytes))
    }

    /// Writes a copy of these parts as one message, one behind the other.
    ///
    /// ```
    /// use limekeel::{Connection, Estimate, Marks};
    /// use std::io::IoSlice;
    ///
    /// let mut connection = Connection::open(Marks::default(), Estimate::default())?;
    /// let written = connection.write_parts(&[IoSlice::new(b"5\n"), IoSlice::new(b"hello")])?;
    /// assert_eq!((written.id, connection.look().total), (0, 7 + 96));
    /// # Ok::<(), limekeel::Refusal>(())
    /// ```
    pub fn write_parts(&mut self, parts: &[IoSlice<'_>]) -> Result<Written, Refusal> {
        Written::of(self.handle.write_parts(parts))
    }

    /// Writes the bytes of a block, which the message then shares: nothing is copied.
    #[inline]
    pub fn write_block(&mut self, block: &Block) -> Result<Written, Refusal> {
        Written::of(self.handle.write_block(&block.slot))
    }

    /// Writes bytes that are there for good: nothing is copied, and nothing is kept for them.
    #[inline]
    pub fn write_static(&mut self, bytes: &'static [u8]) -> Result<Written, Refusal> {
        Written::of(self.handle.write_static(bytes))
    }

    /// Writes the bytes of `owner` where they lie, as of a `Vec<u8>` or of `Bytes` of the crate `bytes`: nothing is copied, but of a
    /// `Vec` at most 256 bytes, which costs less.
    ///
    /// The connection keeps the owner while the message waits. It drops it in the call that tells it as gone ([`Taken`] or
    /// [`Removed`], also of a message that was cancelled), before that returns, or when it is dropped itself. `as_ref` is
    /// called once. An owner of more than four words moves into a small allocation of its own. If memory or the write is refused,
    /// it comes back; [`Refusal::NoMemory`] may come before another refusal.
    ///
    /// ```
    /// use limekeel::{Connection, Estimate, Marks};
    ///
    /// let mut connection = Connection::open(Marks::default(), Estimate::default())?;
    /// let image = vec![7; 100_000];
    /// let at = image.as_ptr();
    /// let _ = connection.write_owned(image)?;
    /// let _ = connection.flush()?;
    /// assert_eq!(connection.pieces::<1>(u32::MAX)[0].as_ptr(), at);
    /// # Ok::<(), limekeel::Refusal>(())
    /// ```
    #[inline]
    pub fn write_owned<T: AsRef<[u8]> + Send + 'static>(&mut self, owner: T) -> Result<Written, Refused<T>> {
        let told = self.handle.write_owned(owner).map_err(|(refusal, owner)| Refused { refusal, owner })?;
        Ok(Written::accepted(told))
    }

    /// Room for one message of at most `most` bytes, to make it in place. Small messages that wait together share memory.
    /// [`Refusal::NoMemory`] comes if the allocator refused.
    ///
    /// ```
    /// use limekeel::{Connection, Estimate, Marks};
    /// use std::io::Write;
    ///
    /// let mut connection = Connection::open(Marks::default(), Estimate::default())?;
    /// let mut room = connection.reserve(100)?;
    /// write!(room, "{}-{}", 7, 9).expect("it has room");
    /// let written = room.write_message()?;
    /// assert_eq!((written.id, connection.look().total), (0, 3 + 96));
    /// # Ok::<(), limekeel::Refusal>(())
    /// ```
    #[inline]
    pub fn reserve(&mut self, most: usize) -> Result<Room<'_>, Refusal> {
        Ok(Room::new(self.handle.reserve(most)?, None))
    }

    /// Writes a region: `length` bytes of something that the caller sends, as of a file.
    pub fn write_region(&mut self, length: u64) -> Result<Written, Refusal> {
        Written::of(self.handle.write_region(length))
    }

    /// Writes any other message, by a number that means something to the caller alone.
    pub fn write_other(&mut self, value: u32) -> Result<Written, Refusal> {
        Written::of(self.handle.write_other(value))
    }

    /// Lets the transport have all that was written so far, and fixes its promises.
    #[inline]
    pub fn flush(&mut self) -> Result<Flushed, Refusal> {
        Flushed::of(self.handle.flush())
    }

    /// Takes the first flushed message away, as sent.
    #[inline]
    pub fn remove(&mut self) -> Result<Removed, Refusal> {
        let removed = Removed::of(self.handle.remove())?;
        self.cancelled.removed(&removed);
        Ok(removed)
    }

    /// Takes the first flushed message away, as failed for this cause.
    #[inline]
    pub fn remove_with(&mut self, cause: u32) -> Result<Removed, Refusal> {
        let removed = Removed::of(self.handle.remove_with(cause))?;
        self.cancelled.removed(&removed);
        Ok(removed)
    }

    /// Takes *n* bytes off the flushed blocks in front, as sent, and with them each message that is sent whole; 0 bytes take
    /// away the empty messages in front.
    #[inline]
    pub fn take_sent(&mut self, n: u64) -> Result<Taken, Refusal> {
        let taken = Taken::of(self.handle.take_sent(n))?;
        Ok(self.cancelled.settled_by(taken))
    }

    /// Adds *n* bytes to the progress of the first flushed message: of a region, as they were sent.
    pub fn progress(&mut self, n: u64) -> Result<(), Refusal> {
        done(self.handle.progress(n))
    }

    /// Takes a promise back, and returns whether that came in time: a promise that a flush has fixed stays as it is.
    /// [`Refusal::NoMemory`] comes if it would be in time, and the allocator refused.
    pub fn cancel(&mut self, id: u64) -> Result<bool, Refusal> {
        // memory comes first, so that nothing has changed if it is refused
        let node = if self.promise(id) == Some(Promise::Waiting) { Some(Node::new(id)?) } else { None };
        let told = self.handle.cancel(id);
        done(told.status)?;
        debug_assert_eq!(told.in_time, node.is_some());
        if let Some(node) = node.filter(|_| told.in_time) {
            self.cancelled.insert(node);
        }
        Ok(told.in_time)
    }

    /// Takes all flushed messages away, as failed for this cause. Without `notify` writability stays as it was.
    pub fn fail_flushed(&mut self, cause: u32, notify: bool) -> Result<Taken, Refusal> {
        let taken = Taken::of(self.handle.fail_flushed(cause, notify))?;
        Ok(self.cancelled.settled_by(taken))
    }

    /// Closes for good: takes away what no flush has reached, as failed for this cause. Each command is refused after it.
    pub fn close(&mut self, cause: u32) -> Result<Taken, Refusal> {
        let taken = Taken::of(self.handle.close(cause))?;
        Ok(self.cancelled.settled_by(taken))
    }

    /// Gives the connection up, as when its socket is broken: what is flushed fails for this cause, and the connection
    /// closes for it. It returns all that was pending, and writability stays as it was. [`Refusal::Closed`] comes if the
    /// connection is closed, and no other refusal does.
    pub fn give_up(&mut self, cause: u32) -> Result<Taken, Refusal> {
        let taken = Taken::of(self.handle.give_up(cause))?;
        Ok(self.cancelled.settled_by(taken))
    }

    /// Asks the processor for the memory in which the next messages come to lie. Call it after a write if many connections are
    /// written to in turn, as when one message goes to many clients: the memory comes while the others have their turn, and else
    /// each write waits for it. It changes nothing.
    #[inline]
    pub fn ask_ahead(&mut self) {
        self.handle.ask_ahead();
    }

    /// Keeps memory for what waits and for no more: none if nothing waits. For a connection that has sent all and is
    /// idle. It cannot fail: if a smaller block is refused, the connection keeps the one that it has.
    pub fn shrink_to_fit(&mut self) {
        self.handle.shrink_to_fit();
    }

    /// Sets the user bit 1 to 31, which makes the connection unwritable, or clears it if `writable` is set.
    pub fn user_bit(&mut self, index: u32, writable: bool) -> Result<Option<Change>, Refusal> {
        let told = self.handle.user_bit(index, writable);
        done(told.status)?;
        Ok(Change::of(told.change))
    }

    /// Sets other marks. They change nothing by themselves: the next rise or fall goes by them.
    pub fn set_marks(&mut self, marks: Marks) -> Result<(), Refusal> {
        done(self.handle.set_marks(marks.low, marks.high))
    }

    /// What is pending now.
    #[must_use]
    pub fn look(&self) -> Look {
        Look::of(self.handle.look())
    }

    /// Whether writers may go on.
    #[must_use]
    pub fn is_writable(&self) -> bool {
        self.handle.is_writable().holds
    }

    /// Whether a close was accepted.
    #[must_use]
    pub fn is_closed(&self) -> bool {
        self.handle.is_closed().holds
    }

    /// Whether no message is flushed and not yet removed. Messages that no flush has reached are not asked for.
    #[must_use]
    pub fn is_empty(&self) -> bool {
        self.handle.is_empty().holds
    }

    /// How many messages no flush has reached, and how many wait.
    ///
    /// ```
    /// use limekeel::{Connection, Estimate, Marks};
    ///
    /// let mut connection = Connection::open(Marks { low: 10, high: 20 }, Estimate::default())?;
    /// let _ = connection.write(b"sent")?;
    /// let _ = connection.flush()?;
    /// let _ = connection.write(b"not yet")?;
    /// connection.set_marks(Marks { low: 1, high: 2 })?;
    /// assert_eq!((connection.counts().unflushed, connection.counts().waiting), (1, 2));
    /// assert_eq!((connection.marks().low, connection.estimate().overhead), (1, 96));
    /// # Ok::<(), limekeel::Refusal>(())
    /// ```
    #[must_use]
    pub fn counts(&self) -> Counts {
        Counts::of(self.handle.counts())
    }

    /// The marks in force: those of the last [`Connection::set_marks`], and before it those of the opening.
    #[must_use]
    pub fn marks(&self) -> Marks {
        let told = self.handle.settings();
        Marks { low: told.low, high: told.high }
    }

    /// By what messages are counted: the estimate of the opening.
    #[must_use]
    pub fn estimate(&self) -> Estimate {
        let told = self.handle.settings();
        Estimate { overhead: told.overhead, unknown: told.unknown }
    }

    /// What has become of a promise, or nothing if no write was accepted under it.
    #[must_use]
    pub fn promise(&self, id: u64) -> Option<Promise> {
        Promise::of(self.handle.promise(id))
    }

    /// The promise of the first flushed message.
    #[must_use]
    pub fn front(&self) -> Option<u64> {
        let told = self.handle.front();
        told.any.then_some(told.id)
    }

    /// What is left of the first flushed message.
    #[must_use]
    pub fn current(&self) -> Option<Current> {
        Current::of(self.handle.current())
    }

    /// Where the flushed blocks in front lie that hold a byte, up to the first message that is no block: at most *N* of them,
    /// and at most `max_bytes` bytes, but the first in any case. It borrows the connection, and does not allocate.
    #[must_use]
    pub fn pieces<const N: usize>(&self, max_bytes: u32) -> Pieces<'_, N> {
        self.handle.pieces(max_bytes)
    }
}
