use crate::common::{Common, Role, look_for_a_while};
use crate::raw::Place;
use crate::replies::{Change, Flushed, Refusal, Removed, Taken, done};
use crate::send::{Ending, PIECES, Sent, SentTurns, written};
use crate::shared::{Moment, SharedConnection};
use crate::views::{Current, Glance, Look};
use crate::waits::{end_of, lock};
use std::io::{self, ErrorKind, IoSlice, Write};
use std::mem::replace;
use std::sync::Arc;
use std::time::{Duration, Instant};

/// The one that sends what was written to a [`SharedConnection`]: messages are taken away through it alone. It goes from thread to
/// thread, and is used by one at a time.
///
/// It gathers under the lock, lets that go while the writer works, and takes away under the lock what the writer took: no thread
/// waits for a socket. What was gathered stays in front meanwhile, so it is accepted.
///
/// If it is dropped, the role goes back to the connection, which hands it out by [`SharedConnection::transport`]: who waits for
/// room is told [`Moment::Abandoned`]. Nothing of what is pending is lost by that, nor by a writer that panics.
///
/// ```
/// fn goes_to_another_thread<T: Send>() {}
/// goes_to_another_thread::<limekeel::Transport>();
/// ```
///
/// ```compile_fail
/// fn is_cloned<T: Clone>() {}
/// is_cloned::<limekeel::Transport>();
/// ```
///
/// What it gathered borrows it, so that nothing is taken away while the pieces are in use:
///
/// ```compile_fail
/// # use limekeel::{Estimate, Marks, SharedConnection};
/// # let (_, mut transport) = SharedConnection::open(Marks::default(), Estimate::default()).unwrap();
/// let mut kept = Vec::new();
/// let _ = transport.send_with(|pieces| {
///     kept.push(&*pieces[0]);
///     Ok(1)
/// });
/// drop(kept);
/// ```
#[derive(Debug)]
pub struct Transport {
    // the archive's connection goes before what its messages are lent
    role: Role,
    common: Arc<Common>,
}

impl Transport {
    pub(crate) fn new(role: Role, common: &Arc<Common>) -> Transport {
        Transport { role, common: Arc::clone(common) }
    }

    /// One more that can write to the connection. [`Refusal::NoMemory`] comes if the allocator refused the few bytes of a handle.
    pub fn connection(&mut self) -> Result<SharedConnection, Refusal> {
        Ok(SharedConnection::new(self.role.sender.another()?, &self.common))
    }

    /// What is pending now.
    #[must_use]
    pub fn look(&self) -> Look {
        Look::of(self.common.line.had_by_sender(|| self.role.sharer.look()))
    }

    /// Whether a close was accepted, from a call that has returned.
    #[must_use]
    pub fn is_closed(&self) -> bool {
        self.common.is_closed()
    }

    /// Flushes what was written so far, as [`SharedConnection::flush`]: what writers left that are gone.
    pub fn flush(&mut self) -> Result<Flushed, Refusal> {
        let flushed = Flushed::of(self.common.line.had(|| self.role.sharer.flush()))?;
        self.tell(flushed.change);
        Ok(flushed)
    }

    /// Takes *n* bytes off the flushed messages in front, as sent, as [`crate::Connection::take_sent`]: for who sends by other means.
    /// It is not refused if a writer was offered as many.
    pub fn take_sent(&mut self, n: u64) -> Result<Taken, Refusal> {
        let taken = self.take(n)?;
        Ok(self.common.settled_by(taken))
    }

    /// What is left of the first flushed message: a region or another one is for who has the transport to send, and then to
    /// [`Transport::remove`].
    ///
    /// ```
    /// use limekeel::{Current, Ending, Estimate, Marks, SharedConnection};
    ///
    /// let (connection, mut transport) = SharedConnection::open(Marks::default(), Estimate::default())?;
    /// let _ = connection.write_and_flush(b"head")?;
    /// let _ = connection.write_region(1000)?;
    /// let _ = connection.write_and_flush(b"tail")?;
    /// let mut socket = Vec::new();
    /// assert!(matches!(transport.send_until_blocked(&mut socket, 10)?.ending, Ending::OtherInFront));
    /// assert_eq!((transport.current(), &socket[..]), (Some(Current::Region(1000)), &b"head"[..]));
    /// transport.progress(1000)?;
    /// assert_eq!(transport.current(), Some(Current::Region(0)));
    /// assert_eq!(transport.remove()?.settled.map(|(id, _)| id), Some(1));
    /// assert!(matches!(transport.send_until_blocked(&mut socket, 10)?.ending, Ending::Drained));
    /// # Ok::<(), limekeel::Refusal>(())
    /// ```
    #[must_use]
    pub fn current(&mut self) -> Option<Current> {
        let Transport { role, common } = self;
        Current::of(common.line.had(|| role.sender.current()))
    }

    /// Adds *n* bytes to the progress of the first flushed message: of a region, as they were sent.
    pub fn progress(&mut self, n: u64) -> Result<(), Refusal> {
        let Transport { role, common } = self;
        done(common.line.had(|| role.sender.progress(n)))
    }

    /// Takes the first flushed message away, as sent.
    pub fn remove(&mut self) -> Result<Removed, Refusal> {
        let Transport { role, common } = self;
        let removed = Removed::of(common.line.had(|| role.sender.remove()))?;
        Ok(self.removed(removed))
    }

    /// Takes the first flushed message away, as failed for this cause.
    pub fn remove_with(&mut self, cause: u32) -> Result<Removed, Refusal> {
        let Transport { role, common } = self;
        let removed = Removed::of(common.line.had(|| role.sender.remove_with(cause)))?;
        Ok(self.removed(removed))
    }

    fn removed(&mut self, removed: Removed) -> Removed {
        if removed.any {
            // its promise may have been cancelled, and then it is not told
            let id = self.role.gone;
            self.role.gone += 1;
            self.tell(removed.change);
            self.settle();
            let _ = self.common.settled_by(Taken::one(id));
        }
        removed
    }

    /// Takes all flushed messages away, as failed for this cause. Without `notify` writability stays as it was.
    pub fn fail_flushed(&mut self, cause: u32, notify: bool) -> Result<Taken, Refusal> {
        let Transport { role, common } = self;
        let taken = Taken::of(common.line.had(|| role.sender.fail_flushed(cause, notify)))?;
        role.gone = taken.promises.end;
        self.tell(taken.change);
        self.settle();
        Ok(self.common.settled_by(taken))
    }

    /// Gives the connection up, as [`crate::Connection::give_up`]: all who wait are woken, and each command is refused after it.
    pub fn give_up(&mut self, cause: u32) -> Result<Taken, Refusal> {
        let Transport { role, common } = self;
        let taken = Taken::of(common.line.had(|| role.sender.give_up(cause)))?;
        common.closes();
        common.settle(&role.sharer);
        Ok(common.settled_by(taken))
    }

    /// Sleeps until a flushed message is there, the connection is closed, or nobody can write. Never [`Moment::NotYet`].
    pub fn wait_for_work(&mut self) -> Moment {
        self.wait_until(None)
    }

    /// The same, but no longer than `limit`.
    pub fn wait_for_work_within(&mut self, limit: Duration) -> Moment {
        self.wait_until(end_of(limit))
    }

    fn wait_until(&self, end: Option<Instant>) -> Moment {
        look_for_a_while(|| self.total() > 0 || self.is_closed());
        self.common.work.wait(end, || self.moment()).unwrap_or(Moment::NotYet)
    }

    fn moment(&self) -> Option<Moment> {
        // read before the look: what a writer flushed before it went is seen then
        let nobody_writes = self.common.nobody_writes();
        if self.is_closed() {
            return Some(Moment::Closed);
        }
        if self.look().size > 0 {
            return Some(Moment::Ready);
        }
        nobody_writes.then_some(Moment::Abandoned)
    }

    /// Lets a writer take once of the flushed messages in front, and takes away what it took, as
    /// [`crate::Connection::send_to`]: without the lock while the writer works.
    ///
    /// The errors are those of [`crate::Connection::send_to`], and [`ErrorKind::OutOfMemory`] if memory was refused for the list of
    /// what is in front. None of them changed anything. `more` is what was so at the end of the call.
    ///
    /// ```
    /// use limekeel::{Estimate, Marks, SharedConnection};
    ///
    /// let (connection, mut transport) = SharedConnection::open(Marks::default(), Estimate::default())?;
    /// let _ = connection.write(b"sent ")?;
    /// let _ = connection.flush()?;
    /// let mut socket = Vec::new();
    /// let sent = transport.send_with(|pieces| {
    ///     // others write meanwhile, and flush
    ///     let _ = connection.write(b"and more").expect("it is open");
    ///     let _ = connection.flush().expect("it is open");
    ///     std::io::Write::write_vectored(&mut socket, pieces)
    /// })?;
    /// assert_eq!((sent.bytes, sent.more), (5, true));
    /// # Ok::<(), Box<dyn std::error::Error>>(())
    /// ```
    pub fn send_to<W: Write + ?Sized>(&mut self, writer: &mut W) -> io::Result<Sent> {
        self.send_with(|pieces| writer.write_vectored(pieces))
    }

    /// The same for what is no [`Write`], as [`crate::Connection::send_with`].
    pub fn send_with(&mut self, mut write: impl FnMut(&[IoSlice<'_>]) -> io::Result<usize>) -> io::Result<Sent> {
        let (bytes, blocked) = self.write_once(&mut write)?;
        let taken = self.take_sent(bytes as u64).map_err(|refusal| io::Error::new(ErrorKind::BrokenPipe, refusal))?;
        Ok(Sent { bytes, taken, blocked, more: self.look().size > 0 })
    }

    /// Lets a writer take of the flushed messages in front, turn by turn as [`Transport::send_to`] does, until no flushed message is
    /// left, the writer would block or is broken, or `max_turns` turns were made; one is made in any case. What is flushed meanwhile
    /// is sent too.
    ///
    /// What the turns took away is returned as one interval, and of the changes of writability the first: others may have followed.
    /// [`Refusal::Closed`] comes if the connection is closed, and no other refusal does.
    pub fn send_until_blocked<W: Write + ?Sized>(
        &mut self,
        writer: &mut W,
        max_turns: u32,
    ) -> Result<SentTurns, Refusal> {
        self.send_until_blocked_with(max_turns, |pieces| writer.write_vectored(pieces))
    }

    /// The same for what is no [`Write`], as at [`Transport::send_with`].
    pub fn send_until_blocked_with(
        &mut self,
        max_turns: u32,
        mut write: impl FnMut(&[IoSlice<'_>]) -> io::Result<usize>,
    ) -> Result<SentTurns, Refusal> {
        let mut all: Option<Taken> = None;
        let (mut bytes, mut turns) = (0, 0);
        let ending = loop {
            turns += 1;
            let took = self.write_once(&mut write);
            let count = took.as_ref().map_or(0, |(count, _)| *count as u64);
            bytes += count;
            match (self.take(count), &mut all) {
                (Ok(taken), Some(all)) => all.add(taken),
                (Ok(taken), none) => *none = Some(taken),
                (Err(refusal), None) => return Err(refusal),
                // a close can come between two turns, if nothing is flushed then
                (Err(_), Some(_)) => break Ending::Drained,
            }
            match took {
                Err(error) => break Ending::Broken(error),
                Ok((_, true)) => break Ending::Blocked,
                Ok((0, false)) if self.is_held_up() => break Ending::OtherInFront,
                Ok(_) if self.is_drained(turns >= max_turns) => break Ending::Drained,
                Ok(_) if turns >= max_turns => break Ending::TurnsUsed,
                Ok(_) => {}
            }
        };
        let taken = all.expect("a turn was made");
        Ok(SentTurns { bytes, taken: self.common.settled_by(taken), ending })
    }

    /// Whether a message is in front that is no block.
    fn is_held_up(&mut self) -> bool {
        matches!(self.current(), Some(Current::Region(_) | Current::Other(_)))
    }

    /// Whether no flushed message is left. While bytes are pending that takes no lock and may be told as no, unless it `is_last`:
    /// another turn finds it out.
    fn is_drained(&mut self, is_last: bool) -> bool {
        (is_last || self.total() == 0) && self.look().size == 0
    }

    /// The pending bytes, without the lock.
    fn total(&self) -> u32 {
        Glance::of(self.common.line.had(|| self.role.sharer.glance())).total
    }

    /// How many bytes a writer took, and whether it would block.
    fn write_once(&mut self, write: &mut impl FnMut(&[IoSlice<'_>]) -> io::Result<usize>) -> io::Result<(usize, bool)> {
        // not filled beforehand: most often few are
        let mut places = [const { Place::uninit() }; PIECES];
        let Transport { role, common } = self;
        let pieces = role
            .sender
            .offered(&common.line, &mut places, u32::MAX)
            // no other refusal comes; this error takes no memory itself
            .map_err(|_| io::Error::from(ErrorKind::OutOfMemory))?;
        if pieces.is_empty() { Ok((0, false)) } else { written(pieces, write) }
    }

    fn take(&mut self, n: u64) -> Result<Taken, Refusal> {
        let Transport { role, common } = self;
        let taken = Taken::of(common.line.had_by_sender(|| role.sender.take_sent(n)))?;
        role.gone = taken.promises.end;
        self.tell(taken.change);
        self.settle();
        Ok(taken)
    }

    /// Of a connection within a budget: gives back all that it holds above what is pending, as before it is idle.
    pub fn rest(&mut self) {
        self.common.rest(&self.role.sharer);
    }

    /// Gives back what is spare of a budget, after messages are gone.
    fn settle(&self) {
        self.common.settle(&self.role.sharer);
    }

    /// Wakes the writers if they may go on.
    fn tell(&self, change: Option<Change>) {
        if change == Some(Change::Writable) {
            self.common.writers.ring();
        }
    }
}

impl Drop for Transport {
    fn drop(&mut self) {
        let role = replace(&mut self.role, Role::none());
        *lock(&self.common.role) = Some(role);
        self.common.writers.ring();
    }
}
