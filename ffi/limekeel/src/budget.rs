//! A budget for the memory of many connections, and a connection that it covers.

use crate::block::Block;
use crate::budget_raw::{Budgeted, Handle};
use crate::calm::{Calm, Waiters};
use crate::connection::{Estimate, Marks};
use crate::handles::Sender;
use crate::lends::{Made, Owned, WrittenWithin};
use crate::promises::{Cancelled, Node};
use crate::raw::{Gather, Pieces};
use crate::replies::{Change, Flushed, Refusal, Refused, Removed, Taken, Written, done};
use crate::room::Room;
use crate::send::{Sent, SentTurns, Source, in_turns, once};
use crate::views::{Current, Look, Promise};
use crate::waits::lock;
use limekeel_sys as sys;
use std::io::{self, IoSlice, Write};
use std::sync::{Arc, Mutex};
use std::time::Duration;

/// What a budget is opened with, in bytes: the room, which is never passed, and the two marks of pressure.
#[derive(Clone, Copy, Debug, PartialEq, Eq)]
pub struct Bounds {
    /// The most that all connections together hold, at most 2^62 - 1.
    pub room: u64,
    /// Pressure ends once they hold less.
    pub low: u64,
    /// Pressure begins once they hold more.
    pub high: u64,
}

/// How a call changed pressure at its budget.
#[derive(Clone, Copy, Debug, PartialEq, Eq, Hash)]
pub enum Pressure {
    /// Read less and accept fewer.
    Began,
    /// Go on, and wake who waits for that.
    Ended,
}

impl Pressure {
    #[inline]
    fn of(number: u32) -> Option<Pressure> {
        match number {
            sys::PRESSURE_BEGAN => Some(Pressure::Began),
            sys::PRESSURE_ENDED => Some(Pressure::Ended),
            _ => None,
        }
    }
}

/// What a call returned, and how it changed pressure at the budget. Nothing tells that again.
#[must_use = "nothing tells the change of pressure, of writability or the settlements again"]
#[derive(Clone, Copy, Debug, PartialEq, Eq)]
pub struct Pressed<T> {
    /// What the call of a connection returns.
    pub answer: T,
    /// Whether pressure began by this call, or ended. A write that is refused may have begun it too.
    pub pressure: Option<Pressure>,
}

/// What a look at a budget shows.
#[derive(Clone, Copy, Debug, PartialEq, Eq)]
pub struct BudgetLook {
    /// The bytes that all its connections hold: what is pending of them, and what is spare.
    pub total: u64,
    /// Whether pressure stands.
    pub is_pressed: bool,
}

impl BudgetLook {
    fn of(told: sys::BudgetTold) -> BudgetLook {
        debug_assert!(done(told.status).is_ok());
        BudgetLook { total: told.total, is_pressed: told.is_pressed }
    }
}

/// A budget for the memory of many connections on whatever threads: all that are opened within it never hold more than its room
/// together, at each moment.
///
/// A clone is the same handle, which a mutex guards while it opens a connection or looks; [`Budget::share`] makes a handle of the
/// same budget that other threads do not touch. A connection touches neither once it is open.
///
/// ```
/// use limekeel::{Bounds, Budget, BudgetedConnection, Estimate, Marks, Pressure, Refusal};
///
/// let budget = Budget::open(Bounds { room: 1000, low: 200, high: 800 }, 0)?;
/// let mut slow = BudgetedConnection::within(&budget, Marks::default(), Estimate::default())?;
/// let mut fast = BudgetedConnection::within(&budget, Marks::default(), Estimate::default())?;
/// let told = slow.write(&[0; 804]); // counts 900, 96 of them for the message itself
/// assert_eq!(told.pressure, Some(Pressure::Began)); // read less
/// assert!(told.answer.is_ok() && budget.is_pressed());
/// assert_eq!(fast.write(&[0; 5]).answer, Err(Refusal::OverBudget));
/// let told = slow.give_up(7); // one of them has to go
/// assert_eq!((told.pressure, budget.look().total), (Some(Pressure::Ended), 0));
/// assert!(fast.write(&[0; 5]).answer.is_ok());
/// # Ok::<(), limekeel::Refusal>(())
/// ```
///
/// ```
/// fn is_shared_and_cloned<T: Clone + Send + Sync>() {}
/// is_shared_and_cloned::<limekeel::Budget>();
/// fn goes_to_another_thread<T: Send>() {}
/// goes_to_another_thread::<limekeel::BudgetedConnection>();
/// ```
#[derive(Clone, Debug)]
pub struct Budget {
    handle: Arc<Mutex<Handle>>,
    waiters: Arc<Waiters>,
}

impl Budget {
    /// A budget of which nothing is held. `quantum` is the least that a connection takes at once while the room has as much, in
    /// bytes, and it keeps at most two of them beside what is pending: 4096 to 16384 for many connections.
    ///
    /// [`Refusal::BadBounds`] comes if the low mark is above the high mark, or the room above 2^62 - 1.
    pub fn open(bounds: Bounds, quantum: u64) -> Result<Budget, Refusal> {
        Ok(Budget::of(Handle::open(bounds, quantum)?, Arc::default()))
    }

    /// Another handle of the same budget, for another thread, with no mutex in common. It allocates.
    pub fn share(&self) -> Result<Budget, Refusal> {
        Ok(Budget::of(lock(&self.handle).share()?, Arc::clone(&self.waiters)))
    }

    /// The bytes that all connections hold, and whether pressure stands.
    #[must_use]
    pub fn look(&self) -> BudgetLook {
        BudgetLook::of(lock(&self.handle).look())
    }

    /// Whether pressure stands: then read less and accept fewer.
    #[must_use]
    pub fn is_pressed(&self) -> bool {
        self.look().is_pressed
    }

    /// Sleeps until no pressure stands, if it does: as a thread does that accepts clients. Whatever call ends pressure wakes it, of
    /// whatever connection on whatever thread.
    ///
    /// A write can be [`Refusal::OverBudget`] while no pressure stands, if its message is larger than what is left of the room.
    ///
    /// ```
    /// use limekeel::{Bounds, Budget, BudgetedConnection, Estimate, Marks};
    /// use std::thread;
    ///
    /// let budget = Budget::open(Bounds { room: 1000, low: 200, high: 800 }, 0)?;
    /// let mut slow = BudgetedConnection::within(&budget, Marks::default(), Estimate::default())?;
    /// let _ = slow.write(&[0; 804]).answer?; // 900: pressure began
    /// let other = budget.share()?;
    /// let accepts = thread::spawn(move || other.wait_while_pressed());
    /// let _ = slow.give_up(7).answer?; // ends it, and wakes
    /// accepts.join().expect("it goes on");
    /// # Ok::<(), limekeel::Refusal>(())
    /// ```
    pub fn wait_while_pressed(&self) {
        self.waiters.wait(None, || self.is_pressed());
    }

    /// The same, but no longer than `limit`: then it answers false.
    #[must_use = "pressure may still stand"]
    pub fn wait_while_pressed_within(&self, limit: Duration) -> bool {
        self.waiters.wait(Some(limit), || self.is_pressed())
    }

    /// The same for a task, of whatever executor: a future that is ready once no pressure stands. Await it before each read, and
    /// before each accept.
    pub fn calm(&self) -> Calm {
        Calm::new(self.clone())
    }

    pub(crate) fn waiters(&self) -> &Arc<Waiters> {
        &self.waiters
    }

    /// A connection within it that threads share.
    pub(crate) fn open_shared(&self, marks: Marks, estimate: Estimate) -> Result<Sender, Refusal> {
        Sender::open_within(&mut lock(&self.handle), marks, estimate)
    }

    fn of(handle: Handle, waiters: Arc<Waiters>) -> Budget {
        Budget { handle: Arc::new(Mutex::new(handle)), waiters }
    }
}

/// A [`crate::Connection`] whose pending bytes a [`Budget`] covers.
///
/// Its calls are those of a connection, and each returns besides how it changed pressure. A write that finds no room is
/// [`Refusal::OverBudget`], after [`Refusal::Closed`] and [`Refusal::Oversize`] and before anything is allocated; it is
/// [`Refusal::Busy`] if other threads came in between 65536 times. What is spare above two quanta goes back by itself.
///
/// Each call that ends pressure wakes who waits for that ([`Budget::wait_while_pressed`], [`Budget::calm`]).
///
/// One that is dropped gives back all that it holds. If that ends pressure who waits is woken, but nobody is told:
/// [`BudgetedConnection::retire`] tells it.
#[derive(Debug)]
pub struct BudgetedConnection {
    handle: Budgeted,
    cancelled: Cancelled,
    waiters: Arc<Waiters>,
}

impl BudgetedConnection {
    /// A connection with nothing written, within this budget. It holds nothing before its first write.
    pub fn within(budget: &Budget, marks: Marks, estimate: Estimate) -> Result<BudgetedConnection, Refusal> {
        let handle = Budgeted::open(&mut lock(&budget.handle), marks, estimate)?;
        Ok(BudgetedConnection { handle, cancelled: Cancelled::default(), waiters: Arc::clone(&budget.waiters) })
    }

    /// As [`crate::Connection::ask_ahead`].
    #[inline]
    pub fn ask_ahead(&mut self) {
        self.handle.ask_ahead();
    }

    /// Gives back all that it holds above what is pending: for a connection that is idle, as before its task waits.
    #[must_use = "nothing tells the change of pressure again"]
    pub fn rest(&mut self) -> Option<Pressure> {
        let told = self.handle.rest();
        self.waiters.turned(told.pressure)
    }

    /// Lets it hold `bytes` beside what is pending: for the next message, by all that this counts, before its bytes are made. Then
    /// the budget does not refuse the write, which takes nothing of it.
    ///
    /// [`Refusal::OverBudget`] and [`Refusal::Busy`] come as of a write, and then nothing has changed. What no write used goes back
    /// with the next flush or removal, if it is more than two quanta, down to one.
    ///
    /// ```
    /// use limekeel::{Bounds, Budget, BudgetedConnection, Estimate, Marks, Refusal};
    ///
    /// let budget = Budget::open(Bounds { room: 1000, low: 200, high: 800 }, 0)?;
    /// let mut connection = BudgetedConnection::within(&budget, Marks::default(), Estimate::default())?;
    /// assert_eq!(connection.cover(905).answer, Ok(()));
    /// assert_eq!(connection.cover(1001).answer, Err(Refusal::OverBudget));
    /// let page = vec![b'.'; 905 - 96];
    /// let _ = connection.write(&page).answer?;
    /// # Ok::<(), limekeel::Refusal>(())
    /// ```
    pub fn cover(&mut self, bytes: u32) -> Pressed<Result<(), Refusal>> {
        let told = self.handle.cover(bytes);
        Pressed { answer: done(told.status), pressure: self.waiters.turned(told.pressure) }
    }

    /// Lets it go with all that waits in it, and gives back all that it holds. Promises that wait are not reported: give it up
    /// before.
    #[must_use = "nothing tells the change of pressure again"]
    pub fn retire(mut self) -> Option<Pressure> {
        // if others came in between, the drop tries again
        let told = self.handle.free();
        self.waiters.turned(told.pressure)
    }

    /// The bytes that all connections of its budget hold, and whether pressure stands, read in one load with no lock.
    #[must_use]
    pub fn look_at_budget(&mut self) -> BudgetLook {
        BudgetLook::of(self.handle.look_at_budget())
    }

    /// The bytes that it holds of the budget: at least those that are pending.
    #[must_use]
    pub fn held(&self) -> u64 {
        self.handle.state().held
    }

    /// Writes a copy of these bytes.
    #[inline]
    pub fn write(&mut self, bytes: &[u8]) -> Pressed<Result<Written, Refusal>> {
        let told = self.handle.lends().write_copy(bytes).unwrap_or_else(|| self.handle.write(bytes));
        self.waiters.written(told)
    }

    /// Writes the bytes of a block, which the message then shares: nothing is copied.
    #[inline]
    pub fn write_block(&mut self, block: &Block) -> Pressed<Result<Written, Refusal>> {
        let told = self.handle.write_block(&block.slot);
        self.waiters.written(told)
    }

    /// Writes bytes that are there for good: nothing is copied.
    #[inline]
    pub fn write_static(&mut self, bytes: &'static [u8]) -> Pressed<Result<Written, Refusal>> {
        let told = self.handle.write_static(bytes);
        self.waiters.written(told)
    }

    /// Writes the bytes of `owner` where they lie, as [`crate::Connection::write_owned`].
    pub fn write_owned<T: AsRef<[u8]> + Send + 'static>(&mut self, owner: T) -> Pressed<Result<Written, Refused<T>>> {
        let Owned { answer, pressure } = self.handle.lends().write_owned(owner);
        let answer = answer.map(Written::accepted).map_err(|(refusal, owner)| Refused { refusal, owner });
        Pressed { answer, pressure: self.waiters.turned(pressure) }
    }

    /// Room for one message of at most `most` bytes, to make it in place, as [`crate::Connection::reserve`]. The budget is asked
    /// when the message is written.
    ///
    /// ```
    /// use limekeel::{Bounds, Budget, BudgetedConnection, Estimate, Marks};
    /// use std::io::Write;
    ///
    /// let budget = Budget::open(Bounds { room: 1000, low: 200, high: 800 }, 0)?;
    /// let mut connection = BudgetedConnection::within(&budget, Marks::default(), Estimate::default())?;
    /// let mut room = connection.reserve(100)?;
    /// write!(room, "{}-{}", 7, 9).expect("it has room");
    /// let told = room.write_message();
    /// assert_eq!((told.answer?.id, told.pressure, budget.look().total), (0, None, 3 + 96));
    /// # Ok::<(), limekeel::Refusal>(())
    /// ```
    pub fn reserve(&mut self, most: usize) -> Result<Room<'_, Pressed<Result<Written, Refusal>>>, Refusal> {
        let made = Made::new(self.handle.lends(), most)?;
        Ok(Room::new(made, Some(&self.waiters)))
    }

    /// Writes a region: `length` bytes of something that the caller sends, as of a file.
    pub fn write_region(&mut self, length: u64) -> Pressed<Result<Written, Refusal>> {
        let told = self.handle.write_region(length);
        self.waiters.written(told.into())
    }

    /// Writes any other message, by a number that means something to the caller alone.
    pub fn write_other(&mut self, value: u32) -> Pressed<Result<Written, Refusal>> {
        let told = self.handle.write_other(value);
        self.waiters.written(told.into())
    }

    /// As [`crate::Connection::flush`].
    #[inline]
    pub fn flush(&mut self) -> Pressed<Result<Flushed, Refusal>> {
        let sys::PressedFlushed { status, change, pressure, count } = self.handle.flush();
        let told = sys::Flushed { status, change: change.into(), count };
        Pressed { answer: Flushed::of(told), pressure: self.waiters.turned(pressure.into()) }
    }

    /// As [`crate::Connection::remove`].
    #[inline]
    pub fn remove(&mut self) -> Pressed<Result<Removed, Refusal>> {
        let told = self.handle.remove();
        self.removed(told)
    }

    /// As [`crate::Connection::remove_with`].
    #[inline]
    pub fn remove_with(&mut self, cause: u32) -> Pressed<Result<Removed, Refusal>> {
        let told = self.handle.remove_with(cause);
        self.removed(told)
    }

    /// As [`crate::Connection::take_sent`].
    #[inline]
    pub fn take_sent(&mut self, n: u64) -> Pressed<Result<Taken, Refusal>> {
        let told = self.handle.take_sent(n);
        self.taken(told)
    }

    /// As [`crate::Connection::progress`].
    pub fn progress(&mut self, n: u64) -> Pressed<Result<(), Refusal>> {
        let told = self.handle.progress(n);
        Pressed { answer: done(told.status), pressure: self.waiters.turned(told.pressure) }
    }

    /// As [`crate::Connection::cancel`].
    pub fn cancel(&mut self, id: u64) -> Pressed<Result<bool, Refusal>> {
        // memory comes first, so that nothing has changed if it is refused
        let node = if self.promise(id) == Some(Promise::Waiting) { Node::new(id).map(Some) } else { Ok(None) };
        let node = match node {
            Ok(node) => node,
            Err(refusal) => return Pressed { answer: Err(refusal), pressure: None },
        };
        let told = self.handle.cancel(id);
        if let Some(node) = node.filter(|_| told.cancelled.in_time) {
            self.cancelled.insert(node);
        }
        let answer = done(told.cancelled.status).map(|()| told.cancelled.in_time);
        Pressed { answer, pressure: self.waiters.turned(told.pressure) }
    }

    /// As [`crate::Connection::fail_flushed`].
    pub fn fail_flushed(&mut self, cause: u32, notify: bool) -> Pressed<Result<Taken, Refusal>> {
        let told = self.handle.fail_flushed(cause, notify);
        self.taken(told)
    }

    /// As [`crate::Connection::close`].
    pub fn close(&mut self, cause: u32) -> Pressed<Result<Taken, Refusal>> {
        let told = self.handle.close(cause);
        self.taken(told)
    }

    /// As [`crate::Connection::give_up`]. What it held goes back, but for two quanta at most, which a drop gives back.
    pub fn give_up(&mut self, cause: u32) -> Pressed<Result<Taken, Refusal>> {
        let told = self.handle.give_up(cause);
        self.taken(told)
    }

    /// As [`crate::Connection::user_bit`].
    pub fn user_bit(&mut self, index: u32, writable: bool) -> Pressed<Result<Option<Change>, Refusal>> {
        let told = self.handle.user_bit(index, writable);
        let answer = done(told.changed.status).map(|()| Change::of(told.changed.change));
        Pressed { answer, pressure: self.waiters.turned(told.pressure) }
    }

    /// As [`crate::Connection::set_marks`].
    pub fn set_marks(&mut self, marks: Marks) -> Pressed<Result<(), Refusal>> {
        let told = self.handle.set_marks(marks.low, marks.high);
        Pressed { answer: done(told.status), pressure: self.waiters.turned(told.pressure) }
    }

    /// As [`crate::Connection::send_to`].
    pub fn send_to<W: Write + ?Sized>(&mut self, writer: &mut W) -> Pressed<io::Result<Sent>> {
        let mut sending = Sending { budgeted: self, pressure: None };
        let answer = once(&mut sending, |pieces: &[IoSlice<'_>]| writer.write_vectored(pieces));
        Pressed { answer, pressure: sending.pressure }
    }

    /// As [`crate::Connection::send_until_blocked`]. The changes of pressure by its turns are told as one: the last, if any.
    pub fn send_until_blocked<W: Write + ?Sized>(
        &mut self,
        writer: &mut W,
        max_turns: u32,
    ) -> Pressed<Result<SentTurns, Refusal>> {
        let mut sending = Sending { budgeted: self, pressure: None };
        let mut write = |pieces: &[IoSlice<'_>]| writer.write_vectored(pieces);
        let answer = in_turns(&mut sending, max_turns, &mut write);
        Pressed { answer, pressure: sending.pressure }
    }

    /// What is pending now.
    #[must_use]
    pub fn look(&self) -> Look {
        Look::of(self.handle.look())
    }

    /// Whether writers may go on.
    #[must_use]
    pub fn is_writable(&self) -> bool {
        self.handle.state().writable
    }

    /// Whether a close was accepted.
    #[must_use]
    pub fn is_closed(&self) -> bool {
        self.handle.state().closed
    }

    /// Whether no message is flushed and not yet removed.
    #[must_use]
    pub fn is_empty(&self) -> bool {
        self.handle.state().empty
    }

    /// As [`crate::Connection::promise`].
    #[must_use]
    pub fn promise(&self, id: u64) -> Option<Promise> {
        Promise::of(self.handle.promise(id))
    }

    /// The promise of the first flushed message.
    #[must_use]
    pub fn front(&self) -> Option<u64> {
        let told = self.handle.front();
        told.any.then_some(told.id)
    }

    /// What is left of the first flushed message.
    #[must_use]
    pub fn current(&self) -> Option<Current> {
        Current::of(self.handle.current())
    }

    /// As [`crate::Connection::pieces`].
    #[must_use]
    pub fn pieces<const N: usize>(&self, max_bytes: u32) -> Pieces<'_, N> {
        self.handle.pieces(max_bytes)
    }

    #[inline]
    fn removed(&mut self, told: sys::PressedRemoved) -> Pressed<Result<Removed, Refusal>> {
        let answer = Removed::of(told.removed);
        if let Ok(removed) = &answer {
            self.cancelled.removed(removed);
        }
        Pressed { answer, pressure: self.waiters.turned(told.pressure) }
    }

    #[inline]
    fn taken(&mut self, told: sys::PressedTaken) -> Pressed<Result<Taken, Refusal>> {
        let answer = Taken::of(told.taken).map(|taken| self.cancelled.settled_by(taken));
        Pressed { answer, pressure: self.waiters.turned(told.pressure) }
    }
}

impl Drop for BudgetedConnection {
    fn drop(&mut self) {
        let number = self.handle.frees();
        self.waiters.turned(number);
    }
}

// so one comparison tells that a call was accepted and turned nothing
const _: () = assert!(sys::OK == 0 && sys::PRESSURE_UNCHANGED == 0);

impl Waiters {
    /// How a call changed pressure. Who waits for its end is woken.
    #[inline]
    pub(crate) fn turned(&self, number: u32) -> Option<Pressure> {
        if number == sys::PRESSURE_UNCHANGED { None } else { self.turned_by(number) }
    }

    // Few calls turn it: apart, so that a call is small enough to be inlined.
    #[cold]
    fn turned_by(&self, number: u32) -> Option<Pressure> {
        let turn = Pressure::of(number);
        if turn == Some(Pressure::Ended) {
            self.ring();
        }
        turn
    }

    /// What a write returns. Most are accepted and turn nothing: one comparison tells that.
    #[inline(always)]
    pub(crate) fn written(&self, told: WrittenWithin) -> Pressed<Result<Written, Refusal>> {
        let WrittenWithin { written: sys::Written { status, change, id }, pressure } = told;
        if status | pressure == 0 {
            return Pressed { answer: Ok(Written { id, change: Change::of(change) }), pressure: None };
        }
        self.written_by(status, change, id, pressure)
    }

    // Number by number, so that the others need not be in memory.
    #[cold]
    #[inline(never)]
    fn written_by(&self, status: u32, change: u32, id: u64, pressure: u32) -> Pressed<Result<Written, Refusal>> {
        Pressed { answer: Written::of(sys::Written { status, change, id }), pressure: self.turned(pressure) }
    }
}

/// A connection that a budget covers while it sends.
struct Sending<'a> {
    budgeted: &'a mut BudgetedConnection,
    /// The last change of pressure by what it sent.
    pressure: Option<Pressure>,
}

impl Source for Sending<'_> {
    fn gathers(&self) -> &impl Gather {
        &self.budgeted.handle
    }

    fn is_closed(&self) -> bool {
        self.budgeted.is_closed()
    }

    fn is_empty(&self) -> bool {
        self.budgeted.is_empty()
    }

    fn take(&mut self, bytes: u64) -> Result<Taken, Refusal> {
        let told = self.budgeted.handle.take_sent(bytes);
        self.pressure = self.budgeted.waiters.turned(told.pressure).or(self.pressure);
        Taken::of(told.taken)
    }

    fn settled_by(&mut self, taken: Taken) -> Taken {
        self.budgeted.cancelled.settled_by(taken)
    }
}
