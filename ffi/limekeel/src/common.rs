use crate::calm::Waiters;
use crate::handles::{Sender, Sharer};
use crate::lends::WrittenWithin;
use crate::lent::Lent;
use crate::owners::{Boxed, Kept};
use crate::promises::{Node, Promises};
use crate::replies::{Refusal, Taken, Written, done};
use crate::waits::{Bell, Line, lock, look_for};
use limekeel_sys as sys;
use std::sync::atomic::{AtomicBool, AtomicUsize, Ordering};
use std::sync::{Arc, Mutex};
use std::time::Duration;

/// What all that have a shared connection have in common, beside what the archive keeps.
#[derive(Debug)]
pub(crate) struct Common {
    /// Who waits for the lock.
    pub(crate) line: Line,
    /// Where writers wait for room.
    pub(crate) writers: Bell,
    /// Where the transport waits for flushed messages.
    pub(crate) work: Bell,
    /// What a `Transport` needs, while there is none.
    pub(crate) role: Mutex<Option<Role>>,
    /// How many there are that can write.
    pub(crate) sharers: AtomicUsize,
    /// Whether a close was accepted. It is raised after that.
    closed: AtomicBool,
    // dropped last: the archive's messages are gone by then
    books: Mutex<Books>,
    /// What the connection is within, if it is within a budget. It is dropped behind the archive's connection.
    covered: Option<Covered>,
}

/// Who waits for the end of pressure at the budget of a connection.
#[derive(Debug)]
struct Covered(Arc<Waiters>);

impl Drop for Covered {
    /// The connection gave back what it held, and who waits looks whether that ended pressure.
    fn drop(&mut self) {
        self.0.ring();
    }
}

/// What a `Transport` needs: the handle that sends, and one for what that has no call for, which is not counted as a writer.
#[derive(Debug)]
pub(crate) struct Role {
    pub(crate) sender: Sender,
    pub(crate) sharer: Sharer,
    /// How many messages it has taken away, which is the promise of the first that is left: no other takes one away, but a close,
    /// and then none is left.
    pub(crate) gone: u64,
}

impl Role {
    pub(crate) fn none() -> Role {
        Role { sender: Sender::none(), sharer: Sharer::none(), gone: 0 }
    }
}

/// What is noted of messages that wait. The mutex is had from before the call that makes an entry to after it: so whoever takes
/// the message away finds the entry.
#[derive(Debug, Default)]
struct Books {
    /// Promises that were cancelled and whose messages are not gone.
    cancelled: Promises,
    /// What messages are lent.
    lent: Lent,
}

/// How long one that is to wait looks without the lock before it sleeps. It is some half of what it takes to wake a thread that sleeps.
const LOOKS: Duration = Duration::from_micros(30);

/// Looks for a while whether it has come what one is to wait for, and returns once it seems so. While others work it comes as soon
/// as that most often, and a sleep costs more: also the thread that has to wake the sleeper. The processor is not given away, since
/// it comes back late if many want it.
pub(crate) fn look_for_a_while(came: impl FnMut() -> bool) {
    look_for(LOOKS, came);
}

impl Common {
    /// Of a connection that is open, before anyone has it.
    pub(crate) fn new(waiters: Option<&Arc<Waiters>>) -> Common {
        Common {
            line: Line::default(),
            writers: Bell::default(),
            work: Bell::default(),
            role: Mutex::new(None),
            sharers: AtomicUsize::new(0),
            closed: AtomicBool::new(false),
            books: Mutex::default(),
            covered: waiters.map(|waiters| Covered(Arc::clone(waiters))),
        }
    }

    /// Whether it is within a budget.
    pub(crate) fn is_covered(&self) -> bool {
        self.covered.is_some()
    }

    /// A write, by the second call if the connection is within a budget.
    #[inline]
    pub(crate) fn write(
        &self,
        call: impl FnMut() -> Option<sys::Written>,
        within: impl FnMut() -> Option<sys::PressedWritten>,
    ) -> sys::Written {
        let Some(Covered(waiters)) = &self.covered else {
            return self.line.had(call);
        };
        let told = WrittenWithin::from(self.line.had(within));
        let _ = waiters.turned(told.pressure);
        told.written
    }

    /// The same with the flush behind it.
    #[inline]
    pub(crate) fn write_and_flush(
        &self,
        call: impl FnMut() -> Option<sys::WrittenAndFlushed>,
        within: impl FnMut() -> Option<sys::PressedWrittenAndFlushed>,
    ) -> sys::WrittenAndFlushed {
        let Some(Covered(waiters)) = &self.covered else {
            return self.line.had(call);
        };
        let told = self.line.had(within);
        let _ = waiters.turned(told.pressure);
        told.done
    }

    /// Has the seat give back what is spare, after messages are gone.
    #[inline]
    pub(crate) fn settle(&self, sharer: &Sharer) {
        if self.is_covered() {
            self.gives(|| sharer.settle());
        }
    }

    /// Has the seat give back all above what is pending.
    pub(crate) fn rest(&self, sharer: &Sharer) {
        if self.is_covered() {
            self.gives(|| sharer.rest());
        }
    }

    #[cold]
    fn gives(&self, call: impl FnMut() -> Option<sys::PressedDone>) {
        let told = self.line.had(call);
        if let Some(Covered(waiters)) = &self.covered {
            let _ = waiters.turned(told.pressure);
        }
    }

    pub(crate) fn is_closed(&self) -> bool {
        self.closed.load(Ordering::SeqCst)
    }

    /// Whether nobody sends.
    pub(crate) fn nobody_sends(&self) -> bool {
        lock(&self.role).is_some()
    }

    /// Whether nobody can write.
    pub(crate) fn nobody_writes(&self) -> bool {
        self.sharers.load(Ordering::SeqCst) == 0
    }

    /// Tells all who wait that the connection was closed.
    pub(crate) fn closes(&self) {
        self.closed.store(true, Ordering::SeqCst);
        self.writers.ring();
        self.work.ring();
    }

    /// Takes a promise back.
    pub(crate) fn cancel(&self, sharer: &Sharer, id: u64) -> Result<bool, Refusal> {
        // memory comes first, so that nothing has changed if it is refused
        let node = Node::new(id)?;
        let mut books = lock(&self.books);
        let told = self.line.had(|| sharer.cancel(id));
        done(told.status)?;
        if told.in_time {
            books.cancelled.insert(node);
        }
        Ok(told.in_time)
    }

    /// Writes the bytes of an owner, and keeps it until the message is gone.
    #[allow(unsafe_code)]
    pub(crate) fn write_owned<T: AsRef<[u8]> + Send + 'static>(
        &self,
        sharer: &Sharer,
        owner: T,
    ) -> Result<Written, (Refusal, T)> {
        let owner = Boxed::new(owner).map_err(|owner| (Refusal::NoMemory, owner))?;
        // what a user's owner does here, and when it is dropped, is not done under the mutex
        let bytes = owner.as_ref();
        let mut books = lock(&self.books);
        let vacant = match books.lent.vacant() {
            Ok(vacant) => vacant,
            Err(refusal) => {
                drop(books);
                return Err((refusal, owner.into_inner()));
            }
        };
        // SAFETY: the owner is kept under the promise of the message, before anyone can tell that as gone: who does takes the
        // books after that. What is kept is let go then, or behind the archive's connection at the end.
        let told = self.write(|| unsafe { sharer.write_lent(bytes) }, || unsafe { sharer.write_lent_within(bytes) });
        match done(told.status) {
            Ok(()) => {
                vacant.place(owner).keep(told.id);
                Ok(Written::accepted(told))
            }
            Err(refusal) => {
                drop(books);
                Err((refusal, owner.into_inner()))
            }
        }
    }

    /// Leaves out those of these promises that were cancelled before, and lets go what their messages were lent.
    pub(crate) fn settled_by(&self, taken: Taken) -> Taken {
        let end = taken.promises.end;
        // as in `write_owned`
        while let Some(owner) = self.next_owner_below(end) {
            drop(owner);
        }
        let mut books = lock(&self.books);
        if books.cancelled.is_empty() {
            return taken;
        }
        let (gone, left) = std::mem::take(&mut books.cancelled).cut(end);
        books.cancelled = left;
        taken.without(gone)
    }

    fn next_owner_below(&self, end: u64) -> Option<Kept> {
        let mut books = lock(&self.books);
        let owner = books.lent.next_below(end);
        if books.lent.is_empty() {
            books.lent.give_back();
        }
        owner
    }
}
