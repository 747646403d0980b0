//! What the commands return.

use crate::promises::Promises;
use limekeel_sys as sys;
use std::error::Error;
use std::fmt;
use std::ops::Range;

/// Why a call was refused. A refused call leaves everything as it was.
#[non_exhaustive]
#[derive(Clone, Copy, Debug, PartialEq, Eq, Hash)]
pub enum Refusal {
    /// The message counts more than 2147483647 bytes, or a region is longer than `i64::MAX`.
    Oversize,
    /// The low mark is above the high mark, or that above 2147483647.
    BadMarks,
    /// More than 4294967295 bytes would be pending, or 2^64 - 1 writes were accepted.
    TooMuch,
    /// The connection is closed.
    Closed,
    /// Progress was to be added, and no message is flushed.
    NothingFlushed,
    /// The progress of the message would pass `i64::MAX`.
    TooFar,
    /// The flushed blocks in front hold fewer bytes.
    TooManyBytes,
    /// The index of a user bit is 1 to 31.
    BadIndex,
    /// Flushed messages are left.
    FlushedLeft,
    /// No write has this promise.
    UnknownPromise,
    /// The allocator refused, or a block has more owners than can be counted.
    NoMemory,
    /// The overhead or the size of unknown messages is above 65535.
    BadEstimate,
    /// The archive that `LIMEKEEL_LIB_DIR` named is of another version than this crate.
    OtherVersion,
    /// The end of the managed connection was asked for.
    Finishing,
    /// More bytes would be pending than the managed connection may hold.
    Full,
    /// The budget has no room for the message.
    OverBudget,
    /// Other threads came in between 65536 times at the budget: try again.
    Busy,
    /// The low mark of the budget is above the high mark, or its room above 2^62 - 1.
    BadBounds,
    /// A status that this crate does not know; it names no call that this crate makes.
    Unknown(u32),
}

impl Refusal {
    /// The number of the refusal, as traces of `ob_tool` print it.
    #[must_use]
    pub fn number(self) -> u32 {
        match self {
            Refusal::Oversize => sys::OVERSIZE,
            Refusal::BadMarks => sys::BAD_MARKS,
            Refusal::TooMuch => sys::TOO_MUCH,
            Refusal::Closed => sys::CLOSED,
            Refusal::NothingFlushed => sys::NOTHING_FLUSHED,
            Refusal::TooFar => sys::TOO_FAR,
            Refusal::TooManyBytes => sys::TOO_MANY_BYTES,
            Refusal::BadIndex => sys::BAD_INDEX,
            Refusal::FlushedLeft => sys::FLUSHED_LEFT,
            Refusal::UnknownPromise => sys::UNKNOWN_PROMISE,
            Refusal::NoMemory => sys::NO_MEMORY,
            Refusal::BadEstimate => sys::BAD_ESTIMATE,
            Refusal::OtherVersion => sys::OTHER_VERSION,
            Refusal::Finishing => sys::FINISHING,
            Refusal::Full => sys::FULL,
            Refusal::OverBudget => sys::OVER_BUDGET,
            Refusal::Busy => sys::BUSY,
            Refusal::BadBounds => sys::BAD_BOUNDS,
            Refusal::Unknown(status) => status,
        }
    }

    #[cold]
    fn of(status: u32) -> Refusal {
        match status {
            sys::OVERSIZE => Refusal::Oversize,
            sys::BAD_MARKS => Refusal::BadMarks,
            sys::TOO_MUCH => Refusal::TooMuch,
            sys::CLOSED => Refusal::Closed,
            sys::NOTHING_FLUSHED => Refusal::NothingFlushed,
            sys::TOO_FAR => Refusal::TooFar,
            sys::TOO_MANY_BYTES => Refusal::TooManyBytes,
            sys::BAD_INDEX => Refusal::BadIndex,
            sys::FLUSHED_LEFT => Refusal::FlushedLeft,
            sys::UNKNOWN_PROMISE => Refusal::UnknownPromise,
            sys::NO_MEMORY => Refusal::NoMemory,
            sys::BAD_ESTIMATE => Refusal::BadEstimate,
            sys::OTHER_VERSION => Refusal::OtherVersion,
            sys::FINISHING => Refusal::Finishing,
            sys::FULL => Refusal::Full,
            sys::OVER_BUDGET => Refusal::OverBudget,
            sys::BUSY => Refusal::Busy,
            sys::BAD_BOUNDS => Refusal::BadBounds,
            other => Refusal::Unknown(other),
        }
    }
}

impl fmt::Display for Refusal {
    fn fmt(&self, f: &mut fmt::Formatter<'_>) -> fmt::Result {
        f.write_str(match self {
            Refusal::Oversize => "the message is too large to be counted",
            Refusal::BadMarks => "the low mark is above the high mark, or the high mark above 2147483647",
            Refusal::TooMuch => "too much is pending, or too many writes were accepted",
            Refusal::Closed => "the connection is closed",
            Refusal::NothingFlushed => "no message is flushed",
            Refusal::TooFar => "the progress of the message would pass 9223372036854775807",
            Refusal::TooManyBytes => "the flushed blocks in front hold fewer bytes",
            Refusal::BadIndex => "the index of a user bit is 1 to 31",
            Refusal::FlushedLeft => "flushed messages are left",
            Refusal::UnknownPromise => "no write has this promise",
            Refusal::NoMemory => "out of memory",
            Refusal::BadEstimate => "the overhead or the size of unknown messages is above 65535",
            Refusal::OtherVersion => "the archive is of another version than the crate",
            Refusal::Finishing => "the connection is finishing",
            Refusal::Full => "more would be pending than the connection may hold",
            Refusal::OverBudget => "the budget has no room for the message",
            Refusal::Busy => "another call has the lock, or others came in between at the budget",
            Refusal::BadBounds => "the low mark of the budget is above the high mark, or its room above 2^62 - 1",
            Refusal::Unknown(status) => return write!(f, "status {status}"),
        })
    }
}

impl Error for Refusal {}

/// A write that was refused, with what was to be written.
#[derive(Clone, Copy, PartialEq, Eq)]
pub struct Refused<T> {
    /// Why.
    pub refusal: Refusal,
    /// What was handed in.
    pub owner: T,
}

impl<T> fmt::Debug for Refused<T> {
    fn fmt(&self, f: &mut fmt::Formatter<'_>) -> fmt::Result {
        f.debug_struct("Refused").field("refusal", &self.refusal).finish_non_exhaustive()
    }
}

impl<T> fmt::Display for Refused<T> {
    fn fmt(&self, f: &mut fmt::Formatter<'_>) -> fmt::Result {
        fmt::Display::fmt(&self.refusal, f)
    }
}

impl<T> Error for Refused<T> {}

impl<T> From<Refused<T>> for Refusal {
    fn from(refused: Refused<T>) -> Refusal {
        refused.refusal
    }
}

/// Whether a status says that the call was accepted.
#[inline]
pub(crate) fn done(status: u32) -> Result<(), Refusal> {
    if status == sys::OK { Ok(()) } else { Err(Refusal::of(status)) }
}

/// How a call turned writability. Each change is reported once.
#[derive(Clone, Copy, Debug, PartialEq, Eq, Hash)]
pub enum Change {
    /// Writers should stop.
    Unwritable,
    /// Writers may go on.
    Writable,
}

impl Change {
    #[inline]
    pub(crate) fn of(number: u32) -> Option<Change> {
        match number {
            sys::UNWRITABLE => Some(Change::Unwritable),
            sys::WRITABLE => Some(Change::Writable),
            _ => None,
        }
    }
}

/// How a promise was settled.
#[derive(Clone, Copy, Debug, PartialEq, Eq, Hash)]
pub enum Outcome {
    /// The message was sent.
    Success,
    /// It was given up, for this cause.
    Failed(u32),
    /// It was taken back before a flush.
    Cancelled,
}

impl Outcome {
    #[inline]
    pub(crate) fn of(number: u32, cause: u32) -> Outcome {
        match number {
            sys::FAILED => Outcome::Failed(cause),
            sys::CANCELLED => Outcome::Cancelled,
            _ => Outcome::Success,
        }
    }
}

/// What an accepted write returns.
#[must_use = "nothing tells the change of writability again"]
#[derive(Clone, Copy, Debug, PartialEq, Eq)]
pub struct Written {
    /// The promise of the message: ids count the accepted writes from 0.
    pub id: u64,
    /// Whether writers should stop.
    pub change: Option<Change>,
}

impl Written {
    #[inline]
    pub(crate) fn of(told: sys::Written) -> Result<Written, Refusal> {
        done(told.status)?;
        Ok(Written::accepted(told))
    }

    #[inline]
    pub(crate) fn accepted(told: sys::Written) -> Written {
        Written { id: told.id, change: Change::of(told.change) }
    }
}

/// What a flush returns.
#[must_use = "nothing tells the change of writability again"]
#[derive(Clone, Copy, Debug, PartialEq, Eq)]
pub struct Flushed {
    /// How many messages it let the transport have, cancelled ones too.
    pub count: u64,
    /// Whether writers may go on: cancelled messages count nothing any more.
    pub change: Option<Change>,
}

impl Flushed {
    #[inline]
    pub(crate) fn of(told: sys::Flushed) -> Result<Flushed, Refusal> {
        done(told.status)?;
        Ok(Flushed { count: told.count, change: Change::of(told.change) })
    }
}

/// What a write with the flush behind it returns.
#[must_use = "nothing tells the changes of writability again"]
#[derive(Clone, Copy, Debug, PartialEq, Eq)]
pub struct WrittenAndFlushed {
    /// What the write returned.
    pub written: Written,
    /// What the flush behind it returned.
    pub flushed: Flushed,
}

impl WrittenAndFlushed {
    #[inline]
    pub(crate) fn of(told: sys::WrittenAndFlushed) -> Result<WrittenAndFlushed, Refusal> {
        done(told.status)?;
        Ok(WrittenAndFlushed {
            written: Written { id: told.id, change: Change::of(told.change) },
            flushed: Flushed { count: told.count, change: Change::of(told.flush_change) },
        })
    }
}

/// What the removal of the first flushed message returns.
#[must_use = "nothing tells the change of writability or the settlement again"]
#[derive(Clone, Copy, Debug, PartialEq, Eq)]
pub struct Removed {
    /// Whether a message was flushed. If none was, nothing changed.
    pub any: bool,
    /// The promise that it settled, unless that was cancelled before.
    pub settled: Option<(u64, Outcome)>,
    /// Whether writers may go on.
    pub change: Option<Change>,
}

impl Removed {
    #[inline]
    pub(crate) fn of(told: sys::Removed) -> Result<Removed, Refusal> {
        done(told.status)?;
        let settled = told.settled.then(|| (told.id, Outcome::of(told.outcome, told.cause)));
        Ok(Removed { any: told.any, settled, change: Change::of(told.change) })
    }
}

/// What a call returns that takes several messages away.
#[must_use = "nothing tells the change of writability or the settlements again"]
#[derive(Clone, Debug, PartialEq, Eq)]
pub struct Taken {
    /// How many messages it took away, cancelled ones too.
    pub count: u64,
    /// How it changed writability.
    pub change: Option<Change>,
    /// The promises of the messages that it took away.
    pub promises: Range<u64>,
    /// The outcome of those that it settled.
    pub outcome: Outcome,
    /// Those that it did not settle, since they were cancelled before.
    cancelled: Promises,
}

impl Taken {
    /// One message, with this promise.
    pub(crate) fn one(id: u64) -> Taken {
        let (outcome, cancelled) = (Outcome::Success, Promises::default());
        Taken { count: 1, change: None, promises: id..id + 1, outcome, cancelled }
    }

    #[inline]
    pub(crate) fn of(told: sys::Taken) -> Result<Taken, Refusal> {
        done(told.status)?;
        Ok(Taken {
            count: told.count,
            change: Change::of(told.change),
            promises: told.from..told.to,
            outcome: Outcome::of(told.outcome, told.cause),
            cancelled: Promises::default(),
        })
    }

    /// Adds what was taken away next, with the same outcome. Writability changed by one of both at most.
    pub(crate) fn add(&mut self, next: Taken) {
        self.count += next.count;
        self.promises.end = next.promises.end;
        self.change = self.change.or(next.change);
    }

    pub(crate) fn without(mut self, cancelled: Promises) -> Taken {
        self.cancelled = cancelled;
        self
    }

    /// The promises that it settled, oldest first, each with its outcome.
    #[must_use]
    pub fn settled(&self) -> Settled<'_> {
        Settled { rest: self.promises.clone(), outcome: self.outcome, cancelled: &self.cancelled }
    }
}

/// The promises that a call settled, oldest first, each with its outcome.
#[derive(Clone, Debug)]
pub struct Settled<'a> {
    rest: Range<u64>,
    outcome: Outcome,
    cancelled: &'a Promises,
}

impl Iterator for Settled<'_> {
    type Item = (u64, Outcome);

    fn next(&mut self) -> Option<(u64, Outcome)> {
        let id = self.rest.find(|id| !self.cancelled.contains(*id))?;
        Some((id, self.outcome))
    }
}
