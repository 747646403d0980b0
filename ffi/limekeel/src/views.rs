//! What the looks show.

use crate::replies::{Outcome, done};
use limekeel_sys as sys;

/// What is pending.
#[derive(Clone, Copy, Debug, PartialEq, Eq)]
pub struct Look {
    /// The pending bytes (Netty's `totalPendingWriteBytes`).
    pub total: u32,
    /// Bit 0 is the mark, bit i the user bit i. The connection is writable if the word is 0.
    pub word: u32,
    /// How many messages are flushed and not removed.
    pub size: u64,
    /// How many bytes more make a writable connection unwritable, else 0.
    pub before_unwritable: u32,
    /// How many bytes fewer bring an unwritable connection below its low mark, else 0.
    pub before_writable: u32,
    /// The progress of the first flushed message, or 0 if there is none.
    pub current_progress: u64,
}

impl Look {
    pub(crate) fn of(told: sys::Look) -> Look {
        debug_assert!(done(told.status).is_ok());
        Look {
            total: told.total,
            word: told.word,
            size: told.size,
            before_unwritable: told.before_unwritable,
            before_writable: told.before_writable,
            current_progress: told.current_progress,
        }
    }
}

/// What is seen without the lock.
#[derive(Clone, Copy, Debug, PartialEq, Eq)]
pub struct Glance {
    /// Bit 0 is the mark, bit i the user bit i. The connection is writable if the word is 0.
    pub word: u32,
    /// The pending bytes.
    pub total: u32,
}

impl Glance {
    #[inline]
    pub(crate) fn of(told: sys::Glance) -> Glance {
        debug_assert!(done(told.status).is_ok());
        Glance { word: told.word, total: told.total }
    }
}

/// How many messages wait.
#[derive(Clone, Copy, Debug, PartialEq, Eq)]
pub struct Counts {
    /// How many messages no flush has reached.
    pub unflushed: u64,
    /// How many messages wait, flushed or not. If it is 0, nothing is left to send.
    pub waiting: u64,
}

impl Counts {
    pub(crate) fn of(told: sys::Counts) -> Counts {
        debug_assert!(done(told.status).is_ok());
        Counts { unflushed: told.unflushed, waiting: told.waiting }
    }
}

/// What has become of a promise.
#[derive(Clone, Copy, Debug, PartialEq, Eq)]
pub enum Promise {
    /// It may still be cancelled.
    Waiting,
    /// A flush has fixed it: it can no longer be cancelled.
    Fixed,
    /// It is settled, and its message still stands in the connection: it was cancelled.
    Settled(Outcome),
    /// Its message is gone. The call that took it away reported the outcome.
    SettledBefore,
}

impl Promise {
    pub(crate) fn of(told: sys::Promise) -> Option<Promise> {
        match told.state {
            sys::WAITING => Some(Promise::Waiting),
            sys::FIXED => Some(Promise::Fixed),
            sys::SETTLED => Some(Promise::Settled(Outcome::of(told.outcome, told.cause))),
            sys::SETTLED_BEFORE => Some(Promise::SettledBefore),
            _ => None,
        }
    }
}

/// What stands in front of what is flushed.
#[derive(Clone, Copy, Debug, PartialEq, Eq)]
pub enum Front {
    /// Nothing is flushed.
    Nothing,
    /// Blocks that hold a byte.
    Blocks,
    /// Empty blocks, and then no block that holds a byte: `take_sent(0)` takes them away.
    EmptyBlocks,
    /// A region, which the caller sends.
    Region,
    /// Another message, which is the caller's.
    Other,
}

impl Front {
    pub(crate) fn of(number: u32) -> Front {
        match number {
            sys::FRONT_BLOCKS => Front::Blocks,
            sys::FRONT_EMPTY_BLOCKS => Front::EmptyBlocks,
            sys::FRONT_REGION => Front::Region,
            sys::FRONT_OTHER => Front::Other,
            _ => Front::Nothing,
        }
    }
}

/// What is left of the first flushed message.
#[derive(Clone, Copy, Debug, PartialEq, Eq)]
pub enum Current {
    /// A block, with the number of its bytes that are left.
    Block(u64),
    /// A region, with its length in bytes less the progress that was told, or 0 if that is more: what `sendfile` is still
    /// to send.
    Region(u64),
    /// Another message, by its number.
    Other(u32),
}

impl Current {
    pub(crate) fn of(told: sys::Current) -> Option<Current> {
        match told.kind {
            sys::CURRENT_BLOCK => Some(Current::Block(told.number)),
            sys::CURRENT_REGION => Some(Current::Region(told.number)),
            // the archive widens a number of 32 bits
            sys::CURRENT_OTHER => Some(Current::Other(told.number as u32)),
            _ => None,
        }
    }
}
