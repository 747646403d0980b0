//! What a connection is to show of its promises and of its front, kept beside it from what its replies report.

use limekeel::{Connection, Current, Front, Outcome, Promise};
use std::collections::VecDeque;

struct Message {
    left: Current,
    cancelled: bool,
}

/// The messages that wait, oldest first, how many are flushed and gone, and the progress of the first.
#[derive(Default)]
pub struct Shadow {
    messages: VecDeque<Message>,
    flushed: usize,
    gone: u64,
    progress: u64,
}

impl Shadow {
    pub fn write(&mut self, left: Current) {
        self.messages.push_back(Message { left, cancelled: false });
    }

    /// A cancelled message becomes an empty block as it is flushed.
    pub fn flush(&mut self) {
        for message in self.messages.range_mut(self.flushed..).filter(|message| message.cancelled) {
            message.left = Current::Block(0);
        }
        self.flushed = self.messages.len();
    }

    pub fn cancel(&mut self, id: u64) {
        self.messages[(id - self.gone) as usize].cancelled = true;
    }

    /// `count` messages are gone, with `bytes` of blocks; what they do not hold is skipped in the next.
    pub fn take(&mut self, count: u64, bytes: u64) {
        let held: u64 = self.messages.range(..count as usize).map(|message| length(message.left)).sum();
        self.remove(count);
        if let Some(Message { left: Current::Block(left), .. }) = self.messages.front_mut().filter(|_| bytes > held) {
            *left -= bytes - held;
        }
    }

    /// `count` messages are gone, flushed ones first.
    pub fn remove(&mut self, count: u64) {
        self.messages.drain(..count as usize);
        self.flushed = self.flushed.saturating_sub(count as usize);
        self.gone += count;
        if count > 0 {
            self.progress = 0;
        }
    }

    /// `n` bytes of the front are done.
    pub fn progress(&mut self, n: u64) {
        self.progress += n;
    }

    /// What is left of the front.
    fn left(&self) -> Option<Current> {
        let front = self.messages.front().filter(|_| self.flushed > 0)?;
        Some(match front.left {
            Current::Region(length) => Current::Region(length.saturating_sub(self.progress)),
            left => left,
        })
    }

    /// Compares with what the connection shows: its front, what is left of it, and the promises round its edges.
    pub fn check(&self, connection: &Connection) {
        let front = self.messages.front().filter(|_| self.flushed > 0);
        assert_eq!(connection.front(), front.map(|_| self.gone));
        assert_eq!(connection.current(), self.left());
        let pieces = connection.pieces::<1>(u32::MAX);
        let stands = match front.map(|message| message.left) {
            None => Front::Nothing,
            Some(Current::Block(0)) if pieces.is_empty() => Front::EmptyBlocks,
            Some(Current::Block(_)) => Front::Blocks,
            Some(Current::Region(_)) => Front::Region,
            Some(Current::Other(_)) => Front::Other,
        };
        assert_eq!(pieces.front(), stands);
        let end = self.gone + self.messages.len() as u64;
        assert_eq!(connection.promise(end), None);
        if self.gone > 0 {
            assert_eq!(connection.promise(self.gone - 1), Some(Promise::SettledBefore));
        }
        for (place, message) in self.messages.iter().enumerate() {
            let wanted = match (message.cancelled, place < self.flushed) {
                (true, _) => Promise::Settled(Outcome::Cancelled),
                (false, true) => Promise::Fixed,
                (false, false) => Promise::Waiting,
            };
            assert_eq!(connection.promise(self.gone + place as u64), Some(wanted));
        }
    }
}

fn length(left: Current) -> u64 {
    if let Current::Block(left) = left { left } else { 0 }
}
