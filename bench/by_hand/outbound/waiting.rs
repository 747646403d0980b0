//! What waits to be sent, and the total and the word that go with it. Nothing here knows of promises that are gone.

use super::values::{Bytes, Estimate, Look, Marks, Message, Refusal};
use std::collections::VecDeque;

const MAX_SIZE: u64 = 2147483647;
const MAX_TOTAL: u64 = 4294967295;
const MAX_PROGRESS: u64 = i64::MAX as u64;
const MARK: u32 = 1;
/// How many entries a ring keeps room for when it gives room back.
const KEPT_ROOM: usize = 64;

pub struct Entry {
    message: Message,
    progress: u64,
    size: u32,
    /// Its promise was cancelled; once it is flushed it is empty, too.
    cancelled: bool,
}

pub struct Waiting {
    marks: Marks,
    estimate: Estimate,
    entries: VecDeque<Entry>,
    flushed: usize,
    /// Whether a promise was cancelled since the last flush: only then a flush goes over entries.
    any_cancelled: bool,
    total: u32,
    word: u32,
    closed: bool,
}

/// What has become of a promise whose message waits.
#[derive(Clone, Copy, PartialEq)]
pub enum Standing {
    Waiting,
    Fixed,
    Cancelled,
}

impl Waiting {
    pub fn new(marks: Marks, estimate: Estimate) -> Waiting {
        Waiting {
            marks,
            estimate,
            entries: VecDeque::new(),
            flushed: 0,
            any_cancelled: false,
            total: 0,
            word: 0,
            closed: false,
        }
    }

    pub fn len(&self) -> usize {
        self.entries.len()
    }

    pub fn flushed(&self) -> usize {
        self.flushed
    }

    pub fn total(&self) -> u32 {
        self.total
    }

    pub fn word(&self) -> u32 {
        self.word
    }

    pub fn check_open(&self) -> Result<(), Refusal> {
        if self.closed { Err(Refusal::Closed) } else { Ok(()) }
    }

    pub fn size_of(&self, message: &Message) -> Result<u32, Refusal> {
        if matches!(message, Message::Region(length) if *length > MAX_PROGRESS) {
            return Err(Refusal::Oversize);
        }
        let size = self.estimate.readable(message) + u64::from(self.estimate.overhead);
        if size > MAX_SIZE { Err(Refusal::Oversize) } else { Ok(size as u32) }
    }

    pub fn has_bytes_left(&self, size: u32) -> bool {
        u64::from(self.total) + u64::from(size) <= MAX_TOTAL
    }

    // inlined, so that the entry is written once, in its place
    #[inline(always)]
    pub fn add(&mut self, message: Message, size: u32) {
        self.entries.push_back(Entry { message, progress: 0, size, cancelled: false });
        self.total += size;
        if size > 0 && self.total > self.marks.high {
            self.word |= MARK;
        }
    }

    /// Flushes all that is not flushed, and returns how many messages that are.
    pub fn flush(&mut self) -> usize {
        let count = self.entries.len() - self.flushed;
        if self.any_cancelled {
            self.void_cancelled();
        }
        self.flushed = self.entries.len();
        count
    }

    #[cold]
    #[inline(never)]
    fn void_cancelled(&mut self) {
        for place in self.flushed..self.entries.len() {
            let entry = &mut self.entries[place];
            if entry.cancelled {
                entry.message = Message::Block(Bytes::empty());
                let size = std::mem::take(&mut entry.size);
                self.fall(size, true);
            }
        }
        self.any_cancelled = false;
    }

    fn fall(&mut self, size: u32, notify: bool) {
        self.total -= size;
        if notify && size > 0 && self.total < self.marks.low {
            self.word &= !MARK;
        }
    }

    /// Takes the first flushed message away, and returns whether its promise is not cancelled; none if nothing is flushed.
    pub fn take_front(&mut self, notify: bool) -> Option<bool> {
        if self.flushed == 0 {
            return None;
        }
        let entry = self.entries.pop_front()?;
        self.flushed -= 1;
        self.fall(entry.size, notify);
        Some(!entry.cancelled)
    }

    /// Gives room back, once a quarter of it at most is used.
    pub fn give_back(&mut self) {
        let room = self.entries.capacity();
        if room > KEPT_ROOM && self.entries.len() <= room / 4 {
            self.entries.shrink_to(KEPT_ROOM.max(2 * self.entries.len()));
        }
    }

    pub fn standing(&self, place: usize) -> Standing {
        match (self.entries[place].cancelled, place < self.flushed) {
            (true, _) => Standing::Cancelled,
            (false, true) => Standing::Fixed,
            (false, false) => Standing::Waiting,
        }
    }

    /// Cancels the promise of a message that is not flushed.
    pub fn cancel(&mut self, place: usize) {
        self.entries[place].cancelled = true;
        self.any_cancelled = true;
    }

    pub fn progress(&mut self, count: u64) -> Result<(), Refusal> {
        if self.flushed == 0 {
            return Err(Refusal::NothingFlushed);
        }
        let entry = &mut self.entries[0];
        if count > MAX_PROGRESS - entry.progress {
            return Err(Refusal::TooFar);
        }
        entry.progress += count;
        Ok(())
    }

    /// Empties and closes it, for which nothing may be flushed.
    pub fn close(&mut self) -> Result<(), Refusal> {
        if self.flushed > 0 {
            return Err(Refusal::FlushedLeft);
        }
        self.entries.clear();
        self.total = 0;
        self.closed = true;
        Ok(())
    }

    pub fn user_bit(&mut self, index: u32, writable: bool) -> Result<(), Refusal> {
        if !(1..=31).contains(&index) {
            return Err(Refusal::BadIndex);
        }
        if writable {
            self.word &= !(1 << index);
        } else {
            self.word |= 1 << index;
        }
        Ok(())
    }

    pub fn set_marks(&mut self, marks: Marks) {
        self.marks = marks;
    }

    pub fn look(&self) -> Look {
        let Marks { low, high } = self.marks;
        let total = self.total;
        let writable = self.word == 0;
        Look {
            total,
            word: self.word,
            size: self.flushed,
            before_unwritable: if writable && total <= high { high - total + 1 } else { 0 },
            before_writable: if !writable && total >= low { (total - low).saturating_add(1) } else { 0 },
            current_progress: if self.flushed == 0 { 0 } else { self.entries[0].progress },
        }
    }

    /// The first flushed message, and its progress.
    pub fn current(&self) -> Option<(&Message, u64)> {
        let entry = self.entries.front().filter(|_| self.flushed > 0)?;
        Some((&entry.message, entry.progress))
    }

    /// The blocks that can be sent at once, with no list made and no count of owners touched.
    pub fn gather(&self, max_count: usize, max_bytes: u64) -> impl Iterator<Item = &Bytes> {
        let mut room = max_bytes;
        self.entries
            .range(..self.flushed)
            .map_while(|entry| match &entry.message {
                Message::Block(bytes) => Some(bytes),
                _ => None,
            })
            .filter(|bytes| bytes.len() > 0)
            .enumerate()
            .take_while(move |(place, bytes)| {
                let fits = bytes.len() as u64 <= room || *place == 0;
                room = room.saturating_sub(bytes.len() as u64);
                fits
            })
            .map(|(_, bytes)| bytes)
            .take(max_count)
    }

    /// How many messages `count` bytes take away whole, and how many bytes of the next one; none if fewer bytes wait.
    pub fn cut(&self, count: u64) -> Option<(usize, u64)> {
        let (mut whole, mut rest) = (0, count);
        for entry in self.entries.range(..self.flushed) {
            let Message::Block(bytes) = &entry.message else {
                break;
            };
            let left = bytes.len() as u64;
            if left > rest {
                return Some((whole, rest));
            }
            whole += 1;
            rest -= left;
        }
        (rest == 0).then_some((whole, rest))
    }

    pub fn skip_in_front(&mut self, count: u64) {
        if count == 0 {
            return;
        }
        let entry = &mut self.entries[0];
        if let Message::Block(bytes) = &mut entry.message {
            bytes.advance(count as usize);
        }
        entry.progress = entry.progress.saturating_add(count).min(MAX_PROGRESS);
    }
}
