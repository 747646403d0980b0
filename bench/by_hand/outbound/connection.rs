//! The connection that forgets: it has the duties of `ob_connection` for what is timed, and keeps nothing of what is gone.

use super::values::{Bytes, Change, Estimate, Marks, Message, Outcome, Refusal};
use super::waiting::Waiting;

pub struct Connection {
    waiting: Waiting,
    gone: u64,
}

pub struct Written {
    pub id: u64,
    pub change: Option<Change>,
}

pub struct Flushed {
    pub count: u64,
    pub change: Option<Change>,
}

pub struct Removed {
    pub any: bool,
    pub settled: Option<(u64, Outcome)>,
    pub change: Option<Change>,
}

/// The promises from `from` on and below `to` that were not cancelled are settled.
pub struct Taken {
    pub from: u64,
    pub to: u64,
    pub change: Option<Change>,
}

impl Connection {
    pub fn new(marks: Marks, estimate: Estimate) -> Connection {
        Connection { waiting: Waiting::new(marks, estimate), gone: 0 }
    }

    // inlined, so that the message is not moved once more
    #[inline(always)]
    pub fn write(&mut self, message: Message) -> Result<Written, Refusal> {
        self.waiting.check_open()?;
        let size = self.waiting.size_of(&message)?;
        if !self.waiting.has_bytes_left(size) {
            return Err(Refusal::TooMuch);
        }
        let before = self.waiting.word();
        let id = self.gone + self.waiting.len() as u64;
        self.waiting.add(message, size);
        Ok(Written { id, change: self.change_since(before) })
    }

    pub fn flush(&mut self) -> Result<Flushed, Refusal> {
        self.waiting.check_open()?;
        let before = self.waiting.word();
        let count = self.waiting.flush() as u64;
        Ok(Flushed { count, change: self.change_since(before) })
    }

    pub fn remove(&mut self) -> Result<Removed, Refusal> {
        self.waiting.check_open()?;
        let before = self.waiting.word();
        let taken = self.waiting.take_front(true);
        let id = self.gone;
        self.gone += u64::from(taken.is_some());
        self.waiting.give_back();
        Ok(Removed {
            any: taken.is_some(),
            settled: (taken == Some(true)).then_some((id, Outcome::Success)),
            change: self.change_since(before),
        })
    }

    pub fn take_sent(&mut self, count: u64) -> Result<Taken, Refusal> {
        self.waiting.check_open()?;
        let (whole, rest) = self.waiting.cut(count).ok_or(Refusal::TooManyBytes)?;
        let before = self.waiting.word();
        for _ in 0..whole {
            self.waiting.take_front(true);
        }
        self.waiting.skip_in_front(rest);
        let from = self.gone;
        self.gone += whole as u64;
        self.waiting.give_back();
        Ok(Taken { from, to: self.gone, change: self.change_since(before) })
    }

    pub fn gather(&self, max_count: usize, max_bytes: u64) -> impl Iterator<Item = &Bytes> {
        self.waiting.gather(max_count, max_bytes)
    }

    fn change_since(&self, before: u32) -> Option<Change> {
        Change::between(before, self.waiting.word())
    }
}
