//! What is handed in and what comes back, for the buffer and the connection.

use std::sync::Arc;

const INLINE: usize = 4;

/// Bytes that are shared, and which of them are meant.
#[derive(Clone)]
pub struct Bytes {
    all: Arc<[u8]>,
    start: usize,
    end: usize,
}

impl Bytes {
    pub fn new(all: &[u8]) -> Bytes {
        Bytes { all: Arc::from(all), start: 0, end: all.len() }
    }

    pub fn part(&self, start: usize, len: usize) -> Bytes {
        Bytes { all: self.all.clone(), start: self.start + start, end: self.start + start + len }
    }

    pub fn empty() -> Bytes {
        Bytes { all: Arc::default(), start: 0, end: 0 }
    }

    /// Leaves the first `count` bytes out.
    pub fn advance(&mut self, count: usize) {
        self.start += count;
    }

    pub fn as_slice(&self) -> &[u8] {
        &self.all[self.start..self.end]
    }

    pub fn len(&self) -> usize {
        self.end - self.start
    }
}

impl PartialEq for Bytes {
    fn eq(&self, other: &Bytes) -> bool {
        self.as_slice() == other.as_slice()
    }
}

#[derive(Clone, PartialEq)]
pub enum Message {
    Block(Bytes),
    Region(u64),
    Other(u32),
}

#[derive(Clone, Copy, Default, PartialEq)]
pub enum Outcome {
    #[default]
    Success,
    Failed(u32),
    Cancelled,
}

/// The refusals, by the numbers under which traces know them.
#[derive(Clone, Copy, Debug, PartialEq)]
pub enum Refusal {
    Oversize = 1,
    TooMuch = 3,
    Closed = 4,
    NothingFlushed = 5,
    TooFar = 6,
    TooManyBytes = 7,
    BadIndex = 8,
    FlushedLeft = 9,
    UnknownPromise = 10,
    HistoryFull = 11,
}

#[derive(Clone, PartialEq)]
pub enum Command {
    Write(Message),
    Flush,
    Remove,
    RemoveWith(u32),
    RemoveBytes(u64),
    Progress(u64),
    Cancel(u32),
    FailFlushed(u32, bool),
    Close(u32),
    UserBit(u32, bool),
    SetMarks(Marks),
}

#[derive(Clone, Copy, PartialEq)]
pub enum Answer {
    Id(u32),
    Count(u32),
    Yes(bool),
    Done,
}

#[derive(Clone, Copy, PartialEq)]
pub enum Change {
    Unwritable,
    Writable,
}

impl Change {
    pub fn between(before: u32, after: u32) -> Option<Change> {
        match (before == 0, after == 0) {
            (true, false) => Some(Change::Unwritable),
            (false, true) => Some(Change::Writable),
            _ => None,
        }
    }
}

/// The promises that a call settled: the first four in place, more in a list.
#[derive(Clone, Default, PartialEq)]
pub struct Settlements {
    first: [(u32, Outcome); INLINE],
    count: usize,
    more: Vec<(u32, Outcome)>,
}

impl Settlements {
    /// For `count` promises, so that the list grows at once.
    pub fn with_room(count: usize) -> Settlements {
        Settlements { more: Vec::with_capacity(count.saturating_sub(INLINE)), ..Settlements::default() }
    }

    pub fn push(&mut self, id: u32, outcome: Outcome) {
        if self.count < INLINE {
            self.first[self.count] = (id, outcome);
        } else {
            self.more.push((id, outcome));
        }
        self.count += 1;
    }

    pub fn len(&self) -> usize {
        self.count
    }

    pub fn iter(&self) -> impl Iterator<Item = &(u32, Outcome)> {
        self.first[..self.count.min(INLINE)].iter().chain(&self.more)
    }
}

#[derive(Clone, PartialEq)]
pub struct Reply {
    pub answer: Answer,
    pub settled: Settlements,
    pub change: Option<Change>,
}

#[derive(Clone, Copy, PartialEq)]
pub struct Marks {
    pub low: u32,
    pub high: u32,
}

#[derive(Clone, Copy)]
pub struct Estimate {
    pub overhead: u32,
    pub unknown: u32,
}

impl Estimate {
    /// The bytes that a message counts without the overhead.
    pub fn readable(&self, message: &Message) -> u64 {
        match message {
            Message::Block(bytes) => bytes.len() as u64,
            Message::Region(_) => 0,
            Message::Other(_) => u64::from(self.unknown),
        }
    }
}

pub struct Look {
    pub total: u32,
    pub word: u32,
    pub size: usize,
    pub before_unwritable: u32,
    pub before_writable: u32,
    pub current_progress: u64,
}
