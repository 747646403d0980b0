//! Requests, responses and the pool of bytes: `protocol.h` says what they are.

use std::collections::VecDeque;
use std::io::{self, Write};
use std::mem::take;

pub const GET: u32 = 1;
pub const STATS: u32 = 2;
pub const RESET: u32 = 3;
pub const QUIT: u32 = 4;
pub const JOIN: u32 = 5;
pub const PUBLISH: u32 = 6;
const MAGIC: u32 = 0x6c6b6b6c;
const REQUEST: usize = 16;
const HEAD: usize = 16;
pub const MOST: usize = 1 << 20;
const WINDOW: usize = 1 << 16;
const STATS_SIZE: usize = 64;

#[derive(Clone, Copy)]
pub struct Request {
    pub op: u32,
    pub size: u32,
    pub count: u32,
    pub id: u32,
}

impl Request {
    /// The request that these bytes are, if they are one.
    fn of(bytes: [u8; REQUEST]) -> Option<Request> {
        let number = |at: usize| u32::from_le_bytes(bytes[4 * at..4 * at + 4].try_into().expect("four bytes"));
        let [op, size, count, id] = [0, 1, 2, 3].map(number);
        let request = Request { op, size, count, id };
        let fits = (HEAD..=MOST).contains(&(size as usize)) && count > 0;
        ((GET..=PUBLISH).contains(&op) && (fits || !request.asks())).then_some(request)
    }

    /// Whether it asks for `count` responses.
    fn asks(self) -> bool {
        self.op == GET || self.op == PUBLISH
    }
}

#[derive(Clone, Copy, Default)]
pub struct Stats {
    pub peak: u64,
    pub stops: u64,
    pub open: u64,
    pub responses: u64,
}

fn head(id: u32, index: u32, size: u32) -> [u8; HEAD] {
    let mut head = [0; HEAD];
    for (place, number) in head.chunks_exact_mut(4).zip([id, index, size, MAGIC]) {
        place.copy_from_slice(&number.to_le_bytes());
    }
    head
}

/// Where responses are made.
pub struct Maker {
    pool: Vec<u8>,
    scratch: Vec<u8>,
}

impl Maker {
    pub fn new() -> Maker {
        let mut state = 0x9e3779b97f4a7c15u64;
        let words = (0..(WINDOW + MOST) / 8).map(|_| {
            state ^= state << 13;
            state ^= state >> 7;
            state ^= state << 17;
            state
        });
        Maker { pool: words.flat_map(u64::to_le_bytes).collect(), scratch: Vec::with_capacity(MOST) }
    }

    /// Makes response `index` of a request where there is room for it.
    #[inline]
    pub fn make(&self, to: &mut impl Write, request: Request, index: u32) -> io::Result<()> {
        let from = request.id.wrapping_mul(2654435761).wrapping_add(index.wrapping_mul(40503)) as usize & (WINDOW - 1);
        to.write_all(&head(request.id, index, request.size))?;
        to.write_all(&self.pool[from..from + request.size as usize - HEAD])
    }

    /// Response `index` of a request, where the last one was.
    pub fn response(&mut self, request: Request, index: u32) -> &[u8] {
        let mut scratch = take(&mut self.scratch);
        scratch.clear();
        self.make(&mut scratch, request, index).expect("a list takes all");
        self.scratch = scratch;
        &self.scratch
    }

    pub fn stats(&mut self, id: u32, stats: Stats) -> &[u8] {
        let numbers = [stats.peak, stats.stops, stats.open, stats.responses, 0, 0];
        self.scratch.clear();
        self.scratch.extend_from_slice(&head(id, 0, STATS_SIZE as u32));
        self.scratch.extend(numbers.into_iter().flat_map(u64::to_le_bytes));
        &self.scratch
    }
}

/// What a connection still has to answer: its requests in order, of which the first is under way.
#[derive(Default)]
pub struct Work {
    list: VecDeque<Request>,
    /// The next response of the first.
    index: u32,
    /// The beginning of a request.
    partial: Vec<u8>,
}

impl Work {
    pub fn is_empty(&self) -> bool {
        self.list.is_empty()
    }

    pub fn is_publishing(&self) -> bool {
        self.list.front().is_some_and(|request| request.op == PUBLISH)
    }

    /// Bytes that came: whole requests become work. False if they are none.
    pub fn feed(&mut self, bytes: &[u8]) -> bool {
        self.partial.extend_from_slice(bytes);
        let whole = self.partial.len() / REQUEST * REQUEST;
        let mut all = true;
        for bytes in self.partial[..whole].chunks_exact(REQUEST) {
            match Request::of(bytes.try_into().expect("whole")) {
                Some(request) => self.list.push_back(request),
                None => all = false,
            }
        }
        self.partial.drain(..whole);
        all
    }

    /// Takes the next response off: of which request it is, and which of its responses.
    pub fn next(&mut self) -> Option<(Request, u32)> {
        let request = *self.list.front()?;
        let index = self.index;
        self.index += 1;
        if !request.asks() || self.index == request.count {
            self.index = 0;
            self.list.pop_front();
        }
        Some((request, index))
    }

    /// An idle connection keeps no memory.
    pub fn rest(&mut self) {
        if self.list.is_empty() {
            self.list = VecDeque::new();
            self.partial = Vec::new();
        }
    }
}
