//! Times the cycle (write of 64 bytes, flush, remove) and 16 writes, flush, gather and removal of their bytes, behind messages
//! that wait: through the crate `limekeel`, also within a budget, by the same rules in plain Rust, and by the barest queue.
//! Prints lines of a name, a depth and the nanoseconds of a cycle and of a message in a batch.
//! With the word `threads` it times the threads alone.

// of what is there by hand this needs the connection alone
#[allow(dead_code, unused_imports)]
#[path = "../../by_hand/outbound/mod.rs"]
mod by_hand;

mod memory;
mod sending;
mod threads;

use limekeel::{Block, Bounds, Budget, BudgetedConnection, Connection, Estimate, Marks};
use std::collections::VecDeque;
use std::hint::black_box;
use std::io::IoSlice;
use std::time::Instant;

const DEPTHS: [usize; 4] = [1, 16, 1_000, 100_000];
/// How many messages are timed at once, and how often; the least time counts, which other programs cannot make less.
const MESSAGES: usize = 480;
const TIMES: usize = 1_000;
const BATCH: usize = 16;
static BYTES: [u8; 64] = [7; 64];
const ALL: u64 = (BATCH * BYTES.len()) as u64;

/// What is timed.
trait Queue {
    fn open() -> Self;
    fn write(&mut self);
    fn flush(&mut self);
    fn remove(&mut self);
    /// Gathers a batch, and takes its bytes away; answers how many bytes were gathered.
    fn send(&mut self) -> usize;
}

/// What is timed with a block that messages share, too.
trait Shares: Queue {
    type Block;

    fn block() -> Self::Block;
    fn write_shared(&mut self, block: &Self::Block);
}

/// Through the crate, each message copied. A call of the archive is done whether or not its answer is used.
struct Copied(Connection);

impl Queue for Copied {
    fn open() -> Self {
        Copied(Connection::open(Marks::default(), Estimate::default()).expect("it opens"))
    }

    fn write(&mut self) {
        let _ = self.0.write(&BYTES).expect("it is accepted");
    }

    fn flush(&mut self) {
        let _ = self.0.flush().expect("it is open");
    }

    fn remove(&mut self) {
        let _ = self.0.remove().expect("it is open");
    }

    fn send(&mut self) -> usize {
        let pieces = self.0.pieces::<BATCH>(u32::MAX);
        let count = black_box(&*pieces).iter().map(|piece| piece.len()).sum();
        let _ = self.0.take_sent(ALL).expect("they wait");
        count
    }
}

impl Shares for Copied {
    type Block = Block;

    fn block() -> Block {
        Block::new(&BYTES).expect("there is memory")
    }

    fn write_shared(&mut self, block: &Block) {
        let _ = self.0.write_block(block).expect("it is accepted");
    }
}

/// The same within a budget that has room, from which it takes for some messages at once.
struct Within(BudgetedConnection);

impl Queue for Within {
    fn open() -> Self {
        let bounds = Bounds { room: 1 << 40, low: 1 << 38, high: 1 << 39 };
        let budget = Budget::open(bounds, 4096).expect("it opens");
        Within(BudgetedConnection::within(&budget, Marks::default(), Estimate::default()).expect("it opens"))
    }

    fn write(&mut self) {
        let _ = self.0.write(&BYTES).answer.expect("it is accepted");
    }

    fn flush(&mut self) {
        let _ = self.0.flush().answer.expect("it is open");
    }

    fn remove(&mut self) {
        let _ = self.0.remove().answer.expect("it is open");
    }

    fn send(&mut self) -> usize {
        let pieces = self.0.pieces::<BATCH>(u32::MAX);
        let count = black_box(&*pieces).iter().map(|piece| piece.len()).sum();
        let _ = self.0.take_sent(ALL).answer.expect("they wait");
        count
    }
}

impl Shares for Within {
    type Block = Block;

    fn block() -> Block {
        Copied::block()
    }

    fn write_shared(&mut self, block: &Block) {
        let _ = self.0.write_block(block).answer.expect("it is accepted");
    }
}

/// The same rules in plain Rust, each message copied.
struct ByHand(by_hand::Connection);

impl Queue for ByHand {
    fn open() -> Self {
        let marks = by_hand::Marks { low: 32768, high: 65536 };
        ByHand(by_hand::Connection::new(marks, by_hand::Estimate { overhead: 96, unknown: 8 }))
    }

    fn write(&mut self) {
        let bytes = by_hand::Bytes::new(black_box(&BYTES));
        black_box(self.0.write(by_hand::Message::Block(bytes)).expect("it is accepted"));
    }

    fn flush(&mut self) {
        black_box(self.0.flush().expect("it is open"));
    }

    fn remove(&mut self) {
        black_box(self.0.remove().expect("it is open"));
    }

    fn send(&mut self) -> usize {
        let mut pieces = [IoSlice::new(&[]); BATCH];
        let mut count = 0;
        for (piece, bytes) in pieces.iter_mut().zip(self.0.gather(BATCH, u64::from(u32::MAX))) {
            *piece = IoSlice::new(bytes.as_slice());
            count += bytes.len();
        }
        black_box(&pieces);
        black_box(self.0.take_sent(ALL).expect("they wait"));
        count
    }
}

impl Shares for ByHand {
    type Block = by_hand::Bytes;

    fn block() -> by_hand::Bytes {
        by_hand::Bytes::new(&BYTES)
    }

    fn write_shared(&mut self, block: &by_hand::Bytes) {
        let shared = black_box(block).clone();
        black_box(self.0.write(by_hand::Message::Block(shared)).expect("it is accepted"));
    }
}

/// The same with a block that all messages share.
struct Shared<Q: Shares>(Q, Q::Block);

impl<Q: Shares> Queue for Shared<Q> {
    fn open() -> Self {
        Shared(Q::open(), Q::block())
    }

    fn write(&mut self) {
        self.0.write_shared(&self.1);
    }

    fn flush(&mut self) {
        self.0.flush();
    }

    fn remove(&mut self) {
        self.0.remove();
    }

    fn send(&mut self) -> usize {
        self.0.send()
    }
}

/// A list of bytes, a total and a flag: no promise, no flush, no cancellation.
struct Barest {
    messages: VecDeque<Vec<u8>>,
    total: usize,
    writable: bool,
}

impl Queue for Barest {
    fn open() -> Self {
        Barest { messages: VecDeque::new(), total: 0, writable: true }
    }

    fn write(&mut self) {
        self.messages.push_back(black_box(&BYTES).to_vec());
        self.total += BYTES.len() + 96;
        self.writable &= self.total <= 65536;
    }

    fn flush(&mut self) {}

    fn remove(&mut self) {
        if let Some(message) = self.messages.pop_front() {
            self.total -= message.len() + 96;
            self.writable |= self.total < 32768;
        }
    }

    fn send(&mut self) -> usize {
        let mut pieces = [IoSlice::new(&[]); BATCH];
        let mut count = 0;
        for (piece, bytes) in pieces.iter_mut().zip(&self.messages) {
            *piece = IoSlice::new(bytes);
            count += bytes.len();
        }
        black_box(&pieces);
        for _ in 0..BATCH {
            self.remove();
        }
        count
    }
}

fn filled<Q: Queue>(depth: usize) -> Q {
    let mut queue = Q::open();
    for _ in 0..depth {
        queue.write();
    }
    queue.flush();
    black_box(queue)
}

/// The nanoseconds of a message; each turn moves `each` of them.
fn least<Q: Queue>(depth: usize, each: usize, mut turn: impl FnMut(&mut Q)) -> f64 {
    let mut queue = filled::<Q>(depth);
    let mut least = f64::INFINITY;
    for _ in 0..TIMES {
        let start = Instant::now();
        for _ in 0..MESSAGES / each {
            turn(&mut queue);
        }
        least = least.min(start.elapsed().as_nanos() as f64 / MESSAGES as f64);
    }
    least
}

fn cycle<Q: Queue>(depth: usize) -> f64 {
    least(depth, 1, |queue: &mut Q| {
        queue.write();
        queue.flush();
        queue.remove();
    })
}

fn batch<Q: Queue>(depth: usize) -> f64 {
    least(depth, BATCH, |queue: &mut Q| {
        for _ in 0..BATCH {
            queue.write();
        }
        queue.flush();
        assert_eq!(queue.send(), ALL as usize);
    })
}

fn time<Q: Queue>(name: &str) {
    for depth in DEPTHS {
        println!("{name} {depth} {:.1} {:.1}", cycle::<Q>(depth), batch::<Q>(depth));
    }
}

fn main() {
    if std::env::args().nth(1).as_deref() == Some("threads") {
        return threads::time_all();
    }
    time::<Copied>("rust");
    time::<Shared<Copied>>("rust-shared");
    time::<Within>("rust-within");
    time::<Shared<Within>>("rust-shared-within");
    time::<ByHand>("by-hand");
    time::<Shared<ByHand>>("by-hand-shared");
    time::<Barest>("barest");
    sending::time_all();
    threads::time_all();
}
