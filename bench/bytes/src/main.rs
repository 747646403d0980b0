//! Times messages that are copied, shared, or the caller's own, flushed and sent into memory by `send_to` of the crate
//! `limekeel`, and by a `VecDeque<Bytes>` with marks and `write_vectored`. Prints lines of a name, a size, how many are sent at once,
//! and the nanoseconds of a message.

#[path = "../../ffi/src/memory.rs"]
mod memory;
mod queue;

use bytes::Bytes;
use limekeel::{Block, Connection, Estimate, Marks};
use memory::Memory;
use queue::Queue;
use std::hint::black_box;
use std::time::Instant;

const SIZES: [usize; 3] = [64, 1024, 16384];
const BATCHES: [usize; 3] = [1, 16, 240];
/// How many messages are timed at once, which each batch divides, and how often; the least time counts.
const MESSAGES: usize = 960;
const TIMES: usize = 300;

fn time(name: &str, size: usize, batch: usize, mut turn: impl FnMut()) {
    let mut least = f64::INFINITY;
    for _ in 0..TIMES {
        let start = Instant::now();
        for _ in 0..MESSAGES / batch {
            turn();
        }
        least = least.min(start.elapsed().as_nanos() as f64 / MESSAGES as f64);
    }
    println!("{name} {size} {batch} {least:.1}");
}

fn through_limekeel(name: &str, size: usize, batch: usize, mut write: impl FnMut(&mut Connection)) {
    let mut connection = Connection::open(Marks::default(), Estimate::default()).expect("it opens");
    time(name, size, batch, || {
        for _ in 0..batch {
            write(&mut connection);
        }
        let _ = connection.flush().expect("it is open");
        while connection.send_to(&mut Memory).expect("it takes all").more {}
    });
}

fn by_hand(name: &str, size: usize, batch: usize, mut bytes: impl FnMut() -> Bytes) {
    let mut queue = Queue::new();
    time(name, size, batch, || {
        for _ in 0..batch {
            queue.write(bytes());
        }
        while !queue.is_empty() {
            queue.send_to(&mut Memory).expect("it takes all");
        }
    });
}

fn time_all(size: usize, batch: usize) {
    let data = vec![7; size];
    let block = Block::new(&data).expect("there is memory");
    // it counts its owners from now on, as one that came from a codec
    let shared = Bytes::from(data.clone());
    let second = shared.clone();
    through_limekeel("copied", size, batch, |connection| {
        let _ = connection.write(black_box(&data)).expect("it is accepted");
    });
    by_hand("by-hand-copied", size, batch, || Bytes::copy_from_slice(black_box(&data)));
    through_limekeel("shared", size, batch, |connection| {
        let _ = connection.write_block(black_box(&block)).expect("it is accepted");
    });
    by_hand("by-hand-shared", size, batch, || black_box(&shared).clone());
    through_limekeel("bytes", size, batch, |connection| {
        let _ = connection.write_owned(black_box(&second).clone()).expect("it is accepted");
    });
    by_hand("by-hand-bytes", size, batch, || black_box(&shared).clone());
    through_limekeel("list", size, batch, |connection| {
        let _ = connection.write_owned(black_box(&data).clone()).expect("it is accepted");
    });
    by_hand("by-hand-list", size, batch, || Bytes::from(black_box(&data).clone()));
}

fn main() {
    for size in SIZES {
        for batch in BATCHES {
            time_all(size, batch);
        }
    }
}
