//! Times messages that are copied, shared, owned, static or made in place, flushed and sent into memory by `send_to`, beside a
//! queue by hand that is written by one `write_vectored`. Prints lines `sent NAME BATCH` and the nanoseconds of a message.

use crate::memory::Memory;
use crate::{BYTES, TIMES};
use limekeel::{Block, Connection, Estimate, Marks};
use std::collections::VecDeque;
use std::hint::black_box;
use std::io::{self, IoSlice, Write};
use std::sync::Arc;
use std::time::Instant;

/// How many messages are flushed and sent at once.
const BATCHES: [usize; 3] = [1, 16, 240];
/// How many are timed at once; each batch divides it.
const MESSAGES: usize = 960;
/// How many slices the queue by hand offers at once.
const SLICES: usize = 64;

/// A list of bytes that are shared or owned, with what is sent of the first, a total and a flag.
struct Queue<T> {
    messages: VecDeque<T>,
    sent: usize,
    total: usize,
    writable: bool,
}

impl<T: AsRef<[u8]>> Queue<T> {
    fn write(&mut self, bytes: T) {
        self.total += bytes.as_ref().len() + 96;
        self.writable &= self.total <= 65536;
        self.messages.push_back(bytes);
    }

    fn send(&mut self, socket: &mut impl Write) -> io::Result<()> {
        let mut slices = [IoSlice::new(&[]); SLICES];
        let mut count = 0;
        for (slice, bytes) in slices.iter_mut().zip(&self.messages) {
            *slice = IoSlice::new(&bytes.as_ref()[if count == 0 { self.sent } else { 0 }..]);
            count += 1;
        }
        self.sent += socket.write_vectored(&slices[..count])?;
        while let Some(first) = self.messages.front().map(|first| first.as_ref().len())
            && first <= self.sent
        {
            self.sent -= first;
            self.total -= first + 96;
            self.messages.pop_front();
        }
        self.writable |= self.total < 32768;
        Ok(())
    }
}

fn time(name: &str, batch: usize, mut turn: impl FnMut()) {
    let mut least = f64::INFINITY;
    for _ in 0..TIMES {
        let start = Instant::now();
        for _ in 0..MESSAGES / batch {
            turn();
        }
        least = least.min(start.elapsed().as_nanos() as f64 / MESSAGES as f64);
    }
    println!("sent {name} {batch} {least:.1}");
}

fn through_rust(name: &str, batch: usize, mut write: impl FnMut(&mut Connection)) {
    let mut connection = Connection::open(Marks::default(), Estimate::default()).expect("it opens");
    time(name, batch, || {
        for _ in 0..batch {
            write(&mut connection);
        }
        let _ = connection.flush().expect("it is open");
        while connection.send_to(&mut Memory).expect("it takes all").more {}
    });
}

fn by_hand<T: AsRef<[u8]>>(name: &str, batch: usize, mut bytes: impl FnMut() -> T) {
    let mut queue = Queue { messages: VecDeque::new(), sent: 0, total: 0, writable: true };
    time(name, batch, || {
        for _ in 0..batch {
            queue.write(bytes());
        }
        while !queue.messages.is_empty() {
            queue.send(&mut Memory).expect("it takes all");
        }
    });
}

pub fn time_all() {
    let block = Block::new(&BYTES).expect("there is memory");
    let shared: Arc<[u8]> = Arc::from(&BYTES[..]);
    for batch in BATCHES {
        through_rust("rust", batch, |connection| {
            let _ = connection.write(black_box(&BYTES)).expect("it is accepted");
        });
        by_hand("by-hand", batch, || Arc::from(&black_box(&BYTES)[..]));
        through_rust("rust-shared", batch, |connection| {
            let _ = connection.write_block(black_box(&block)).expect("it is accepted");
        });
        by_hand("by-hand-shared", batch, || black_box(&shared).clone());
        through_rust("rust-owned", batch, |connection| {
            let _ = connection.write_owned(black_box(&BYTES).to_vec()).expect("it is accepted");
        });
        by_hand("by-hand-owned", batch, || black_box(&BYTES).to_vec());
        through_rust("rust-static", batch, |connection| {
            let _ = connection.write_static(black_box(&BYTES)).expect("it is accepted");
        });
        by_hand("by-hand-static", batch, || black_box(&BYTES));
        through_rust("rust-made", batch, |connection| {
            let mut room = connection.reserve(BYTES.len()).expect("there is memory");
            room.write_all(black_box(&BYTES)).expect("it has room");
            let _ = room.write_message().expect("it is accepted");
        });
        by_hand("by-hand-made", batch, || Arc::from(&black_box(&BYTES)[..]));
    }
}
