//! Times the cycles of `bench/cycle_times` in plain Rust, by the buffer that remembers and by the connection that forgets,
//! and prints the same lines.

// of the whole program by hand this one needs these two alone, and not all of them
#[allow(dead_code, unused_imports)]
#[path = "../by_hand/outbound/mod.rs"]
mod outbound;

use outbound::{Buffer, Bytes, Connection, Estimate, Marks, Message, Refusal};
use std::hint::black_box;
use std::io::{IoSlice, Write};
use std::time::{Duration, Instant};

const MESSAGES: u32 = 480_000;
const BATCH: u32 = 16;
const SIZE: usize = 64;
const MARKS: Marks = Marks { low: 32768, high: 65536 };
const ESTIMATE: Estimate = Estimate { overhead: 96, unknown: 8 };

#[derive(Clone, Copy)]
enum Shape {
    Single,
    Batch,
    BatchByBytes,
    BatchSent,
}

/// What messages go through.
trait Outbound {
    fn open() -> Self;
    fn write(&mut self, message: Message) -> Result<(), Refusal>;
    fn flush(&mut self) -> Result<(), Refusal>;
    /// Removes one message, and returns how many promises that settled.
    fn remove(&mut self) -> Result<u64, Refusal>;
    /// Removes `count` bytes, and returns how many promises that settled.
    fn remove_bytes(&mut self, count: u64) -> Result<u64, Refusal>;
    /// Offers a batch to a socket that takes all, and returns how many bytes it took.
    fn offer(&self) -> u64;
}

impl Outbound for Buffer {
    fn open() -> Buffer {
        Buffer::new(MARKS, ESTIMATE)
    }

    #[inline(always)]
    fn write(&mut self, message: Message) -> Result<(), Refusal> {
        Buffer::write(self, message).map(drop)
    }

    fn flush(&mut self) -> Result<(), Refusal> {
        Buffer::flush(self).map(drop)
    }

    fn remove(&mut self) -> Result<u64, Refusal> {
        Ok(Buffer::remove(self)?.settled.len() as u64)
    }

    fn remove_bytes(&mut self, count: u64) -> Result<u64, Refusal> {
        Ok(Buffer::remove_bytes(self, count)?.settled.len() as u64)
    }

    fn offer(&self) -> u64 {
        offer(self.gather(BATCH as usize, u64::from(u32::MAX)))
    }
}

impl Outbound for Connection {
    fn open() -> Connection {
        Connection::new(MARKS, ESTIMATE)
    }

    #[inline(always)]
    fn write(&mut self, message: Message) -> Result<(), Refusal> {
        Connection::write(self, message).map(drop)
    }

    fn flush(&mut self) -> Result<(), Refusal> {
        Connection::flush(self).map(drop)
    }

    fn remove(&mut self) -> Result<u64, Refusal> {
        Ok(u64::from(Connection::remove(self)?.settled.is_some()))
    }

    fn remove_bytes(&mut self, count: u64) -> Result<u64, Refusal> {
        let taken = self.take_sent(count)?;
        Ok(taken.to - taken.from)
    }

    fn offer(&self) -> u64 {
        offer(self.gather(BATCH as usize, u64::from(u32::MAX)))
    }
}

fn main() {
    for depth in [0, 1, 1_000, 10_000, 100_000] {
        print_line::<Buffer>("buffer by hand", depth);
        print_line::<Connection>("connection by hand", depth);
    }
}

fn print_line<O: Outbound>(name: &str, depth: u32) {
    let shapes = [Shape::Single, Shape::Batch, Shape::BatchByBytes, Shape::BatchSent];
    let [single, batch, by_bytes, sent] = shapes.map(|shape| picoseconds::<O>(depth, shape));
    println!("{name} {depth} {single} {batch} {by_bytes} {sent}");
}

/// The picoseconds of one message, or 0 if a call was refused or a promise was not settled.
fn picoseconds<O: Outbound>(depth: u32, shape: Shape) -> u128 {
    match timed::<O>(depth, shape) {
        Ok(Some(spent)) => spent.as_nanos() * 1000 / u128::from(MESSAGES),
        _ => 0,
    }
}

fn timed<O: Outbound>(depth: u32, shape: Shape) -> Result<Option<Duration>, Refusal> {
    let block = Bytes::new(&[0; SIZE]);
    let mut queue: O = filled(depth, &block)?;
    // so that the compiler takes nothing of what is in it for known
    black_box(&mut queue);
    let start = Instant::now();
    let settled = cycles(&mut queue, &block, shape)?;
    let spent = start.elapsed();
    Ok((settled == u64::from(MESSAGES)).then_some(spent))
}

fn filled<O: Outbound>(depth: u32, block: &Bytes) -> Result<O, Refusal> {
    let mut queue = O::open();
    for _ in 0..depth {
        write(&mut queue, block)?;
    }
    queue.flush()?;
    Ok(queue)
}

fn cycles<O: Outbound>(queue: &mut O, block: &Bytes, shape: Shape) -> Result<u64, Refusal> {
    let mut settled = 0;
    match shape {
        Shape::Single => {
            for _ in 0..MESSAGES {
                write(queue, block)?;
                queue.flush()?;
                settled += queue.remove()?;
            }
        }
        Shape::Batch => {
            for _ in 0..MESSAGES / BATCH {
                write_batch(queue, block)?;
                for _ in 0..BATCH {
                    settled += queue.remove()?;
                }
            }
        }
        Shape::BatchByBytes => {
            for _ in 0..MESSAGES / BATCH {
                write_batch(queue, block)?;
                settled += queue.remove_bytes(u64::from(BATCH) * SIZE as u64)?;
            }
        }
        Shape::BatchSent => {
            for _ in 0..MESSAGES / BATCH {
                write_batch(queue, block)?;
                let taken = queue.offer();
                settled += queue.remove_bytes(taken)?;
            }
        }
    }
    Ok(settled)
}

// Else a message goes through memory once more, and is read there by other pieces than it was written in, for which the
// processor waits.
#[inline(always)]
fn write<O: Outbound>(queue: &mut O, block: &Bytes) -> Result<(), Refusal> {
    queue.write(Message::Block(block.clone()))
}

fn write_batch<O: Outbound>(queue: &mut O, block: &Bytes) -> Result<(), Refusal> {
    for _ in 0..BATCH {
        write(queue, block)?;
    }
    queue.flush()
}

/// Has a socket that takes all take these blocks.
fn offer<'a>(blocks: impl Iterator<Item = &'a Bytes>) -> u64 {
    let mut pieces = [IoSlice::new(&[]); 64];
    let mut count = 0;
    for (piece, bytes) in pieces.iter_mut().zip(blocks) {
        *piece = IoSlice::new(bytes.as_slice());
        count += 1;
    }
    std::io::sink().write_vectored(&pieces[..count]).map_or(0, |taken| taken as u64)
}
