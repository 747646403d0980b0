//! Messages of writers that wait for room, and one thread that sends them, in plain Rust: over a queue under a mutex with
//! condition variables, and over a channel of std. `shared_by_hand WRITERS MESSAGES` prints a line of each with the messages
//! a second.

use std::collections::VecDeque;
use std::hint::black_box;
use std::sync::mpsc::{Receiver, SyncSender, sync_channel};
use std::sync::{Condvar, Mutex};
use std::thread;
use std::time::Instant;

/// A message, and how many bytes it counts.
const MESSAGE: &[u8] = b"seventeen bytes..";
const COUNTS: usize = MESSAGE.len() + 96;

/// The marks of Netty, and how many messages reach the high one.
const LOW: usize = 32768;
const HIGH: usize = 65536;
const ROOM: usize = HIGH / COUNTS;

/// The most pieces of a call to the socket.
const PIECES: usize = 64;

/// A socket that takes all that it is offered.
fn take(pieces: &[&[u8]]) -> usize {
    black_box(pieces).iter().map(|piece| piece.len()).sum()
}

/// A queue, its bytes, and whether writers wait.
#[derive(Default)]
struct Queue {
    waiting: VecDeque<&'static [u8]>,
    total: usize,
    full: bool,
}

#[derive(Default)]
struct Shared {
    queue: Mutex<Queue>,
    room: Condvar,
    work: Condvar,
}

impl Shared {
    fn write(&self) {
        let mut queue = self.queue.lock().unwrap();
        while queue.full {
            queue = self.room.wait(queue).unwrap();
        }
        queue.waiting.push_back(MESSAGE);
        queue.total += COUNTS;
        queue.full = queue.total > HIGH;
        let is_first = queue.waiting.len() == 1;
        drop(queue);
        if is_first {
            self.work.notify_one();
        }
    }

    /// Sends what is there, at most `PIECES` pieces, which stay in line until the socket took them.
    fn send(&self, pieces: &mut Vec<&'static [u8]>) -> usize {
        let mut queue = self.queue.lock().unwrap();
        while queue.waiting.is_empty() {
            queue = self.work.wait(queue).unwrap();
        }
        pieces.clear();
        pieces.extend(queue.waiting.iter().take(PIECES));
        drop(queue);
        let taken = take(pieces);
        let mut queue = self.queue.lock().unwrap();
        queue.waiting.drain(..pieces.len());
        queue.total -= pieces.len() * COUNTS;
        let turns = queue.full && queue.total < LOW;
        queue.full &= !turns;
        drop(queue);
        if turns {
            self.room.notify_all();
        }
        taken
    }
}

/// Messages a second through a queue under a mutex.
fn by_condvar(writers: usize, each: usize) -> u128 {
    let shared = Shared::default();
    let bytes = writers * each * MESSAGE.len();
    let start = Instant::now();
    thread::scope(|scope| {
        for _ in 0..writers {
            scope.spawn(|| (0..each).for_each(|_| shared.write()));
        }
        scope.spawn(|| {
            let (mut sent, mut pieces) = (0, Vec::with_capacity(PIECES));
            while sent < bytes {
                sent += shared.send(&mut pieces);
            }
        });
    });
    a_second(writers * each, start)
}

/// Messages a second through a channel that holds as many as the high mark.
fn by_channel(writers: usize, each: usize) -> u128 {
    let (sender, receiver) = sync_channel(ROOM);
    let start = Instant::now();
    thread::scope(|scope| {
        for _ in 0..writers {
            let sender: SyncSender<&'static [u8]> = sender.clone();
            scope.spawn(move || (0..each).for_each(|_| sender.send(MESSAGE).unwrap()));
        }
        scope.spawn(move || receive(&receiver, writers * each * MESSAGE.len()));
    });
    a_second(writers * each, start)
}

fn receive(receiver: &Receiver<&'static [u8]>, bytes: usize) {
    let (mut sent, mut pieces) = (0, Vec::with_capacity(PIECES));
    while sent < bytes {
        pieces.clear();
        pieces.push(receiver.recv().unwrap());
        pieces.extend(receiver.try_iter().take(PIECES - 1));
        sent += take(&pieces);
    }
}

fn a_second(messages: usize, start: Instant) -> u128 {
    messages as u128 * 1_000_000_000 / start.elapsed().as_nanos().max(1)
}

fn main() {
    let numbers: Vec<usize> = std::env::args().skip(1).filter_map(|word| word.parse().ok()).collect();
    let &[writers, messages] = numbers.as_slice() else {
        eprintln!("usage: shared_by_hand WRITERS MESSAGES");
        std::process::exit(2);
    };
    println!("condvar {}", by_condvar(writers, messages / writers));
    println!("channel {}", by_channel(writers, messages / writers));
}
