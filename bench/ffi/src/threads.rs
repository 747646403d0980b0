//! Messages of 64 bytes that threads write and one thread sends into memory: through a shared connection, through a connection
//! behind a mutex with two condition variables, and through a bounded channel of std. Each has room for as many messages. Prints
//! lines `threads NAME WRITERS` and how many messages a second came.

use crate::BYTES;
use limekeel::{Change, Connection, Estimate, Marks, Moment, SharedConnection};
use std::hint::black_box;
use std::io::{self, IoSlice, Write};
use std::sync::mpsc::sync_channel;
use std::sync::{Condvar, Mutex};
use std::thread;
use std::time::Instant;

const WRITERS: [usize; 3] = [2, 4, 8];
/// How many messages all writers write together; each number of writers divides it.
const ALL: usize = 400_000;
const MARKS: Marks = Marks { low: 32768, high: 65536 };
/// How many messages of 64 bytes, each with 96 more, are within the high mark.
const ROOM: usize = 65536 / (64 + 96);
/// How many slices the channel's thread offers at once.
const SLICES: usize = 64;

/// A socket in memory that takes all.
#[derive(Default)]
struct Memory {
    bytes: usize,
}

impl Write for Memory {
    fn write(&mut self, bytes: &[u8]) -> io::Result<usize> {
        self.bytes += black_box(bytes).len();
        Ok(bytes.len())
    }

    #[inline(never)]
    fn write_vectored(&mut self, slices: &[IoSlice<'_>]) -> io::Result<usize> {
        let count = black_box(slices).iter().map(|slice| slice.len()).sum();
        self.bytes += count;
        Ok(count)
    }

    fn flush(&mut self) -> io::Result<()> {
        Ok(())
    }
}

fn shared(writers: usize) -> usize {
    let (connection, mut transport) = SharedConnection::open(MARKS, Estimate::default()).expect("it opens");
    let mut socket = Memory::default();
    thread::scope(|scope| {
        for _ in 0..writers {
            let writer = connection.clone();
            scope.spawn(move || {
                for _ in 0..ALL / writers {
                    while !writer.is_writable() && writer.wait_writable() != Moment::Ready {}
                    let _ = writer.write_and_flush(black_box(&BYTES)).expect("it is open");
                }
            });
        }
        drop(connection);
        while transport.wait_for_work() == Moment::Ready {
            let _ = transport.send_until_blocked(&mut socket, 4).expect("it is open");
        }
    });
    socket.bytes
}

/// A connection behind a mutex.
struct Behind {
    connection: Mutex<Connection>,
    room: Condvar,
    work: Condvar,
}

fn behind_a_mutex(writers: usize) -> usize {
    let connection = Mutex::new(Connection::open(MARKS, Estimate::default()).expect("it opens"));
    let behind = Behind { connection, room: Condvar::new(), work: Condvar::new() };
    let mut socket = Memory::default();
    thread::scope(|scope| {
        for _ in 0..writers {
            scope.spawn(|| {
                for _ in 0..ALL / writers {
                    let mut connection = behind.connection.lock().expect("no thread panics");
                    while !connection.is_writable() {
                        connection = behind.room.wait(connection).expect("no thread panics");
                    }
                    let _ = connection.write(black_box(&BYTES)).expect("it is open");
                    let _ = connection.flush().expect("it is open");
                    drop(connection);
                    behind.work.notify_one();
                }
            });
        }
        while socket.bytes < ALL * BYTES.len() {
            let mut connection = behind.connection.lock().expect("no thread panics");
            while connection.is_empty() {
                connection = behind.work.wait(connection).expect("no thread panics");
            }
            let sent = connection.send_until_blocked(&mut socket, 4).expect("it is open");
            drop(connection);
            if sent.taken.change == Some(Change::Writable) {
                behind.room.notify_all();
            }
        }
    });
    socket.bytes
}

fn channel(writers: usize) -> usize {
    let (sender, messages) = sync_channel::<Vec<u8>>(ROOM);
    let mut socket = Memory::default();
    thread::scope(|scope| {
        for _ in 0..writers {
            let sender = sender.clone();
            scope.spawn(move || {
                for _ in 0..ALL / writers {
                    sender.send(black_box(&BYTES).to_vec()).expect("it is read");
                }
            });
        }
        drop(sender);
        while let Ok(first) = messages.recv() {
            let several: Vec<Vec<u8>> = [first].into_iter().chain(messages.try_iter().take(SLICES - 1)).collect();
            let slices: Vec<IoSlice<'_>> = several.iter().map(|bytes| IoSlice::new(bytes)).collect();
            socket.write_vectored(&slices).expect("it takes all");
        }
    });
    socket.bytes
}

fn time(name: &str, writers: usize, run: impl FnOnce(usize) -> usize) {
    let start = Instant::now();
    assert_eq!(run(writers), ALL * BYTES.len());
    println!("threads {name} {writers} {:.0}", ALL as f64 / start.elapsed().as_secs_f64());
}

pub fn time_all() {
    for writers in WRITERS {
        time("shared", writers, shared);
        time("mutex", writers, behind_a_mutex);
        time("channel", writers, channel);
    }
}
