//! A connection that threads share: each wait, each end, and every byte. A watch ends a test that hangs.

use limekeel::{Block, Ending, Estimate, Marks, Moment, Outcome, Refusal, SharedConnection, Transport, Unwritten};
use std::collections::BTreeSet;
use std::io::{self, ErrorKind, IoSlice, Write};
use std::sync::atomic::{AtomicBool, AtomicU64, AtomicUsize, Ordering};
use std::sync::mpsc::channel;
use std::sync::{Arc, Barrier};
use std::thread;
use std::time::{Duration, Instant};

/// How long a thread is let wait before what it waits for comes.
const A_WHILE: Duration = Duration::from_millis(60);
const ESTIMATE: Estimate = Estimate { overhead: 96, unknown: 8 };

fn open(low: u32, high: u32) -> (SharedConnection, Transport) {
    SharedConnection::open(Marks { low, high }, ESTIMATE).expect("there is memory")
}

/// Does this in a thread of its own, for half a minute at most.
fn watched(test: impl FnOnce() + Send + 'static) {
    let (done, ends) = channel();
    let runs = thread::spawn(move || {
        test();
        let _ = done.send(());
    });
    if ends.recv_timeout(Duration::from_secs(30)) == Err(std::sync::mpsc::RecvTimeoutError::Timeout) {
        panic!("it hangs");
    }
    if let Err(fault) = runs.join() {
        std::panic::resume_unwind(fault);
    }
}

/// Calls `wait` in a thread, and `come` after a while: the wait must not end before that.
fn comes_to_who_waits<T: Send + 'static>(wait: impl FnOnce() -> T + Send + 'static, come: impl FnOnce()) -> T {
    let came = Arc::new(AtomicBool::new(false));
    let seen = Arc::clone(&came);
    let waits = thread::spawn(move || {
        let found = wait();
        assert!(seen.load(Ordering::SeqCst), "it did not wait");
        found
    });
    thread::sleep(A_WHILE);
    assert!(!waits.is_finished());
    came.store(true, Ordering::SeqCst);
    come();
    waits.join().expect("it ends well")
}

/// Makes a connection unwritable by one message, flushed or not.
fn filled(low: u32, high: u32, flushed: bool) -> (SharedConnection, Transport) {
    let (connection, transport) = open(low, high);
    let _ = connection.write(&vec![1; high as usize]).expect("it is open");
    if flushed {
        assert_eq!(connection.flush().expect("it is open").count, 1);
    }
    assert!(!connection.is_writable());
    (connection, transport)
}

#[test]
fn a_writer_waits_until_the_transport_makes_room() {
    watched(|| {
        let (connection, mut transport) = filled(100, 200, true);
        let writer = connection.clone();
        let found = comes_to_who_waits(
            move || writer.wait_writable(),
            || {
                let _ = transport.send_to(&mut Vec::new()).expect("it takes all");
            },
        );
        assert_eq!(found, Moment::Ready);
    });
}

#[test]
fn a_write_that_waits_is_made_once_there_is_room() {
    watched(|| {
        let (connection, mut transport) = filled(100, 200, true);
        let writer = connection.clone();
        let waits = move || writer.write_waiting(b"late").map(|written| written.id);
        assert_eq!(comes_to_who_waits(waits, || assert!(transport.take_sent(200).is_ok())), Ok(1));
        assert_eq!(connection.look().total, 100);
    });
}

/// A connection that is unwritable until a flush lets its first message go, which was cancelled.
fn cancelled() -> (SharedConnection, Transport) {
    let (connection, transport) = open(200, 300);
    for id in 0..2 {
        assert_eq!(connection.write(&[0; 100]).expect("it is open").id, id);
    }
    assert_eq!(connection.cancel(0), Ok(true));
    assert!(!connection.is_writable());
    (connection, transport)
}

#[test]
fn a_flush_that_lets_cancelled_messages_go_makes_room() {
    watched(|| {
        let (connection, _transport) = cancelled();
        let writer = connection.clone();
        let found = comes_to_who_waits(move || writer.wait_writable(), || assert!(connection.flush().is_ok()));
        assert_eq!(found, Moment::Ready);
        let (connection, mut transport) = cancelled();
        let found = comes_to_who_waits(move || connection.wait_writable(), || assert!(transport.flush().is_ok()));
        assert_eq!(found, Moment::Ready);
    });
}

#[test]
fn the_transport_waits_until_something_is_flushed() {
    watched(|| {
        let (connection, mut transport) = open(100, 200);
        let _ = connection.write(b"news").expect("it is open");
        let waits = move || (transport.wait_for_work(), transport);
        let (found, mut transport) = comes_to_who_waits(waits, || assert!(connection.flush().is_ok()));
        assert_eq!(found, Moment::Ready);
        let mut socket = Vec::new();
        assert!(!transport.send_to(&mut socket).expect("it takes all").more);
        assert_eq!(socket, b"news");
    });
}

#[test]
fn a_write_with_its_flush_wakes_who_waits() {
    watched(|| {
        let (connection, mut transport) = open(1000, 2000);
        let block = Block::new(b"block").expect("there is memory");
        for turn in 0..3 {
            let waits = move || (transport.wait_for_work(), transport);
            let come = || {
                let done = match turn {
                    0 => connection.write_and_flush(b"few"),
                    1 => connection.write_and_flush(&[1; 3000]),
                    _ => connection.write_block_and_flush(&block),
                };
                assert_eq!(done.expect("it is open").flushed.count, 1);
            };
            let (found, mut back) = comes_to_who_waits(waits, come);
            assert_eq!(found, Moment::Ready);
            assert!(!back.send_to(&mut io::sink()).expect("it takes all").more);
            transport = back;
        }
        let (connection, _transport) = open(400, 500);
        let _ = connection.write(&[0; 304]).expect("it is open");
        let _ = connection.write(&[0; 104]).expect("it is open");
        assert_eq!((connection.cancel(0), connection.is_writable()), (Ok(true), false));
        let writer = connection.clone();
        // 96 bytes more, and 400 fewer
        let come = || assert!(connection.write_and_flush(b"").is_ok());
        assert_eq!(comes_to_who_waits(move || writer.wait_writable(), come), Moment::Ready);
    });
}

#[test]
fn each_call_that_makes_room_wakes_writers() {
    watched(|| {
        let (connection, mut transport) = filled(100, 200, true);
        let writer = connection.clone();
        let come = || assert!(transport.remove().expect("it is open").any);
        assert_eq!(comes_to_who_waits(move || writer.wait_writable(), come), Moment::Ready);
        let (connection, mut transport) = filled(100, 200, true);
        let writer = connection.clone();
        let come = || assert!(transport.remove_with(1).expect("it is open").any);
        assert_eq!(comes_to_who_waits(move || writer.wait_writable(), come), Moment::Ready);
        let (connection, mut transport) = filled(100, 200, true);
        let writer = connection.clone();
        let come = || assert_eq!(transport.fail_flushed(1, true).expect("it is open").count, 1);
        assert_eq!(comes_to_who_waits(move || writer.wait_writable(), come), Moment::Ready);
        let (connection, _transport) = open(100, 200);
        assert!(connection.user_bit(1, false).is_ok());
        let writer = connection.clone();
        let come = || assert!(connection.user_bit(1, true).is_ok());
        assert_eq!(comes_to_who_waits(move || writer.wait_writable(), come), Moment::Ready);
    });
}

#[test]
fn each_wait_ends_with_its_time() {
    watched(|| {
        let (connection, mut transport) = filled(100, 200, false);
        let start = Instant::now();
        assert_eq!(connection.wait_writable_within(A_WHILE), Moment::NotYet);
        assert!(start.elapsed() >= A_WHILE);
        assert_eq!(connection.write_within(b"late", A_WHILE), Err(Unwritten::NotYet));
        assert!(start.elapsed() >= 2 * A_WHILE);
        assert_eq!(transport.wait_for_work_within(A_WHILE), Moment::NotYet);
        assert!(start.elapsed() >= 3 * A_WHILE);
        // a time that has no end is none
        let writer = connection.clone();
        let waits = move || writer.wait_writable_within(Duration::MAX);
        let found = comes_to_who_waits(waits, || {
            assert_eq!(connection.flush().expect("it is open").count, 1);
            let _ = transport.take_sent(200).expect("it waits");
        });
        assert_eq!(found, Moment::Ready);
        assert_eq!(connection.wait_writable_within(Duration::ZERO), Moment::Ready);
    });
}

#[test]
fn a_close_ends_each_wait() {
    watched(|| {
        let (connection, mut transport) = filled(100, 200, false);
        let writer = connection.clone();
        let waits = move || {
            let sender = thread::spawn(move || transport.wait_for_work());
            (writer.wait_writable(), sender.join().expect("it ends well"), writer)
        };
        let (writers, senders, writer) = comes_to_who_waits(waits, || {
            let taken = connection.close(5).expect("nothing is flushed");
            assert_eq!(taken.settled().collect::<Vec<_>>(), [(0, Outcome::Failed(5))]);
        });
        assert_eq!((writers, senders), (Moment::Closed, Moment::Closed));
        assert_eq!(writer.write_waiting(b"late"), Err(Unwritten::Refused(Refusal::Closed)));
        assert_eq!(writer.write(b"late"), Err(Refusal::Closed));
        assert_eq!(writer.close(6), Err(Refusal::Closed));
        assert!(writer.is_closed());
    });
}

#[test]
fn giving_up_ends_the_wait_of_writers() {
    watched(|| {
        let (connection, mut transport) = filled(100, 200, true);
        assert_eq!(connection.close(1), Err(Refusal::FlushedLeft));
        let writer = connection.clone();
        let found = comes_to_who_waits(
            move || writer.wait_writable(),
            || {
                let taken = transport.give_up(9).expect("it is open");
                assert_eq!(taken.settled().collect::<Vec<_>>(), [(0, Outcome::Failed(9))]);
            },
        );
        assert_eq!(found, Moment::Closed);
        assert_eq!(transport.wait_for_work(), Moment::Closed);
        let refused = transport.send_to(&mut Vec::new()).expect_err("it is closed");
        assert_eq!(refused.kind(), ErrorKind::BrokenPipe);
        assert!(transport.send_until_blocked(&mut Vec::new(), 3).is_err());
    });
}

#[test]
fn a_transport_that_panics_is_told_and_can_be_had_again() {
    watched(|| {
        let (connection, mut transport) = filled(100, 200, true);
        let (writer, waits) = (connection.clone(), connection.clone());
        assert!(connection.transport().is_none(), "there is one");
        let found = comes_to_who_waits(
            move || waits.wait_writable(),
            move || {
                let fails = thread::spawn(move || {
                    let _ = transport.send_with(|_| panic!("a socket"));
                });
                assert!(fails.join().is_err());
            },
        );
        assert_eq!(found, Moment::Abandoned);
        assert_eq!(writer.write_waiting(b"late"), Err(Unwritten::Abandoned));
        let mut again = connection.transport().expect("nobody has it");
        assert!(connection.transport().is_none());
        let mut socket = Vec::new();
        let sent = again.send_until_blocked(&mut socket, 4).expect("it is open");
        assert!(matches!(sent.ending, Ending::Drained));
        assert_eq!((sent.taken.count, socket.len()), (1, 200));
        assert_eq!(writer.wait_writable(), Moment::Ready);
    });
}

#[test]
fn writers_that_panic_are_told_and_lose_nothing() {
    watched(|| {
        let (connection, mut transport) = open(1000, 2000);
        let waits = move || (transport.wait_for_work(), transport);
        let (found, mut transport) = comes_to_who_waits(waits, move || {
            let fails = thread::spawn(move || {
                let _ = connection.write(b"left").expect("it is open");
                panic!("a writer");
            });
            assert!(fails.join().is_err());
        });
        assert_eq!(found, Moment::Abandoned);
        assert_eq!(transport.flush().expect("it is open").count, 1);
        assert_eq!(transport.wait_for_work(), Moment::Ready);
        let mut socket = Vec::new();
        let _ = transport.send_to(&mut socket).expect("it takes all");
        assert_eq!((socket.as_slice(), transport.look().total), (&b"left"[..], 0));
        // and another writer may come
        let again = transport.connection().expect("there is memory");
        let _ = again.write_static(b"more").expect("it is open");
        let _ = again.flush().expect("it is open");
        assert_eq!(transport.wait_for_work(), Moment::Ready);
    });
}

/// A socket that takes a few bytes, blocks, or is interrupted, by lot.
struct Slow {
    took: Vec<u8>,
    dice: u64,
}

impl Write for Slow {
    fn write(&mut self, bytes: &[u8]) -> io::Result<usize> {
        self.write_vectored(&[IoSlice::new(bytes)])
    }

    fn write_vectored(&mut self, pieces: &[IoSlice<'_>]) -> io::Result<usize> {
        self.dice = self.dice.wrapping_mul(6364136223846793005).wrapping_add(1442695040888963407);
        match (self.dice >> 60) % 8 {
            0 => return Err(ErrorKind::WouldBlock.into()),
            1 => return Err(ErrorKind::Interrupted.into()),
            _ => {}
        }
        let mut room = 1 + (self.dice >> 33) as usize % 4000;
        let before = self.took.len();
        for piece in pieces {
            let count = piece.len().min(room);
            self.took.extend_from_slice(&piece[..count]);
            room -= count;
        }
        Ok(self.took.len() - before)
    }

    fn flush(&mut self) -> io::Result<()> {
        Ok(())
    }
}

/// A message: who wrote it, which one it is, its length, and bytes that tell where they stand.
fn message(writer: u8, at: u32) -> Vec<u8> {
    let length = 8 + (at as usize * 37 + writer as usize) % if at % 50 == 0 { 3000 } else { 60 };
    let mut bytes = vec![writer];
    bytes.extend(at.to_le_bytes());
    bytes.extend((length as u16).to_le_bytes());
    bytes.extend((bytes.len()..length).map(|place| (writer as usize * 31 + at as usize * 7 + place) as u8));
    bytes
}

/// Writes all messages of one writer in each way in turn, and takes some back: those that were.
fn write_all(connection: &SharedConnection, writer: u8, count: u32) -> BTreeSet<u32> {
    let mut cancelled = BTreeSet::new();
    for at in 0..count {
        let bytes = message(writer, at);
        let written = match at % 4 {
            0 => connection.write_waiting(&bytes).expect("it is open"),
            1 => connection.write_block(&Block::new(&bytes).expect("there is memory")).expect("it is open"),
            2 => connection.write_owned(bytes).expect("it is open"),
            _ => connection.write_within(&bytes, Duration::from_secs(20)).expect("it is open"),
        };
        if at % 7 == 0 && connection.cancel(written.id).expect("it is open") {
            cancelled.insert(at);
        }
        if at % 3 == 0 || !connection.is_writable() {
            let _ = connection.flush().expect("it is open");
        }
    }
    let _ = connection.flush().expect("it is open");
    cancelled
}

/// Sends until nobody writes any more; the promises that it settled.
fn send_all(transport: &mut Transport, socket: &mut Slow) -> Vec<u64> {
    let mut settled = Vec::new();
    loop {
        let taken = match transport.wait_for_work() {
            Moment::Ready if settled.len() % 2 == 0 => transport.send_to(socket).expect("it is open").taken,
            Moment::Ready => transport.send_until_blocked(socket, 5).expect("it is open").taken,
            Moment::Abandoned => return settled,
            other => panic!("{other:?}"),
        };
        settled.extend(taken.settled().map(|(id, outcome)| {
            assert_eq!(outcome, Outcome::Success);
            id
        }));
    }
}

#[test]
fn every_byte_of_each_writer_comes_in_order() {
    const WRITERS: u8 = 8;
    const COUNT: u32 = 2000;
    watched(|| {
        let (connection, mut transport) = open(2000, 4000);
        let start = Arc::new(Barrier::new(WRITERS as usize + 1));
        let writers: Vec<_> = (0..WRITERS)
            .map(|writer| {
                let (connection, start) = (connection.clone(), Arc::clone(&start));
                thread::spawn(move || {
                    start.wait();
                    write_all(&connection, writer, COUNT)
                })
            })
            .collect();
        drop(connection);
        start.wait();
        let mut socket = Slow { took: Vec::new(), dice: 7 };
        let settled = send_all(&mut transport, &mut socket);
        let cancelled: Vec<_> = writers.into_iter().map(|writer| writer.join().expect("it ends well")).collect();
        assert_eq!(transport.look().total, 0);

        let mut next = [0u32; WRITERS as usize];
        let mut rest = socket.took.as_slice();
        while let Some(&writer) = rest.first() {
            let (at, gone) = (&mut next[writer as usize], &cancelled[writer as usize]);
            while gone.contains(at) {
                *at += 1;
            }
            let wanted = message(writer, *at);
            assert_eq!(rest.get(..wanted.len()), Some(wanted.as_slice()), "writer {writer}, message {at}");
            (rest, *at) = (&rest[wanted.len()..], *at + 1);
        }
        let all = u64::from(COUNT) * u64::from(WRITERS);
        for (writer, gone) in cancelled.iter().enumerate() {
            assert!((next[writer]..COUNT).all(|at| gone.contains(&at)), "writer {writer} ends at {}", next[writer]);
        }
        // each promise was settled once: by a cancellation, or by a removal
        assert!(settled.is_sorted_by(|one, other| one < other));
        let taken_back: usize = cancelled.iter().map(BTreeSet::len).sum();
        assert_eq!((settled.len() + taken_back) as u64, all);
    });
}

#[test]
fn no_ring_is_lost_among_threads_that_wait_for_each_other() {
    const WRITERS: u64 = 3;
    const COUNT: u64 = 15_000;
    watched(|| {
        // each message makes it unwritable, and each that is sent writable: so all wait most of the time
        let (connection, mut transport) = open(1, 1);
        for _ in 0..WRITERS {
            let writer = connection.clone();
            thread::spawn(move || {
                for _ in 0..COUNT {
                    assert_eq!(writer.wait_writable(), Moment::Ready);
                    let _ = writer.write_static(b"x").expect("it is open");
                    let _ = writer.flush().expect("it is open");
                }
            });
        }
        drop(connection);
        let mut sent = 0;
        while transport.wait_for_work() == Moment::Ready {
            sent += transport.send_to(&mut io::sink()).expect("it is open").bytes as u64;
        }
        assert_eq!(sent, WRITERS * COUNT);
    });
}

/// Does two things at once in two threads, for two seconds, and each time a little later in the one; what they return is checked.
fn at_once<T: Send, A: Send, B: Send>(
    mut open: impl FnMut() -> (SharedConnection, T),
    first: impl Fn(&SharedConnection) -> A + Sync,
    second: impl Fn(T) -> B + Sync,
    check: impl Fn(A, B),
) {
    let start = Instant::now();
    let mut rounds = 0;
    while start.elapsed() < Duration::from_secs(2) {
        rounds += 1;
        let (connection, other) = open();
        let ready = AtomicBool::new(false);
        let (one, two) = thread::scope(|scope| {
            let one = scope.spawn(|| {
                while !ready.load(Ordering::SeqCst) {
                    thread::yield_now();
                }
                let connection = connection;
                first(&connection)
            });
            let two = scope.spawn(|| {
                ready.store(true, Ordering::SeqCst);
                (0..rounds % 400).for_each(|_| std::hint::spin_loop());
                second(other)
            });
            (one.join().expect("it ends well"), two.join().expect("it ends well"))
        });
        check(one, two);
    }
    println!("{rounds} rounds");
}

#[test]
fn an_end_that_crosses_a_wait_is_told() {
    let close = |connection: &SharedConnection| assert!(connection.close(1).is_ok());
    let is_closed = |(), moment| assert_eq!(moment, Moment::Closed);
    watched(move || {
        let with_clone = || {
            let (connection, transport) = filled(100, 200, false);
            let writer = connection.clone();
            (connection, (writer, transport))
        };
        // the transport is there as long as the writer waits
        at_once(with_clone, close, |(writer, _transport)| writer.wait_writable(), is_closed);
        at_once(|| open(100, 200), close, |mut transport| transport.wait_for_work(), is_closed);
    });
}

#[test]
fn what_the_last_writer_flushed_is_told_before_its_end() {
    watched(|| {
        let flushes = |connection: &SharedConnection| {
            let _ = connection.write_static(b"last").expect("it is open");
            connection.flush().expect("it is open").count
        };
        let waits = |mut transport: Transport| {
            let first = transport.wait_for_work();
            assert!(transport.take_sent(4).is_ok());
            (first, transport.wait_for_work())
        };
        at_once(
            || open(100, 200),
            flushes,
            waits,
            |count, moments| {
                assert_eq!((count, moments), (1, (Moment::Ready, Moment::Abandoned)));
            },
        );
    });
}

#[test]
fn a_cancellation_that_crosses_a_flush_settles_once() {
    watched(|| {
        let with_message = || {
            let (connection, transport) = open(100, 200);
            assert_eq!(connection.write(b"once").expect("it is open").id, 0);
            (connection, transport)
        };
        let cancels = |connection: &SharedConnection| connection.cancel(0).expect("it was written");
        let sends = |mut transport: Transport| {
            assert_eq!(transport.flush().expect("it is open").count, 1);
            transport.send_to(&mut io::sink()).expect("it is open").taken.settled().count()
        };
        at_once(with_message, cancels, sends, |in_time, settled| assert_eq!(settled, usize::from(!in_time)));
    });
}

#[test]
fn an_owner_that_crosses_its_removal_is_dropped() {
    watched(|| {
        let dropped = AtomicUsize::new(0);
        let dropped: &'static AtomicUsize = Box::leak(Box::new(dropped));
        let writes = move |connection: &SharedConnection| {
            let owner = Counted(dropped);
            assert!(connection.write_owned(owner).is_ok());
        };
        // what no other has flushed yet is flushed here
        let sends = |mut transport: Transport| {
            while transport.take_sent(0).expect("it is open").promises.start == 0 {
                let _ = transport.flush().expect("it is open");
                let _ = transport.send_to(&mut io::sink()).expect("it is open");
            }
            transport
        };
        at_once(
            || open(100, 200),
            writes,
            sends,
            |(), transport| {
                assert_eq!(dropped.swap(0, Ordering::SeqCst), 1);
                drop(transport);
            },
        );
    });
}

/// Two bytes, which count how often they are dropped.
struct Counted(&'static AtomicUsize);

impl AsRef<[u8]> for Counted {
    fn as_ref(&self) -> &[u8] {
        b"ok"
    }
}

impl Drop for Counted {
    fn drop(&mut self) {
        self.0.fetch_add(1, Ordering::SeqCst);
    }
}

/// Bytes that tell when they are dropped.
struct Told {
    bytes: Vec<u8>,
    dropped: Arc<AtomicUsize>,
}

impl AsRef<[u8]> for Told {
    fn as_ref(&self) -> &[u8] {
        &self.bytes
    }
}

impl Drop for Told {
    fn drop(&mut self) {
        self.bytes.fill(0);
        self.dropped.fetch_add(1, Ordering::SeqCst);
    }
}

#[test]
fn what_is_owned_is_kept_until_its_message_is_gone() {
    watched(|| {
        let dropped = Arc::new(AtomicUsize::new(0));
        let told = |byte| Told { bytes: vec![byte; 50], dropped: Arc::clone(&dropped) };
        let (connection, mut transport) = open(1000, 2000);
        for byte in 0..3 {
            assert_eq!(connection.write_owned(told(byte)).expect("it is open").id, u64::from(byte));
        }
        let _ = connection.flush().expect("it is open");
        let _ = transport.send_with(|pieces| Ok(pieces[0].len().min(20))).expect("it is open");
        assert_eq!(dropped.load(Ordering::SeqCst), 0);
        let sent = transport.send_with(|pieces| {
            assert_eq!(*pieces[0], [0; 30]);
            Ok(30)
        });
        assert_eq!(sent.expect("it is open").taken.count, 1);
        assert_eq!(dropped.load(Ordering::SeqCst), 1);
        let _ = connection.write_owned(told(9)).expect("it is open");
        assert_eq!(connection.close(1), Err(Refusal::FlushedLeft));
        let _ = transport.take_sent(100).expect("they wait");
        assert_eq!(dropped.load(Ordering::SeqCst), 3);
        let _ = connection.close(1).expect("nothing is flushed");
        assert_eq!(dropped.load(Ordering::SeqCst), 4);
        let refused = connection.write_owned(told(5)).expect_err("it is closed");
        assert_eq!((refused.refusal, refused.owner.bytes[0]), (Refusal::Closed, 5));
        drop(refused);
        assert_eq!(dropped.load(Ordering::SeqCst), 5);

        let (connection, transport) = open(1000, 2000);
        let _ = connection.write_owned(told(1)).expect("it is open");
        drop(transport);
        let last = connection.clone();
        drop(connection);
        assert_eq!(dropped.load(Ordering::SeqCst), 5);
        drop(last);
        assert_eq!(dropped.load(Ordering::SeqCst), 6);
    });
}

/// An owner that writes to its connection when it is dropped.
struct Writes(SharedConnection);

impl AsRef<[u8]> for Writes {
    fn as_ref(&self) -> &[u8] {
        b"first"
    }
}

impl Drop for Writes {
    fn drop(&mut self) {
        let _ = self.0.write_owned(b"second".to_vec());
        let _ = self.0.flush();
    }
}

#[test]
fn an_owner_may_use_its_connection_when_it_is_dropped() {
    watched(|| {
        let (connection, mut transport) = open(1000, 2000);
        assert!(connection.write_owned(Writes(connection.clone())).is_ok());
        let _ = connection.flush().expect("it is open");
        let mut socket = Vec::new();
        while transport.send_to(&mut socket).expect("it takes all").more {}
        assert_eq!(socket, b"firstsecond");
    });
}

#[test]
fn calls_of_one_value_and_of_clones_cross() {
    const EACH: u64 = 8000;
    watched(|| {
        let (connection, mut transport) = open(1_000_000_000, 2_000_000_000);
        let block = Block::new(b"ok").expect("there is memory");
        let writes = |connection: &SharedConnection| -> Vec<u64> {
            let written = (0..EACH).map(|at| match at % 3 {
                0 => connection.write(b"ok").expect("it is open").id,
                1 => connection.write_block(&block).expect("it is open").id,
                _ => connection.write_static(b"ok").expect("it is open").id,
            });
            written.collect()
        };
        let mut ids: Vec<u64> = thread::scope(|scope| {
            let (writes, shared) = (&writes, &connection);
            let threads: Vec<_> = (0..6)
                .map(|at| {
                    let own = connection.clone();
                    scope.spawn(move || writes(if at % 2 == 0 { shared } else { &own }))
                })
                .collect();
            while threads.iter().any(|one| !one.is_finished()) {
                let _ = shared.flush().expect("it is open");
                assert!(shared.look().total >= shared.look().size as u32);
                drop(shared.clone());
            }
            threads.into_iter().flat_map(|one| one.join().expect("it ends well")).collect()
        });
        ids.sort_unstable();
        assert!(ids.iter().copied().eq(0..6 * EACH), "each write has a promise of its own");
        let _ = connection.flush().expect("it is open");
        let sent = transport.send_until_blocked(&mut io::sink(), 1000).expect("it is open");
        assert_eq!((sent.bytes, sent.taken.count), (2 * 6 * EACH, 6 * EACH));
        assert_eq!(connection.look().total, 0);
    });
}

#[test]
fn each_of_64_threads_is_served_in_bounded_time() {
    const THREADS: usize = 64;
    watched(|| {
        let (connection, mut transport) = open(1_000_000, 2_000_000_000);
        let (stop, longest) = (Arc::new(AtomicBool::new(false)), Arc::new(AtomicU64::new(0)));
        let start = Arc::new(Barrier::new(THREADS + 1));
        let threads: Vec<_> = (0..THREADS)
            .map(|_| {
                let (connection, stop, longest) = (connection.clone(), Arc::clone(&stop), Arc::clone(&longest));
                let start = Arc::clone(&start);
                thread::spawn(move || {
                    start.wait();
                    let mut calls = 0u64;
                    while !stop.load(Ordering::Relaxed) {
                        let before = Instant::now();
                        let _ = connection.write_static(b"busy").expect("it is open");
                        let _ = connection.flush().expect("it is open");
                        longest.fetch_max(before.elapsed().as_micros() as u64, Ordering::Relaxed);
                        calls += 1;
                    }
                    calls
                })
            })
            .collect();
        start.wait();
        let end = Instant::now() + Duration::from_secs(3);
        let mut turns = 0;
        while Instant::now() < end {
            let before = Instant::now();
            let _ = transport.send_until_blocked(&mut io::sink(), 4).expect("it is open");
            longest.fetch_max(before.elapsed().as_micros() as u64, Ordering::Relaxed);
            turns += 1;
        }
        stop.store(true, Ordering::Relaxed);
        let calls: Vec<u64> = threads.into_iter().map(|one| one.join().expect("it ends well")).collect();
        let (fewest, longest) = (calls.iter().min().copied().unwrap_or(0), longest.load(Ordering::Relaxed));
        println!(
            "{turns} turns, {} calls, at least {fewest} of a thread, {longest} us at most",
            calls.iter().sum::<u64>()
        );
        assert!(fewest >= 10, "{calls:?}");
        assert!(turns >= 10);
        assert!(longest < 5_000_000, "{longest} us");
    });
}
