//! A managed connection: the end that is told once, the limit, a peer that stalls, and numbers that add up.

use limekeel::{
    Block, Change, Count, Current, Ending, Estimate, Front, Limits, ManagedConnection, Marks, Numbers, Outcome,
    Promise, Refusal, Refusals,
};
use std::io::{self, ErrorKind, IoSlice, Read, Write};
use std::os::unix::net::UnixStream;

const OVERHEAD: u64 = 96;

fn open(most_pending: u32, window: u64, least_bytes: u64, now: u64) -> ManagedConnection {
    let limits = Limits { most_pending, window, least_bytes };
    ManagedConnection::open(Marks { low: 200, high: 400 }, Estimate::default(), limits, now).expect("there is memory")
}

fn adds_up(connection: &ManagedConnection) {
    let Numbers { accepted, sent, failed, cancelled, pending, peak, .. } = connection.numbers();
    let ended = [sent, failed, cancelled, pending];
    assert_eq!(accepted.messages, ended.iter().map(|count| count.messages).sum::<u64>());
    assert_eq!(accepted.bytes, ended.iter().map(|count| count.bytes).sum::<u64>());
    assert!(peak >= pending.bytes);
}

#[test]
fn the_end_is_told_by_what_takes_the_last_message_away() {
    let mut connection = open(10_000, 10, 1, 0);
    let _ = connection.write(b"abc").expect("it is accepted");
    let _ = connection.write_other(5).expect("it is accepted");
    assert_eq!(connection.flush().expect("it is open").answer.count, 2);
    assert!(!connection.finish(), "two are left");
    assert_eq!(connection.write(b"d"), Err(Refusal::Finishing));
    assert_eq!(connection.write_region(1), Err(Refusal::Finishing));
    assert!(!connection.take_sent(2).expect("they wait").finished);
    let told = connection.take_sent(1).expect("it waits");
    assert_eq!((told.answer.promises, told.finished), (0..1, false));
    assert_eq!((connection.current(), connection.front()), (Some(Current::Other(5)), Some(1)));
    assert!(
        connection.is_finishing() && !connection.is_finished() && !connection.is_closed() && !connection.is_empty()
    );
    let told = connection.remove().expect("it is open");
    assert_eq!((told.answer.settled, told.finished), (Some((1, Outcome::Success)), true));
    connection.shrink_to_fit();
    connection.ask_ahead();
    assert!(connection.is_finished() && connection.is_empty());
    assert!(!connection.finish(), "it is told once");
    assert!(!connection.close(1).expect("nothing is flushed").finished);
    adds_up(&connection);
    assert!(open(1, 1, 1, 0).finish(), "with nothing left it is told at once");
}

#[test]
fn what_is_past_the_limit_is_refused() {
    let mut connection = open(250, 10, 1, 0);
    let block = Block::new(&[0; 30]).expect("there is memory");
    let _ = connection.write(&[0; 29]).expect("it is accepted");
    assert_eq!(connection.write(&[0; 30]), Err(Refusal::Full));
    assert_eq!(connection.write_block(&block), Err(Refusal::Full));
    assert_eq!(connection.write_static(&[0; 30]), Err(Refusal::Full));
    let _ = connection.write(&[0; 29]).expect("250 may be pending");
    assert_eq!(connection.write_region(1), Err(Refusal::Full), "a region counts its overhead");
    assert_eq!((connection.look().total, connection.numbers().peak), (250, 250));
    assert_eq!(connection.numbers().refusals, Refusals { full: 4, ..Refusals::default() });
    assert_eq!((connection.promise(1), connection.promise(2)), (Some(Promise::Waiting), None));
    assert_eq!(Refusal::Full.to_string(), "more would be pending than the connection may hold");
    assert_eq!(Refusal::Finishing.to_string(), "the connection is finishing");
    adds_up(&connection);
}

#[test]
fn a_peer_that_takes_too_little_is_named_once() {
    let mut connection = open(10_000, 30, 10, 100);
    let _ = connection.write(&[7; 30]).expect("it is accepted");
    assert!(!connection.tick(200) && !connection.tick(300), "nothing is flushed");
    let _ = connection.flush().expect("it is open");
    assert!(!connection.tick(300));
    let _ = connection.take_sent(9).expect("they wait");
    assert!(!connection.tick(329) && connection.tick(330) && !connection.tick(400));
    let _ = connection.take_sent(1).expect("it waits");
    assert!(!connection.tick(401) && !connection.tick(430) && connection.tick(431));
    let told = connection.give_up(7).expect("it is open");
    assert_eq!((told.answer.outcome, told.answer.count, told.finished), (Outcome::Failed(7), 1, false));
    assert_eq!(connection.numbers().failed, Count { messages: 1, bytes: 30 + OVERHEAD });
}

#[test]
fn each_end_is_counted_and_those_left_fail_at_a_deadline() {
    let mut connection = open(10_000, 10, 1, 0);
    let block = Block::new(b"four").expect("there is memory");
    let _ = connection.write_block(&block).expect("it is accepted");
    let _ = connection.write_static(b"four").expect("it is accepted");
    let _ = connection.write_region(50).expect("it is accepted");
    assert!(connection.cancel(1).expect("it waits").answer);
    assert_eq!(connection.flush().expect("it is open").answer.count, 3);
    let told = connection.take_sent(4).expect("they wait");
    assert_eq!(told.answer.settled().collect::<Vec<_>>(), [(0, Outcome::Success)], "the second was cancelled");
    let _ = connection.progress(20).expect("a region is in front");
    assert_eq!(connection.current(), Some(Current::Region(30)));
    assert_eq!(connection.pieces::<4>(u32::MAX).front(), Front::Region);
    assert_eq!(connection.remove_with(9).expect("it is open").answer.settled, Some((2, Outcome::Failed(9))));
    assert_eq!(connection.user_bit(3, false).expect("it is one").answer, Some(Change::Unwritable));
    assert!(!connection.is_writable() && !connection.tick(8));
    assert_eq!((connection.numbers().stops, connection.numbers().stopped), (1, 8));
    assert_eq!(connection.set_marks(Marks { low: 5, high: 4 }).map(|told| told.finished), Err(Refusal::BadMarks));
    let _ = connection.set_marks(Marks { low: 1, high: 2 }).expect("they are marks");
    let _ = connection.write(b"last").expect("it is accepted");
    let _ = connection.flush().expect("it is open");
    let _ = connection.write(b"not flushed").expect("it is accepted");
    assert!(!connection.finish());
    assert!(!connection.fail_flushed(3, false).expect("it is open").finished);
    let told = connection.give_up(3).expect("it is open");
    assert_eq!((told.answer.promises, told.finished), (4..5, true));
    assert_eq!(connection.write(b"x"), Err(Refusal::Closed));
    let numbers = connection.numbers();
    assert_eq!(numbers.accepted, Count { messages: 5, bytes: 5 * OVERHEAD + 23 });
    assert_eq!(numbers.sent, Count { messages: 1, bytes: OVERHEAD + 4 });
    assert_eq!(numbers.cancelled, Count { messages: 1, bytes: OVERHEAD + 4 });
    assert_eq!(numbers.failed, Count { messages: 3, bytes: 3 * OVERHEAD + 15 });
    assert_eq!(numbers.pending, Count::default());
}

/// A writer that takes three bytes at a time, and breaks once it has taken so many.
struct Breaks(usize);

impl Write for Breaks {
    fn write(&mut self, _: &[u8]) -> io::Result<usize> {
        unreachable!("a vectored write is asked for")
    }

    fn write_vectored(&mut self, pieces: &[IoSlice<'_>]) -> io::Result<usize> {
        let count = pieces.iter().map(|piece| piece.len()).sum::<usize>().min(3).min(self.0);
        self.0 -= count;
        if count == 0 { Err(ErrorKind::ConnectionReset.into()) } else { Ok(count) }
    }

    fn flush(&mut self) -> io::Result<()> {
        Ok(())
    }
}

#[test]
fn a_sending_tells_the_end_and_none_that_breaks_before_it() {
    let filled = || {
        let mut connection = open(10_000, 10, 1, 0);
        let _ = connection.write(b"seven b").expect("it is accepted");
        let _ = connection.flush().expect("it is open");
        assert!(!connection.finish());
        connection
    };
    let mut connection = filled();
    let told = connection.send_until_blocked(&mut Breaks(6), 16).expect("it is open");
    assert!(matches!(told.answer.ending, Ending::Broken(_)) && !told.finished);
    assert_eq!((told.answer.bytes, connection.numbers().pending.messages), (6, 1));
    let told = connection.send_until_blocked(&mut Breaks(6), 16).expect("it is open");
    assert!(matches!(told.answer.ending, Ending::Drained) && told.finished);
    let mut connection = filled();
    assert!(!connection.send_to(&mut Breaks(9)).expect("it takes three").finished);
    assert!(!connection.send_to(&mut Breaks(9)).expect("it takes three").finished);
    assert!(connection.send_to(&mut Breaks(9)).expect("it takes the last").finished);
    assert!(!connection.send_to(&mut Breaks(9)).expect("nothing is left").finished);
    let _ = connection.close(1).expect("nothing is flushed");
    assert_eq!(
        connection.send_to(&mut Breaks(9)).map(|told| told.finished).expect_err("it is closed").kind(),
        ErrorKind::BrokenPipe
    );
}

#[test]
fn each_byte_comes_before_the_end_over_a_socket() {
    let (mut ours, mut theirs) = UnixStream::pair().expect("a pair");
    ours.set_nonblocking(true).expect("it can be");
    let bytes: Vec<u8> = (0..1u32 << 20).map(|at| (at * 7 + at / 251) as u8).collect();
    let mut connection = open(1 << 30, 10, 1, 0);
    let _ = connection.write(&bytes).expect("it is accepted");
    let _ = connection.flush().expect("it is open");
    assert!(!connection.finish());
    let (mut came, mut sent, mut ends) = (Vec::<u8>::new(), 0, 0);
    while came.len() < bytes.len() {
        let told = connection.send_until_blocked(&mut ours, 16).expect("it is open");
        sent += told.answer.bytes;
        assert_eq!(told.finished, ends == 0 && sent == bytes.len() as u64);
        ends += u32::from(told.finished);
        let mut part = vec![0; 1 << 16];
        let count = theirs.read(&mut part).expect("it comes");
        came.extend(&part[..count]);
    }
    assert!(came == bytes && ends == 1);
    adds_up(&connection);
}
