//! What `send_to` makes of writers: of those that take a part, and of those that break the rules of a writer.

use limekeel::{Connection, Estimate, Marks, Outcome};
use std::collections::VecDeque;
use std::io::{self, ErrorKind, Read, Write};
use std::os::unix::net::UnixStream;

/// A writer that does the next of its steps at each write, and keeps what it took.
#[derive(Default)]
struct Scripted {
    steps: VecDeque<Step>,
    offered: Vec<usize>,
    took: Vec<u8>,
}

enum Step {
    /// Takes at most so many of the bytes it is given.
    Takes(usize),
    /// Says that it took this many, and takes nothing.
    Claims(usize),
    Fails(ErrorKind),
}

impl Write for Scripted {
    fn write(&mut self, _: &[u8]) -> io::Result<usize> {
        unreachable!("a vectored write is asked for")
    }

    fn write_vectored(&mut self, pieces: &[io::IoSlice<'_>]) -> io::Result<usize> {
        let given: Vec<u8> = pieces.iter().flat_map(|piece| piece.iter().copied()).collect();
        self.offered.push(given.len());
        match self.steps.pop_front().expect("a step for each write") {
            Step::Takes(most) => {
                let count = most.min(given.len());
                self.took.extend(&given[..count]);
                Ok(count)
            }
            Step::Claims(count) => Ok(count),
            Step::Fails(kind) => Err(kind.into()),
        }
    }

    fn flush(&mut self) -> io::Result<()> {
        Ok(())
    }
}

fn writer(steps: impl IntoIterator<Item = Step>) -> Scripted {
    Scripted { steps: steps.into_iter().collect(), ..Scripted::default() }
}

/// A connection in which `count` messages of one byte are flushed, which count up from 0.
fn with_bytes(count: u8) -> Connection {
    let mut connection = Connection::open(Marks::default(), Estimate::default()).expect("there is memory");
    for byte in 0..count {
        let _ = connection.write(&[byte]).expect("it is accepted");
    }
    let _ = connection.flush().expect("it is open");
    connection
}

/// Whether nothing of the messages was taken away.
fn is_as_it_was(connection: &Connection, count: u64) -> bool {
    let look = connection.look();
    look.size == count && look.total == 97 * count as u32 && connection.front() == (count > 0).then_some(0)
}

#[test]
fn what_a_writer_took_is_gone_and_no_more() {
    let mut connection = with_bytes(100);
    let mut socket = writer([Step::Takes(7), Step::Takes(1000)]);
    let sent = connection.send_to(&mut socket).expect("it takes");
    assert_eq!((sent.bytes, sent.blocked, sent.more), (7, false, true));
    assert_eq!(sent.taken.settled().collect::<Vec<_>>(), (0..7).map(|id| (id, Outcome::Success)).collect::<Vec<_>>());
    assert_eq!(connection.send_to(&mut socket).expect("it takes").bytes, 93);
    assert_eq!(socket.offered, [100, 93]);
    assert_eq!(socket.took, (0..100).collect::<Vec<u8>>());
    assert!(is_as_it_was(&connection, 0));
}

#[test]
fn two_thousand_messages_come_over_a_socket_in_two_calls() {
    let (mut socket, mut peer) = UnixStream::pair().expect("there are sockets");
    let mut connection = Connection::open(Marks::default(), Estimate::default()).expect("there is memory");
    // message n is the number n, and one more byte if n is odd, so that no two pieces beside each other are alike
    let messages: Vec<Vec<u8>> =
        (0..2060u16).map(|number| [&number.to_le_bytes()[..], &[9][..usize::from(number % 2)]].concat()).collect();
    for message in &messages {
        let _ = connection.write(message).expect("it is accepted");
    }
    let _ = connection.flush().expect("it is open");
    let pieces = connection.pieces::<70>(u32::MAX);
    assert!(pieces.iter().map(|piece| &piece[..]).eq(messages[..70].iter().map(|message| &message[..])));
    for (count, bytes) in [(2048, 5120), (12, 30)] {
        let sent = connection.send_to(&mut socket).expect("it takes");
        assert_eq!((sent.taken.count, sent.bytes), (count, bytes));
    }
    drop(socket);
    let mut came = Vec::new();
    peer.read_to_end(&mut came).expect("it reads");
    assert_eq!(came, messages.concat());
}

#[test]
fn small_copies_go_as_few_pieces() {
    let mut connection = Connection::open(Marks::default(), Estimate::default()).expect("there is memory");
    for number in 0..400 {
        let _ = connection.write(&[number as u8; 100]).expect("it is accepted");
    }
    let _ = connection.flush().expect("it is open");
    let mut lengths = Vec::new();
    let sent = connection.send_with(|pieces| {
        lengths = pieces.iter().map(|piece| piece.len()).collect();
        Ok(lengths.iter().sum())
    });
    assert_eq!(sent.expect("it takes").bytes, 40_000);
    // the first four have memory of their own, and the others share chunks of 1, 2, 4, 8, 16 and 16 KiB
    assert!(lengths.len() <= 4 + 6, "{lengths:?}");
}

#[test]
fn messages_that_lie_apart_go_as_a_thousand_pieces() {
    static BYTES: [u8; 4200] = [7; 4200];
    let mut connection = Connection::open(Marks::default(), Estimate::default()).expect("there is memory");
    for each in BYTES.chunks_exact(2).chain(BYTES.chunks_exact(2)) {
        let _ = connection.write_static(&each[..1]).expect("it is accepted");
    }
    let _ = connection.flush().expect("it is open");
    let mut offered = Vec::new();
    for _ in 0..2 {
        let sent = connection.send_with(|pieces| {
            offered.push(pieces.len());
            Ok(pieces.len())
        });
        assert_eq!(sent.expect("it takes").taken.count, 1024);
    }
    assert_eq!(offered, [1024, 1024]);
    let mut socket = Vec::new();
    let sent = connection.send_until_blocked(&mut socket, 16).expect("it is open");
    assert_eq!((sent.bytes, socket.len(), sent.taken.promises), (2152, 2152, 2048..4200));
}

#[test]
fn parts_are_one_message() {
    let mut connection = with_bytes(0);
    let bytes: Vec<u8> = (0..100).collect();
    // part n has n bytes, and some have none
    for count in [0, 1, 2, 13] {
        let mut parts = Vec::new();
        let mut wanted = Vec::new();
        for length in 0..count {
            parts.push(io::IoSlice::new(&bytes[length..2 * length]));
            wanted.extend_from_slice(&bytes[length..2 * length]);
        }
        let written = connection.write_parts(&parts).expect("it is accepted");
        assert_eq!(connection.look().total, wanted.len() as u32 + 96);
        let _ = connection.flush().expect("it is open");
        let mut socket = writer([Step::Takes(1000)]);
        let sent = connection.send_to(&mut socket).expect("it takes");
        assert_eq!((sent.taken.promises, socket.took), (written.id..written.id + 1, wanted));
    }
}

#[test]
fn a_writer_is_not_believed_past_what_it_was_offered() {
    let mut connection = with_bytes(100);
    let error = connection.send_to(&mut writer([Step::Claims(101)])).expect_err("100 were offered");
    assert_eq!(error.kind(), ErrorKind::InvalidData);
    assert!(is_as_it_was(&connection, 100));
}

#[test]
fn a_writer_that_takes_nothing_is_an_error() {
    let mut connection = with_bytes(3);
    let error = connection.send_to(&mut &mut [0u8; 0][..]).expect_err("a full slice takes nothing");
    assert_eq!(error.kind(), ErrorKind::WriteZero);
    assert!(is_as_it_was(&connection, 3));
}

#[test]
fn a_writer_without_room_is_no_error_and_one_interrupted_is_asked_again() {
    let mut connection = with_bytes(3);
    let sent = connection.send_to(&mut writer([Step::Fails(ErrorKind::WouldBlock)])).expect("no error");
    assert_eq!((sent.bytes, sent.blocked, sent.more), (0, true, true));
    let steps = [Step::Fails(ErrorKind::Interrupted), Step::Takes(2)];
    assert_eq!(connection.send_to(&mut writer(steps)).expect("it takes").bytes, 2);
    let error = connection.send_to(&mut writer([Step::Fails(ErrorKind::ConnectionReset)])).expect_err("it is broken");
    assert_eq!(error.kind(), ErrorKind::ConnectionReset);
    assert_eq!(connection.look().size, 1);
}

#[test]
fn nothing_to_offer_asks_nobody_and_takes_empty_messages_away() {
    let mut connection = with_bytes(0);
    let _ = connection.write(&[]).expect("it is accepted");
    let _ = connection.flush().expect("it is open");
    let writer: &mut dyn Write = &mut writer([]);
    let sent = connection.send_to(writer).expect("nobody was asked");
    assert_eq!((sent.bytes, sent.taken.count, sent.more), (0, 1, false));
}

#[test]
fn a_closed_connection_sends_nothing() {
    let mut connection = with_bytes(0);
    let _ = connection.close(1).expect("nothing is flushed");
    let error = connection.send_to(&mut writer([])).expect_err("it is closed");
    assert_eq!(error.kind(), ErrorKind::BrokenPipe);
}
