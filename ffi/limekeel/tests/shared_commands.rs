//! The commands of a connection that threads share, each once, beside those that wait.

use limekeel::{
    Block, Change, Current, Ending, Estimate, Marks, Outcome, Promise, Refusal, SharedConnection, Transport,
};
use std::sync::Arc;
use std::sync::atomic::{AtomicUsize, Ordering};

fn open(low: u32, high: u32) -> (SharedConnection, Transport) {
    SharedConnection::open(Marks { low, high }, Estimate { overhead: 96, unknown: 8 }).expect("there is memory")
}

/// All bytes that the transport sends.
fn sent(transport: &mut Transport) -> Vec<u8> {
    let mut socket = Vec::new();
    let _ = transport.send_until_blocked(&mut socket, 100).expect("it is open");
    socket
}

#[test]
fn a_write_is_flushed_behind_it() {
    let (connection, mut transport) = open(3000, 3300);
    let many = vec![7; 3000];
    let block = Block::new(b"block").expect("there is memory");
    let _ = connection.write(b"first ").expect("it is open");
    let few = connection.write_and_flush(b"few ").expect("it is open");
    assert_eq!((few.written.id, few.written.change, few.flushed.count, few.flushed.change), (1, None, 2, None));
    let more = connection.write_and_flush(&many).expect("it is open");
    assert_eq!((more.written.id, more.written.change, more.flushed.count), (2, None, 1));
    let last = connection.write_block_and_flush(&block).expect("it is open");
    assert_eq!((last.written.id, last.written.change, last.flushed.count), (3, Some(Change::Unwritable), 1));
    assert_eq!(sent(&mut transport), [b"first few ", &many[..], b"block"].concat());
    assert!(connection.is_writable());
    let _ = transport.give_up(1).expect("it is open");
    assert_eq!(connection.write_and_flush(b"late"), Err(Refusal::Closed));
    assert_eq!(connection.write_and_flush(&many), Err(Refusal::Closed));
    assert_eq!(connection.write_block_and_flush(&block), Err(Refusal::Closed));
}

#[test]
fn the_flush_behind_a_write_leaves_out_what_was_taken_back() {
    let (connection, mut transport) = open(200, 400);
    let _ = connection.write(&[0; 300]).expect("it is open");
    assert_eq!(connection.cancel(0), Ok(true));
    let done = connection.write_and_flush(b"sent").expect("it is open");
    assert_eq!((done.written.change, done.flushed.change), (Some(Change::Unwritable), Some(Change::Writable)));
    assert_eq!(done.flushed.count, 2);
    assert_eq!(sent(&mut transport), b"sent");
}

#[test]
fn bits_marks_and_promises_are_those_of_a_connection() {
    let (connection, _transport) = open(200, 400);
    assert_eq!(connection.user_bit(5, false), Ok(Some(Change::Unwritable)));
    assert_eq!(connection.glance().word, 32);
    assert_eq!(connection.user_bit(5, true), Ok(Some(Change::Writable)));
    assert_eq!(connection.user_bit(0, true), Err(Refusal::BadIndex));
    assert_eq!(connection.set_marks(Marks { low: 2, high: 1 }), Err(Refusal::BadMarks));
    assert_eq!(connection.set_marks(Marks { low: 1, high: 2 }), Ok(()));
    assert_eq!(connection.write_other(3).expect("it is open").change, Some(Change::Unwritable));
    assert_eq!((connection.promise(0), connection.promise(1)), (Some(Promise::Waiting), None));
    assert_eq!(connection.cancel(0), Ok(true));
    assert_eq!(connection.promise(0), Some(Promise::Settled(Outcome::Cancelled)));
}

#[test]
fn a_region_is_sent_by_who_has_the_transport() {
    let (connection, mut transport) = open(2000, 4000);
    assert_eq!((transport.current(), transport.progress(1)), (None, Err(Refusal::NothingFlushed)));
    assert!(!transport.remove().expect("it is open").any);
    let _ = connection.write(b"head").expect("it is open");
    assert_eq!(connection.write_region(1000).expect("it is open").id, 1);
    assert_eq!(connection.write_region(u64::MAX), Err(Refusal::Oversize));
    let _ = connection.write_other(77).expect("it is open");
    let _ = connection.write_and_flush(b"tail").expect("it is open");
    let mut socket = Vec::new();
    for _ in 0..2 {
        let sent = transport.send_until_blocked(&mut socket, 9).expect("it is open");
        assert!(matches!(sent.ending, Ending::OtherInFront));
        assert_eq!((&socket[..], transport.current()), (&b"head"[..], Some(Current::Region(1000))));
    }
    assert!(transport.send_to(&mut socket).expect("nothing is asked").more);
    assert_eq!(transport.progress(400), Ok(()));
    assert_eq!(transport.current(), Some(Current::Region(600)));
    assert_eq!(transport.remove().expect("it is open").settled, Some((1, Outcome::Success)));
    assert_eq!(transport.current(), Some(Current::Other(77)));
    assert_eq!(transport.remove_with(6).expect("it is open").settled, Some((2, Outcome::Failed(6))));
    let end = transport.send_until_blocked(&mut socket, 9).expect("it is open");
    assert!(matches!(end.ending, Ending::Drained));
    assert_eq!((&socket[..], end.taken.promises), (&b"headtail"[..], 3..4));
}

#[test]
fn empty_messages_are_no_end_before_the_last_is_gone() {
    let (connection, mut transport) =
        SharedConnection::open(Marks::default(), Estimate { overhead: 0, unknown: 0 }).expect("there is memory");
    for _ in 0..3 {
        let _ = connection.write_and_flush(b"").expect("it is open");
    }
    assert_eq!((connection.glance().total, connection.look().size), (0, 3));
    let _ = connection.write_region(5).expect("it is open");
    let _ = connection.write_and_flush(b"").expect("it is open");
    let first = transport.send_until_blocked(&mut std::io::sink(), 1).expect("it is open");
    assert_eq!(first.taken.count, 3);
    assert!(matches!(first.ending, Ending::OtherInFront));
    assert!(transport.remove().expect("it is open").any);
    let last = transport.send_until_blocked(&mut std::io::sink(), 1).expect("it is open");
    assert_eq!(last.taken.count, 1);
    assert!(matches!(last.ending, Ending::Drained));
}

/// Bytes that count how often they are dropped.
struct Counted(Arc<AtomicUsize>);

impl AsRef<[u8]> for Counted {
    fn as_ref(&self) -> &[u8] {
        b"lent"
    }
}

impl Drop for Counted {
    fn drop(&mut self) {
        self.0.fetch_add(1, Ordering::SeqCst);
    }
}

#[test]
fn what_is_removed_lets_its_owner_go_and_is_settled_once() {
    let dropped = Arc::new(AtomicUsize::new(0));
    let count = || dropped.load(Ordering::SeqCst);
    let (connection, mut transport) = open(10_000, 20_000);
    for _ in 0..6 {
        let _ = connection.write_owned(Counted(Arc::clone(&dropped))).expect("it is open");
    }
    assert_eq!((connection.cancel(1), connection.cancel(4)), (Ok(true), Ok(true)));
    assert_eq!(connection.flush().expect("it is open").count, 6);
    assert_eq!(transport.take_sent(4).expect("it is in front").count, 2);
    assert_eq!(count(), 2);
    assert_eq!(transport.remove().expect("it is open").settled, Some((2, Outcome::Success)));
    assert_eq!(count(), 3);
    // the role goes on where it was
    drop(transport);
    let mut transport = connection.transport().expect("it was dropped");
    assert_eq!(transport.remove_with(3).expect("it is open").settled, Some((3, Outcome::Failed(3))));
    assert_eq!(count(), 4);
    let removed = transport.remove().expect("it is open");
    assert_eq!((removed.any, removed.settled, count()), (true, None, 5));
    let _ = connection.write_and_flush(b"last").expect("it is open");
    let failed = transport.fail_flushed(8, true).expect("it is open");
    assert_eq!((failed.promises.clone(), failed.outcome, count()), (5..7, Outcome::Failed(8), 6));
    assert_eq!(failed.settled().map(|(id, _)| id).collect::<Vec<_>>(), [5, 6]);
    let _ = connection.write_and_flush(b"later").expect("it is open");
    assert_eq!(transport.remove().expect("it is open").settled, Some((7, Outcome::Success)));
}
