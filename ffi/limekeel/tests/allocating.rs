//! Where this crate allocates: a cancellation before it is in time, a write of what it is to own, a copy of few bytes and a
//! reservation before they are made, and nothing else. Counts, and may refuse, what is allocated by Rust on this thread; the
//! archive's own memory is that of the C library.

use limekeel::{Connection, Estimate, Marks, Outcome, Promise, Refusal};
use std::alloc::{GlobalAlloc, Layout, System};
use std::cell::Cell;
use std::io::Write;
use std::ptr::null_mut;

struct Counting;

thread_local! {
    static ASKED: Cell<u64> = const { Cell::new(0) };
    /// What this thread allocated less what it freed, in bytes.
    static LIVE: Cell<isize> = const { Cell::new(0) };
    static REFUSES: Cell<bool> = const { Cell::new(false) };
}

// SAFETY: each call is the system's, or refuses.
unsafe impl GlobalAlloc for Counting {
    unsafe fn alloc(&self, layout: Layout) -> *mut u8 {
        ASKED.set(ASKED.get() + 1);
        if REFUSES.get() {
            return null_mut();
        }
        LIVE.set(LIVE.get() + layout.size() as isize);
        unsafe { System.alloc(layout) }
    }

    unsafe fn dealloc(&self, at: *mut u8, layout: Layout) {
        LIVE.set(LIVE.get() - layout.size() as isize);
        unsafe { System.dealloc(at, layout) }
    }
}

#[global_allocator]
static HEAP: Counting = Counting;

/// What a call returns, and how often it asked for memory, each time in vain.
fn refused<A>(call: impl FnOnce() -> A) -> (A, u64) {
    let before = ASKED.get();
    REFUSES.set(true);
    let answer = call();
    REFUSES.set(false);
    (answer, ASKED.get() - before)
}

/// A connection with eight messages of one byte, of which the second and the sixth are cancelled.
fn with_cancelled() -> Connection {
    let mut connection = Connection::open(Marks::default(), Estimate::default()).expect("there is memory");
    for byte in 0..8 {
        let _ = connection.write(&[byte]).expect("it is accepted");
    }
    for id in [5, 1] {
        assert_eq!(connection.cancel(id), Ok(true));
    }
    connection
}

fn ids(settled: impl Iterator<Item = (u64, Outcome)>, wanted: Outcome) -> Vec<u64> {
    settled.inspect(|(_, outcome)| assert_eq!(*outcome, wanted)).map(|(id, _)| id).collect()
}

#[test]
fn a_refused_cancellation_changes_nothing() {
    let mut connection = with_cancelled();
    assert_eq!(refused(|| connection.cancel(3)), (Err(Refusal::NoMemory), 1));
    assert_eq!(connection.promise(3), Some(Promise::Waiting));
    assert_eq!(connection.cancel(3), Ok(true));
    assert_eq!(connection.promise(3), Some(Promise::Settled(Outcome::Cancelled)));
    // what is not in time takes no memory
    assert_eq!(refused(|| connection.cancel(3)), (Ok(false), 0));
    assert_eq!(refused(|| connection.cancel(8)), (Err(Refusal::UnknownPromise), 0));
    let taken = connection.close(9).expect("nothing is flushed");
    assert_eq!(ids(taken.settled(), Outcome::Failed(9)), [0, 2, 4, 6, 7]);
    assert_eq!(refused(|| connection.cancel(3)), (Err(Refusal::Closed), 0));
}

#[test]
fn a_sending_does_not_allocate() {
    let mut connection = with_cancelled();
    let (flushed, asked) = refused(|| connection.flush());
    assert_eq!((flushed.expect("it is open").count, asked), (8, 0));
    let mut room = [0; 4];
    let (sent, asked) = refused(|| connection.send_to(&mut &mut room[..]));
    let sent = sent.expect("it takes");
    // the second message is empty now, so the first four bytes are of the messages 0, 2, 3 and 4; the sixth is empty too
    assert_eq!((sent.bytes, asked, room), (4, 0, [0, 2, 3, 4]));
    assert_eq!(ids(sent.taken.settled(), Outcome::Success), [0, 2, 3, 4]);
    let (taken, asked) = refused(|| connection.take_sent(2));
    let taken = taken.expect("they wait");
    assert_eq!((asked, ids(taken.settled(), Outcome::Success)), (0, vec![6, 7]));
    assert!(connection.is_empty());
}

#[test]
fn a_removal_a_failing_and_a_close_do_not_allocate() {
    let mut connection = with_cancelled();
    let _ = connection.flush().expect("it is open");
    let (removed, asked) = refused(|| connection.remove());
    assert_eq!((removed.expect("it is open").settled, asked), (Some((0, Outcome::Success)), 0));
    let (removed, asked) = refused(|| connection.remove_with(3));
    assert_eq!((removed.expect("it is open").settled, asked), (None, 0));
    let (failed, asked) = refused(|| connection.fail_flushed(4, true));
    assert_eq!((ids(failed.expect("it is open").settled(), Outcome::Failed(4)), asked), (vec![2, 3, 4, 6, 7], 0));
    let written = connection.write(&[8]).expect("it is accepted");
    assert_eq!((written.id, connection.cancel(8)), (8, Ok(true)));
    let (closed, asked) = refused(|| connection.close(5));
    let closed = closed.expect("nothing is flushed");
    assert_eq!((closed.promises.clone(), asked, ids(closed.settled(), Outcome::Failed(5))), (8..9, 0, vec![]));
}

#[test]
fn giving_up_does_not_allocate() {
    let mut connection = with_cancelled();
    let _ = connection.flush().expect("it is open");
    for byte in 8..10 {
        let _ = connection.write(&[byte]).expect("it is accepted");
    }
    assert_eq!(connection.cancel(8), Ok(true));
    let (taken, asked) = refused(|| connection.give_up(6));
    let taken = taken.expect("it is open");
    assert_eq!((taken.promises.clone(), taken.count, taken.change, asked), (0..10, 10, None, 0));
    assert_eq!(ids(taken.settled(), Outcome::Failed(6)), [0, 2, 3, 4, 6, 7, 9]);
}

#[test]
fn copies_of_few_bytes_share_memory_and_keep_none_once_they_are_sent() {
    let mut connection = Connection::open(Marks::default(), Estimate::default()).expect("there is memory");
    let kept = LIVE.get();
    // without memory here the archive copies, in its own
    let (written, asked) = refused(|| connection.write(&[0; 64]));
    assert_eq!((written.expect("it is accepted").id, asked), (0, 1));
    let before = ASKED.get();
    for id in 1..1000 {
        assert_eq!(connection.write(&[id as u8; 64]).expect("it is accepted").id, id);
    }
    assert!(ASKED.get() - before < 20, "{} allocations", ASKED.get() - before);
    assert!(LIVE.get() - kept < 999 * 64 + 2 * 16384, "{} bytes", LIVE.get() - kept);
    let asked = ASKED.get();
    assert_eq!(connection.write(&[9; 2049]).expect("it is accepted").id, 1000);
    assert_eq!(ASKED.get(), asked, "many bytes are copied by the archive");
    let _ = connection.flush().expect("it is open");
    let mut came = Vec::new();
    while connection.send_to(&mut came).expect("it takes all").more {}
    let wanted: Vec<u8> = (0..1000).flat_map(|id| [id as u8; 64]).chain([9; 2049]).collect();
    assert!(came == wanted);
    drop((came, wanted));
    assert_eq!(LIVE.get(), kept, "what it keeps");
}

/// How often a call asks for memory.
fn asked_by(call: impl FnOnce()) -> u64 {
    let before = ASKED.get();
    call();
    ASKED.get() - before
}

/// Sends all that was written so far, which is this many bytes.
fn send_all(connection: &mut Connection, bytes: u64) {
    let _ = connection.flush().expect("it is open");
    let _ = connection.take_sent(bytes).expect("they wait");
    assert_eq!(connection.counts().waiting, 0);
}

#[test]
fn as_many_copies_as_before_take_memory_once() {
    let mut connection = Connection::open(Marks::default(), Estimate::default()).expect("there is memory");
    let kept = LIVE.get();
    // how often so many of this length ask for memory, what is held then, and what is kept of it
    let mut turn = |count: u64, length: usize| {
        let asked = asked_by(|| {
            for byte in 0..count {
                let _ = connection.write(&vec![byte as u8; length]).expect("it is accepted");
            }
        });
        let held = LIVE.get() - kept;
        send_all(&mut connection, count * length as u64);
        (asked - count, held, LIVE.get() - kept)
    };
    let first = turn(32, 64);
    assert!(first.0 > 1 && first.2 == 0);
    for again in [turn(32, 64), turn(36, 64)] {
        assert_eq!((again.0, again.2), (1, 0));
    }
    // one alone takes as much once
    let alone = turn(1, 64);
    assert_eq!((alone.0, alone.2), (1, 0));
    // and then no more than it needs, which it keeps
    let alone = turn(1, 64);
    assert_eq!(alone.0, 1);
    assert!((64..=128).contains(&alone.2));
    for _ in 0..1000 {
        assert_eq!(turn(1, 64), (0, alone.2, alone.2));
    }
    // those are no burst: a longer one takes what it needs
    let longer = turn(1, 200);
    assert_eq!((longer.0, longer.2), (1, 0));
    assert!(longer.1 < 300);
    // nor is one that fills what it asked for
    for _ in 0..3 {
        assert_eq!(turn(1, 1000), (1, 1000, 0));
    }
}

#[test]
fn a_chunk_that_was_kept_is_given_back() {
    let mut connection = Connection::open(Marks::default(), Estimate::default()).expect("there is memory");
    let opened = LIVE.get();
    let _ = connection.write(&[1; 100]).expect("it is accepted");
    send_all(&mut connection, 100);
    assert!(LIVE.get() > opened);
    connection.shrink_to_fit();
    assert_eq!(LIVE.get(), opened);
}

#[test]
fn as_many_owners_as_before_take_memory_once() {
    let mut connection = Connection::open(Marks::default(), Estimate::default()).expect("there is memory");
    let mut turn = |count: usize| {
        let lists = vec![vec![1; 300]; count];
        let asked = asked_by(|| {
            for list in lists {
                let _ = connection.write_owned(list).expect("it is accepted");
            }
        });
        send_all(&mut connection, count as u64 * 300);
        asked
    };
    assert!(turn(100) > 1);
    assert_eq!([turn(100), turn(1), turn(1)], [1, 1, 1]);
    // room for few stays
    assert_eq!([turn(1), turn(2)], [0, 0]);
}

#[test]
fn a_short_list_is_freed_by_its_write() {
    // by hand: the copy of 256 bytes alone, or the list and room for two owners
    for (length, left) in [(256, 256), (257, 257 + 2 * 48)] {
        let mut connection = Connection::open(Marks::default(), Estimate::default()).expect("there is memory");
        let before = LIVE.get();
        let _ = connection.write_owned(vec![1; length]).expect("it is accepted");
        assert_eq!(LIVE.get() - before, left);
    }
}

#[test]
fn a_copy_is_refused_as_the_archive_refuses_it() {
    let mut connection = Connection::open(Marks::default(), Estimate::default()).expect("there is memory");
    let kept = LIVE.get();
    let _ = connection.close(1).expect("nothing is flushed");
    assert_eq!(connection.write(&[1; 64]), Err(Refusal::Closed));
    assert_eq!(refused(|| connection.write(&[1; 64])), (Err(Refusal::Closed), 1));
    assert_eq!((LIVE.get(), connection.counts().waiting), (kept, 0));
}

#[test]
fn a_write_that_is_refused_memory_gives_its_owner_back() {
    let mut connection = Connection::open(Marks::default(), Estimate::default()).expect("there is memory");
    let mut owner = [3; 100];
    // room for a pointer to it, and then memory to keep it in
    for id in 0..2 {
        let (answer, asked) = refused(|| connection.write_owned(owner));
        let answer = answer.expect_err("it is refused");
        assert_eq!((answer.refusal, asked, connection.look().total), (Refusal::NoMemory, 1, 0));
        owner = answer.owner;
        assert_eq!(connection.write_owned([]).expect("it is accepted").id, id);
        let _ = connection.flush().expect("it is open");
        let _ = connection.take_sent(0).expect("it waits");
    }
    assert_eq!((owner, connection.write_owned(owner).expect("it is accepted").id), ([3; 100], 2));
    // a list is kept where there is room already
    let list = vec![4; 300];
    let (answer, asked) = refused(|| connection.write_owned(list));
    assert_eq!((answer.expect("it is accepted").id, asked), (3, 0));
    // and so is a short one, for whose copy there is none
    send_all(&mut connection, 400);
    let list = vec![4; 256];
    let (answer, asked) = refused(|| connection.write_owned(list));
    assert_eq!((answer.expect("it is accepted").id, asked), (4, 1));
    let _ = connection.close(1).expect("nothing is flushed");
    for length in [256, 257] {
        let answer = connection.write_owned(vec![5; length]).expect_err("it is closed");
        assert_eq!((answer.refusal, answer.owner), (Refusal::Closed, vec![5; length]));
    }
}

#[test]
fn a_refused_reservation_changes_nothing() {
    let mut connection = Connection::open(Marks::default(), Estimate::default()).expect("there is memory");
    assert_eq!(refused(|| connection.reserve(10).err()), (Some(Refusal::NoMemory), 1));
    assert_eq!(connection.reserve(usize::MAX).err(), Some(Refusal::NoMemory));
    let mut room = connection.reserve(10).expect("there is memory");
    room.write_all(b"first").expect("it has room");
    assert_eq!(room.write_message().expect("it is accepted").id, 0);
    let (answer, asked) = refused(|| connection.reserve(5).map(|room| room.left()));
    assert_eq!((answer, asked), (Ok(5), 0));
    assert_eq!(refused(|| connection.reserve(6).err()), (Some(Refusal::NoMemory), 1));
    let mut room = connection.reserve(6).expect("there is memory");
    room.write_all(b"second").expect("it has room");
    assert_eq!(room.write_message().expect("it is accepted").id, 1);
    let _ = connection.flush().expect("it is open");
    let mut socket = [0; 11];
    let (sent, asked) = refused(|| connection.send_until_blocked(&mut &mut socket[..], 9));
    assert_eq!((sent.expect("it is open").bytes, asked, &socket), (11, 0, b"firstsecond"));
}

/// Bytes of this thread's that are live.
fn live() -> isize {
    LIVE.get()
}

#[test]
fn a_refused_message_leaves_nothing() {
    let mut connection = Connection::open(Marks::default(), Estimate::default()).expect("there is memory");
    let _ = connection.close(1).expect("nothing is flushed");
    let before = live();
    for _ in 0..100 {
        let mut room = connection.reserve(50).expect("there is memory");
        room.write_all(&[1; 40]).expect("it has room");
        assert_eq!(room.write_message(), Err(Refusal::Closed));
        assert_eq!(live(), before);
    }
}

#[test]
fn what_was_lent_leaves_little() {
    let before = live();
    let mut connection = Connection::open(Marks::default(), Estimate::default()).expect("there is memory");
    for number in 0..1000u32 {
        let _ = connection.write_owned(vec![1; 1000]).expect("it is accepted");
        let mut room = connection.reserve(100).expect("there is memory");
        write!(room, "{number}").expect("it has room");
        let _ = room.write_message().expect("it is accepted");
    }
    assert!(live() - before > 1_000_000);
    let _ = connection.flush().expect("it is open");
    let mut socket = Vec::with_capacity(2_000_000);
    while connection.send_to(&mut socket).expect("it takes").more {}
    drop(socket);
    assert_eq!(live(), before, "nothing is left of a thousand");
    // as many may come again, and if not there is room for two, of 48 bytes each
    for left in [0, 2 * 48] {
        let _ = connection.write_owned(vec![1; 1000]).expect("it is accepted");
        let _ = connection.flush().expect("it is open");
        let _ = connection.take_sent(1000).expect("it waits");
        assert_eq!(live() - before, left);
    }
    connection.shrink_to_fit();
    assert_eq!(live(), before);
}
