//! With the feature `global-allocator` all memory is that of Rust's global allocator.

use limekeel::{Block, Connection, Estimate, Marks, Refusal, SharedConnection};
use std::alloc::{GlobalAlloc, Layout, System};
use std::cell::Cell;
use std::ptr::null_mut;

struct Counting;

thread_local! {
    /// What this thread allocated less what it freed, in bytes: a thread also frees what another allocated for it, as its start.
    static LIVE: Cell<isize> = const { Cell::new(0) };
    static REFUSES: Cell<bool> = const { Cell::new(false) };
}

// SAFETY: each call is the system's, or refuses.
unsafe impl GlobalAlloc for Counting {
    unsafe fn alloc(&self, layout: Layout) -> *mut u8 {
        if REFUSES.get() {
            return null_mut();
        }
        LIVE.set(LIVE.get() + layout.size() as isize);
        unsafe { System.alloc(layout) }
    }

    unsafe fn dealloc(&self, at: *mut u8, layout: Layout) {
        LIVE.set(LIVE.get() - layout.size() as isize);
        unsafe { System.dealloc(at, layout) }
    }
}

#[global_allocator]
static HEAP: Counting = Counting;

#[test]
fn each_block_is_counted_and_comes_back() {
    let before = LIVE.get();
    let mut connection = Connection::open(Marks::default(), Estimate::default()).expect("there is memory");
    let opened = LIVE.get() - before;
    assert!((208..=208 + 16).contains(&opened), "{opened}");
    let block = Block::new(&[1; 1000]).expect("there is memory");
    assert!(LIVE.get() - before > 1000);
    for _ in 0..100 {
        let _ = connection.write(&[2; 1000]).expect("it is accepted");
        let _ = connection.write_block(&block).expect("it is accepted");
    }
    assert!(LIVE.get() - before > 100_000);
    REFUSES.set(true);
    // longer than what shares memory with the messages before it
    let refused = (connection.write(&[3; 5000]), Block::new(b"no"), block.try_clone());
    REFUSES.set(false);
    assert!(matches!(refused, (Err(Refusal::NoMemory), Err(Refusal::NoMemory), Err(Refusal::NoMemory))));
    let _ = connection.flush().expect("it is open");
    let mut sent = Vec::with_capacity(200_000);
    while connection.send_to(&mut sent).expect("it takes all").more {}
    assert_eq!(
        sent,
        [[1; 1000], [2; 1000]].map(Vec::from).iter().rev().cycle().take(200).flatten().copied().collect::<Vec<u8>>()
    );
    drop((sent, block));
    connection.shrink_to_fit();
    assert_eq!(LIVE.get() - before, opened);
    drop(connection);
    assert_eq!(LIVE.get(), before);
}

/// What a call returns if no memory is given.
fn without_memory<A>(call: impl FnOnce() -> A) -> A {
    REFUSES.set(true);
    let answer = call();
    REFUSES.set(false);
    answer
}

#[test]
fn a_shared_connection_is_counted_and_comes_back() {
    let before = LIVE.get();
    let (connection, mut transport) =
        SharedConnection::open(Marks::default(), Estimate::default()).expect("there is memory");
    let opened = LIVE.get() - before;
    let second = connection.clone();
    let handle = LIVE.get() - before - opened;
    assert!((744..=808).contains(&opened) && handle <= 8 + 16, "{opened} {handle}");
    for id in (0..100).step_by(2) {
        assert_eq!(second.write(&[2; 100]).expect("it is accepted").id, id);
        assert_eq!(connection.write_owned([3; 50]).expect("it is accepted").id, id + 1);
    }
    assert_eq!(second.cancel(99), Ok(true));
    let kept = LIVE.get();
    without_memory(|| {
        assert_eq!(second.write(&[4; 5000]), Err(Refusal::NoMemory));
        assert_eq!(second.write_owned([5; 50]).map_err(|refused| refused.refusal), Err(Refusal::NoMemory));
        assert_eq!(second.cancel(98), Err(Refusal::NoMemory));
        assert!(matches!(second.try_clone(), Err(Refusal::NoMemory)));
        assert!(matches!(transport.connection(), Err(Refusal::NoMemory)));
        // these take none
        assert_eq!(connection.flush().expect("it is open").count, 100);
        assert_eq!((connection.look().size, connection.is_writable()), (100, true));
        let refused = transport.send_with(|_| unreachable!("there is no list to offer")).expect_err("no memory");
        assert_eq!(refused.kind(), std::io::ErrorKind::OutOfMemory);
        assert_eq!(transport.take_sent(150).expect("they wait").count, 2);
    });
    assert!(LIVE.get() < kept);
    let sent = transport.send_until_blocked(&mut std::io::sink(), 9).expect("it is open");
    // the last was cancelled, and holds no byte
    assert_eq!((sent.bytes, sent.taken.count), (48 * 150 + 100 + 50 - 50, 98));
    // which knows what was cancelled
    drop((sent, second));
    drop((connection, transport));
    assert_eq!(LIVE.get(), before);
}
