//! A block, its second ones, and threads.

use limekeel::{Block, Connection, Estimate, Marks};
use std::collections::HashMap;
use std::thread;

fn is_shared_by_threads<T: Send + Sync + Clone + Eq>() {}

/// What is written and flushed, as a socket gets it.
fn sent(connection: &mut Connection) -> Vec<u8> {
    let _ = connection.flush().expect("it is open");
    let mut socket = Vec::new();
    while connection.send_to(&mut socket).expect("it takes all").more {}
    socket
}

fn connection() -> Connection {
    Connection::open(Marks::default(), Estimate::default()).expect("there is memory")
}

#[test]
fn it_is_read_and_compared_as_its_bytes() {
    is_shared_by_threads::<Block>();
    let block = Block::new(b"one\n").expect("there is memory");
    let second = block.clone();
    assert_eq!(block.as_ptr(), second.as_ptr());
    assert_eq!((&block[..], block.len(), block.first()), (&b"one\n"[..], 4, Some(&b'o')));
    assert_eq!(format!("{block:?}"), "b\"one\\n\"");
    assert_eq!(block, Block::from("one\n"));
    assert_ne!(block, Block::from("two\n"));
    assert!(block < Block::from("two"));
    assert!(Block::from("").is_empty());
    let known: HashMap<Block, u32> = [(block, 1)].into();
    assert_eq!(known.get(&b"one\n"[..]), Some(&1));
}

#[test]
fn its_bytes_live_as_long_as_any_of_its_owners() {
    let block = Block::new(&[7; 10_000]).expect("there is memory");
    let at = block.as_ptr();
    let second = block.try_clone().expect("there is memory");
    drop(block);
    let mut connection = connection();
    let _ = connection.write_block(&second).expect("it is accepted");
    drop(second);
    let _ = connection.flush().expect("it is open");
    assert_eq!(connection.pieces::<1>(u32::MAX)[0].as_ptr(), at);
    assert_eq!(sent(&mut connection), [7; 10_000]);
}

#[test]
fn threads_write_one_block_at_once() {
    let block = Block::new(b"to all").expect("there is memory");
    thread::scope(|scope| {
        for _ in 0..4 {
            scope.spawn(|| {
                for turn in 0..2_000 {
                    let mut connection = connection();
                    let own = (turn % 3 == 0).then(|| block.clone());
                    for _ in 0..10 {
                        let _ = connection.write_block(own.as_ref().unwrap_or(&block)).expect("it is accepted");
                    }
                    assert_eq!(sent(&mut connection), b"to all".repeat(10));
                }
            });
        }
    });
    assert_eq!(&*block, b"to all");
}
