//! A connection keeps nothing of what is gone.

use limekeel::{Connection, Estimate, Marks};
use std::fs;

const WRITES: u64 = 5_000_000;

/// The memory of this process, in bytes.
fn resident() -> u64 {
    let status = fs::read_to_string("/proc/self/status").expect("Linux has it");
    let line = status.lines().find(|line| line.starts_with("VmRSS:")).expect("it says so");
    let kib: u64 = line.split_whitespace().nth(1).expect("a number").parse().expect("a number");
    kib * 1024
}

#[test]
fn five_million_writes_take_no_more_memory_than_the_first() {
    let mut connection = Connection::open(Marks::default(), Estimate::default()).expect("it opens");
    let (mut settled, mut before) = (0, 0);
    for id in 0..WRITES {
        if id == 100_000 {
            before = resident();
        }
        let written = connection.write(&[1; 64]).expect("it is accepted");
        assert_eq!(written.id, id);
        let _ = connection.flush().expect("it is open");
        if id % 100 == 99 {
            let taken = connection.take_sent(100 * 64).expect("they wait");
            settled += taken.settled().count() as u64;
        }
    }
    assert_eq!(settled, WRITES);
    let grown = resident().saturating_sub(before);
    assert!(grown < 1024 * 1024, "{grown} bytes more after {WRITES} writes");
}
