//! The echo server on several threads, whose clients go from thread to thread, with fast, slow and dying clients on loopback.

#[path = "common/clients.rs"]
mod clients;
#[path = "../examples/echo_threads.rs"]
mod echo_threads;

use clients::{dies, echoes};
use limekeel::Marks;
use std::net::TcpListener;
use std::sync::atomic::{AtomicBool, Ordering};
use std::thread;

const FAST: u64 = 4_000_000;

/// More than the kernel keeps for both ends of a connection.
const SLOW: u64 = 16_000_000;

const MARKS: Marks = Marks { low: 32768, high: 65536 };

/// Serves eleven clients, each of which compares every byte, and returns how often one went to another worker.
fn serves(workers: usize) -> u64 {
    let listener = TcpListener::bind("127.0.0.1:0").expect("it binds");
    let address = listener.local_addr().expect("it has one");
    let stop = AtomicBool::new(false);
    let seen = thread::scope(|scope| {
        let server = scope.spawn(|| echo_threads::serve(&listener, MARKS, workers, &stop).expect("it serves"));
        let mut clients = Vec::new();
        for seed in 0..6 {
            clients.push(scope.spawn(move || echoes(address, seed, FAST, false)));
        }
        for seed in 6..8 {
            clients.push(scope.spawn(move || echoes(address, seed, SLOW, true)));
        }
        for _ in 0..3 {
            clients.push(scope.spawn(move || dies(address)));
        }
        for client in clients {
            client.join().expect("each client ends well");
        }
        stop.store(true, Ordering::Release);
        server.join().expect("the server ends")
    });
    println!("{workers} workers: {seen:?}");
    assert!(seen.echoed.into_inner() >= 6 * FAST + 2 * SLOW);
    assert!(seen.stops.into_inner() > 0, "slow clients stop the server");
    let (peak, most) = (seen.peak.into_inner(), MARKS.high + echo_threads::CHUNK as u32 + 96);
    assert!(peak <= most, "{peak} bytes were pending for one client");
    seen.moves.into_inner()
}

#[test]
fn one_thread_serves_all_clients() {
    assert_eq!(serves(1), 0);
}

#[test]
fn clients_go_between_two_threads() {
    assert!(serves(2) > 100);
}

#[test]
fn clients_go_between_four_threads() {
    assert!(serves(4) > 100);
}
