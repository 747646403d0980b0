//! The echo server with fast, slow and dying clients on loopback.

#[path = "common/clients.rs"]
mod clients;
#[path = "../examples/echo.rs"]
mod echo;

use clients::{dies, echoes};
use limekeel::Marks;
use std::net::TcpListener;
use std::sync::atomic::{AtomicBool, Ordering};
use std::thread;

const FAST: u64 = 12_000_000;

/// More than the kernel keeps for both ends of a connection.
const SLOW: u64 = 32_000_000;

const MARKS: Marks = Marks { low: 32768, high: 65536 };

#[test]
fn no_client_fills_the_memory_or_stops_another() {
    let listener = TcpListener::bind("127.0.0.1:0").expect("it binds");
    let address = listener.local_addr().expect("it has one");
    let stop = AtomicBool::new(false);
    let seen = thread::scope(|scope| {
        let server = scope.spawn(|| echo::serve(&listener, MARKS, &stop).expect("it serves"));
        let mut clients = Vec::new();
        for seed in 0..4 {
            clients.push(scope.spawn(move || echoes(address, seed, FAST, false)));
        }
        for seed in 4..8 {
            clients.push(scope.spawn(move || echoes(address, seed, SLOW, true)));
        }
        for _ in 0..4 {
            clients.push(scope.spawn(move || dies(address)));
        }
        for client in clients {
            client.join().expect("each client ends well");
        }
        stop.store(true, Ordering::Release);
        server.join().expect("the server ends")
    });
    println!("{seen:?}");
    assert!(seen.echoed >= 4 * FAST + 4 * SLOW);
    assert!(seen.stops > 0, "slow clients stop the server");
    let most = MARKS.high + echo::CHUNK as u32 + 96;
    assert!(seen.peak <= most, "{} bytes were pending for one client", seen.peak);
}
