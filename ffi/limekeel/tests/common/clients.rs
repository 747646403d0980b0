//! Clients of an echo server on loopback, which compare every byte.

use std::io::{Read, Write};
use std::net::{Shutdown, SocketAddr, TcpStream};
use std::sync::Arc;
use std::sync::atomic::{AtomicU64, Ordering};
use std::thread;
use std::time::Duration;

fn byte_at(seed: u64, place: u64) -> u8 {
    (place.wrapping_mul(2654435761).wrapping_add(seed) >> 7) as u8
}

/// Waits until no more is sent, since the server reads no more.
fn wait_for_a_stop(sent: &AtomicU64) {
    let mut before = 0;
    loop {
        thread::sleep(Duration::from_secs(1));
        let now = sent.load(Ordering::Relaxed);
        if now == before && now > 0 {
            return;
        }
        before = now;
    }
}

/// Sends `count` bytes from one thread, and reads them in another: at once, or once the server has stopped reading.
pub fn echoes(address: SocketAddr, seed: u64, count: u64, slow: bool) {
    let socket = TcpStream::connect(address).expect("it connects");
    let mut sender = socket.try_clone().expect("it clones");
    let sent = Arc::new(AtomicU64::new(0));
    let counted = Arc::clone(&sent);
    let sends = thread::spawn(move || {
        let mut place = 0;
        while place < count {
            let until = (place + 30_011).min(count);
            let bytes: Vec<u8> = (place..until).map(|at| byte_at(seed, at)).collect();
            sender.write_all(&bytes).expect("the server takes it");
            place = until;
            counted.store(place, Ordering::Relaxed);
        }
        sender.shutdown(Shutdown::Write).expect("it ends");
    });
    let (mut reader, mut place, mut bytes) = (socket, 0, [0; 8192]);
    if slow {
        wait_for_a_stop(&sent);
    }
    loop {
        let read = reader.read(&mut bytes).expect("the server answers");
        if read == 0 {
            break;
        }
        for byte in &bytes[..read] {
            assert_eq!(*byte, byte_at(seed, place), "byte {place} of client {seed}");
            place += 1;
        }
    }
    assert_eq!(place, count, "each byte of client {seed} came back");
    sends.join().expect("the sender ends");
}

/// Sends a lot, reads nothing and goes away.
pub fn dies(address: SocketAddr) {
    let mut socket = TcpStream::connect(address).expect("it connects");
    socket.set_write_timeout(Some(Duration::from_millis(200))).expect("it can be set");
    for _ in 0..64 {
        if socket.write_all(&[7; 65536]).is_err() {
            break;
        }
    }
}
