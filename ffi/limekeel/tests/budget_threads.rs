//! The server with a thread for each client within a budget, with clients that take what they ask for and some that take nothing.

#[path = "../examples/budget_threads.rs"]
mod budget_threads;

use budget_threads::{Options, Seen, answer, open, serve};
use limekeel::{Budget, BudgetedConnection, Estimate, Marks, Pressure};
use std::io::{Read, Write};
use std::net::{SocketAddr, TcpListener, TcpStream};
use std::sync::atomic::{AtomicBool, AtomicU64, Ordering};
use std::thread;
use std::time::{Duration, Instant};

const ROOM: u64 = 8_000_000;
/// How long one may take nothing that is to be given up.
const PATIENCE: Duration = Duration::from_millis(500);
/// Six of these are above the mark of pressure, and eight above the room.
const LARGE: usize = 1_040_000;

/// What takes longer sleeps for ever.
const LONG: Duration = Duration::from_secs(20);

/// Asks for an answer, and compares each byte.
fn asks(socket: &mut TcpStream, length: usize) {
    socket.set_read_timeout(Some(LONG)).expect("it is no zero");
    writeln!(socket, "{length}").expect("it is open");
    let mut came = vec![0; length];
    socket.read_exact(&mut came).expect("the answer comes");
    assert!(came == answer(length), "another answer of {length} bytes");
}

/// Looks until this is so.
fn within_long(what: &str, mut holds: impl FnMut() -> bool) {
    let start = Instant::now();
    while !holds() {
        assert!(start.elapsed() < LONG, "{what}");
        thread::sleep(Duration::from_millis(1));
    }
}

/// Ends the server, also if a client panics.
struct Stops<'a>(&'a AtomicBool, SocketAddr);

impl Drop for Stops<'_> {
    fn drop(&mut self) {
        self.0.store(true, Ordering::Release);
        drop(TcpStream::connect(self.1));
    }
}

/// Serves while this runs, and returns what the server saw, and the most bytes that were held.
fn while_served(patience: Duration, clients: impl FnOnce(SocketAddr, &Budget)) -> (Seen, u64) {
    let listener = TcpListener::bind("127.0.0.1:0").expect("it binds");
    let address = listener.local_addr().expect("it has one");
    let budget = open(ROOM).expect("there is memory");
    let options = Options { room: ROOM, patience };
    let (stop, most) = (AtomicBool::new(false), AtomicU64::new(0));
    let seen = thread::scope(|scope| {
        let server = scope.spawn(|| serve(&listener, &budget, options, &stop).expect("it serves"));
        scope.spawn(|| {
            while !stop.load(Ordering::Acquire) {
                most.fetch_max(budget.look().total, Ordering::Relaxed);
                thread::sleep(Duration::from_micros(100));
            }
        });
        let stops = Stops(&stop, address);
        clients(address, &budget);
        drop(stops);
        server.join().expect("the server ends")
    });
    (seen, most.into_inner())
}

#[test]
fn all_answers_come_within_the_room() {
    let (seen, most) = while_served(LONG, |address, _| {
        thread::scope(|scope| {
            for client in 0..12 {
                scope.spawn(move || {
                    let mut socket = TcpStream::connect(address).expect("it is accepted");
                    for turn in 0..6 {
                        asks(&mut socket, (client * 41_813 + turn * 99_991) % LARGE);
                    }
                });
            }
        });
    });
    assert!(most <= ROOM, "{most} bytes were held");
    assert_eq!(seen.given_up.into_inner(), 0);
}

/// Under pressure no line is read. Its end, which comes by a call of another thread, wakes who waits.
#[test]
fn who_waits_goes_on_when_pressure_ends() {
    let (seen, _) = while_served(LONG, |address, budget| {
        let mut client = TcpStream::connect(address).expect("it is accepted");
        asks(&mut client, 10);
        // nothing tells when the server's threads have gone on to wait for a line and for a client
        thread::sleep(PATIENCE);
        let marks = Marks { low: 1, high: 1 << 30 };
        let mut pressing = BudgetedConnection::within(budget, marks, Estimate::default()).expect("there is memory");
        for _ in 0..7 {
            let _ = pressing.write(&[0; 1_000_000]).answer.expect("there is room");
        }
        assert!(budget.is_pressed());
        // this one was waited for before the pressure
        asks(&mut client, 10);
        client.write_all(b"20\n").expect("it is open");
        client.set_read_timeout(Some(Duration::from_millis(100))).expect("it is no zero");
        assert!(client.read(&mut [0]).is_err(), "a line was read under pressure");
        assert_eq!(pressing.retire(), Some(Pressure::Ended));
        client.set_read_timeout(Some(LONG)).expect("it is no zero");
        let mut came = [0; 20];
        client.read_exact(&mut came).expect("the answer comes");
        assert_eq!(came, *answer(20));
    });
    assert_eq!(seen.waits.into_inner(), 1);
}

#[test]
fn who_takes_nothing_is_given_up() {
    let (seen, most) = while_served(PATIENCE, |address, _| {
        let mut stuck = TcpStream::connect(address).expect("it is accepted");
        // more than the kernel keeps for both ends of a connection
        stuck.write_all(format!("{LARGE}\n").repeat(16).as_bytes()).expect("it is open");
        // when it is given up it is closed, and then this fails
        within_long("it is given up", || stuck.write_all(b"1\n").is_err());
    });
    assert!(most <= ROOM, "{most} bytes were held");
    assert_eq!(seen.given_up.into_inner(), 1);
}
