//! A server with a thread for each client, within a budget: what waits for all clients together is never more than the room.
//!
//!     cargo run --example budget_threads -- 127.0.0.1:7007 --room 268435456
//!
//! A client sends lines. Each is a number, and is answered by as many bytes. While pressure stands nobody is accepted and no line is
//! read: those threads sleep until pressure has ended, and whatever call of whatever thread ends it wakes them. A client that takes
//! nothing for a while is given up, since its bytes alone may be what presses.

use limekeel::{Bounds, Budget, BudgetedConnection, Ending, Estimate, Marks, Refusal};
use std::env;
use std::error::Error;
use std::io::{BufRead, BufReader};
use std::net::{TcpListener, TcpStream};
use std::sync::atomic::{AtomicBool, AtomicU64, Ordering};
use std::thread;
use std::time::Duration;

/// The longest answer, in bytes.
pub const MOST: usize = 1 << 20;
/// How many bytes a connection takes of the budget at once.
const QUANTUM: u64 = 4096;
/// How often a socket is written to before it is asked again if the server is to stop.
const TURNS: u32 = 16;

/// How a server is opened.
#[derive(Clone, Copy, Debug)]
pub struct Options {
    pub room: u64,
    /// After how long one is given up that takes nothing.
    pub patience: Duration,
}

/// What a server saw.
#[derive(Debug, Default)]
pub struct Seen {
    /// How many bytes of answers were sent.
    pub sent: AtomicU64,
    /// How often a thread waited until pressure had ended.
    pub waits: AtomicU64,
    /// How many clients were given up, since they took nothing.
    pub given_up: AtomicU64,
}

/// What the threads share.
struct Server<'a> {
    options: Options,
    seen: &'a Seen,
    stop: &'a AtomicBool,
}

/// What a client is answered by: byte n is n.
pub fn answer(length: usize) -> Vec<u8> {
    (0..length).map(|place| place as u8).collect()
}

impl Server<'_> {
    fn is_to_stop(&self) -> bool {
        self.stop.load(Ordering::Acquire)
    }

    /// Sleeps until no pressure stands, or the server is to stop.
    fn wait(&self, budget: &Budget) {
        if budget.is_pressed() {
            self.seen.waits.fetch_add(1, Ordering::Relaxed);
            while !budget.wait_while_pressed_within(self.options.patience) && !self.is_to_stop() {}
        }
    }

    /// Answers each line, one after the other. What it waits for, it waits for with nothing pending.
    fn serve(&self, budget: &Budget, socket: &TcpStream) -> Result<(), Box<dyn Error>> {
        socket.set_write_timeout(Some(self.options.patience))?;
        let mut connection = BudgetedConnection::within(budget, Marks::default(), Estimate::default())?;
        let mut lines = BufReader::new(socket).lines();
        loop {
            // what is spare is for the others meanwhile
            let _ = connection.rest();
            self.wait(budget);
            let Some(line) = lines.next() else { return Ok(()) };
            let bytes = answer(line?.trim().parse::<usize>()?.min(MOST));
            self.write(budget, &mut connection, &bytes)?;
            if !self.send(&mut connection, socket)? {
                return Ok(());
            }
        }
    }

    /// Writes an answer, as soon as it has room. The room is larger than the longest.
    fn write(&self, budget: &Budget, connection: &mut BudgetedConnection, bytes: &[u8]) -> Result<(), Box<dyn Error>> {
        loop {
            match connection.write(bytes).answer {
                Ok(_) => break,
                // others took the room: it comes back as they send
                Err(Refusal::OverBudget) if !self.is_to_stop() => {
                    self.wait(budget);
                    thread::yield_now();
                }
                Err(refusal) => return Err(refusal.into()),
            }
        }
        let _ = connection.flush().answer?;
        Ok(())
    }

    /// Sends all that is pending. Returns whether the client stays.
    fn send(&self, connection: &mut BudgetedConnection, mut socket: &TcpStream) -> Result<bool, Box<dyn Error>> {
        while !connection.is_empty() && !self.is_to_stop() {
            let sent = connection.send_until_blocked(&mut socket, TURNS).answer?;
            self.seen.sent.fetch_add(sent.bytes, Ordering::Relaxed);
            match sent.ending {
                Ending::Blocked if sent.bytes == 0 => {
                    self.seen.given_up.fetch_add(1, Ordering::Relaxed);
                    let _ = connection.give_up(1).answer?;
                    return Ok(false);
                }
                Ending::Broken(error) => return Err(error.into()),
                _ => {}
            }
        }
        Ok(!self.is_to_stop())
    }
}

/// Serves until it is told to stop, which it sees at the next client.
pub fn serve(
    listener: &TcpListener,
    budget: &Budget,
    options: Options,
    stop: &AtomicBool,
) -> Result<Seen, Box<dyn Error>> {
    let seen = Seen::default();
    let server = Server { options, seen: &seen, stop };
    thread::scope(|scope| -> Result<(), Box<dyn Error>> {
        loop {
            server.wait(budget);
            let (socket, _) = listener.accept()?;
            if server.is_to_stop() {
                return Ok(());
            }
            // a handle of its own, which no other thread locks
            let (server, budget) = (&server, budget.share()?);
            scope.spawn(move || {
                if let Err(error) = server.serve(&budget, &socket) {
                    eprintln!("a client ended: {error}");
                }
            });
        }
    })?;
    Ok(seen)
}

/// A budget of this room: pressure begins at three quarters of it.
pub fn open(room: u64) -> Result<Budget, Refusal> {
    Budget::open(Bounds { room, low: room / 8 * 3, high: room / 4 * 3 }, QUANTUM)
}

#[allow(dead_code)]
fn main() -> Result<(), Box<dyn Error>> {
    let (mut address, mut options) =
        ("127.0.0.1:7007".to_owned(), Options { room: 256 << 20, patience: Duration::from_secs(10) });
    let mut words = env::args().skip(1);
    while let Some(word) = words.next() {
        match word.as_str() {
            "--room" => options.room = words.next().ok_or("--room wants a number of bytes")?.parse()?,
            _ => address = word,
        }
    }
    let budget = open(options.room)?;
    let listener = TcpListener::bind(&address)?;
    println!("answers on {}", listener.local_addr()?);
    serve(&listener, &budget, options, &AtomicBool::new(false))?;
    Ok(())
}
