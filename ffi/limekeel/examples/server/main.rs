//! An echo server over epoll that lives with any client: it ends in order at SIGTERM, gives up peers that stall, refuses what is
//! past a limit, and tells its numbers as a text for Prometheus.
//!
//!     cargo run --example server -- [HIGH MOST WINDOW LEAST DRAIN]
//!
//! It prints two ports: of the echo, and of the numbers. Above HIGH bytes no more is read of a client, more than MOST may not be
//! pending for one, and it has to take LEAST in each WINDOW of milliseconds. After SIGTERM what is left may take DRAIN of them.

mod epoll;
mod sums;

use epoll::{IN, OUT, Poll};
use limekeel::{Change, Ending, Estimate, Limits, ManagedConnection, Marks, Refusal};
use std::error::Error;
use std::io::{ErrorKind, Read};
use std::net::{Shutdown, TcpListener, TcpStream};
use std::sync::LazyLock;
use std::sync::atomic::{AtomicBool, Ordering};
use std::time::Instant;
use sums::{Cause, Sums};

const CHUNK: usize = 16384;
const TURNS: u32 = 16;
/// How often the time is told, in milliseconds.
const TICK: u64 = 100;
/// What the two listeners are known by to epoll; each client is known by a number above.
const ECHO: u64 = 0;
const NUMBERS: u64 = 1;

static START: LazyLock<Instant> = LazyLock::new(Instant::now);
static ASKED: AtomicBool = AtomicBool::new(false);

extern "C" fn ask(_signal: i32) {
    ASKED.store(true, Ordering::Relaxed);
}

fn now() -> u64 {
    START.elapsed().as_millis() as u64
}

struct Client {
    key: u64,
    socket: TcpStream,
    connection: ManagedConnection,
    /// How often writers were to stop, and whether they may go on, as the last change said.
    may_write: bool,
    /// The socket has no room.
    blocked: bool,
    /// The client sends no more, and when it was sent the end.
    heard_all: bool,
    said_all: Option<u64>,
    given_up: Option<Cause>,
}

impl Client {
    fn new(key: u64, socket: TcpStream, connection: ManagedConnection) -> Client {
        let (may_write, blocked, heard_all, said_all, given_up) = (true, false, false, None, None);
        Client { key, socket, connection, may_write, blocked, heard_all, said_all, given_up }
    }

    fn note(&mut self, change: Option<Change>) {
        self.may_write = change.map_or(self.may_write, |change| change == Change::Writable);
    }

    fn is_done(&self) -> bool {
        self.given_up.is_some() || (self.heard_all && self.said_all.is_some())
    }

    /// Sends the end behind the last byte. The socket is closed once the client ends too, or after a while: a close over bytes
    /// that were not read would send a reset, and that would take away what the client has not read yet.
    fn say_all(&mut self, finished: bool) {
        if finished && self.said_all.is_none() {
            self.said_all = Some(now());
            // of a client that is gone the next read tells
            let _ = self.socket.shutdown(Shutdown::Write);
        }
    }

    fn finish(&mut self) {
        let finished = self.connection.finish();
        self.say_all(finished);
    }

    /// What is left fails, each message once, and the client is gone.
    fn give_up(&mut self, cause: Cause) {
        // nothing but a connection that was given up before refuses it
        let _ = self.connection.give_up(cause as u32);
        self.given_up = self.given_up.or(Some(cause));
    }

    fn send(&mut self) {
        let Ok(told) = self.connection.send_until_blocked(&mut self.socket, TURNS) else { return };
        self.note(told.answer.taken.change);
        self.blocked = matches!(told.answer.ending, Ending::Blocked | Ending::TurnsUsed);
        match told.answer.ending {
            Ending::Broken(_) => self.give_up(Cause::Broken),
            _ => self.say_all(told.finished),
        }
    }

    /// Writes these bytes and flushes. Once the end was asked for they are dropped.
    fn write(&mut self, bytes: &[u8]) {
        match self.connection.write(bytes) {
            Ok(written) => self.note(written.change),
            Err(Refusal::Finishing) => {}
            Err(Refusal::Full) => self.give_up(Cause::Full),
            Err(_) => self.give_up(Cause::Broken),
        }
        if let Ok(told) = self.connection.flush() {
            self.note(told.answer.change);
        }
    }

    fn hear(&mut self) {
        let mut bytes = [0; CHUNK];
        match self.socket.read(&mut bytes) {
            Ok(0) => {
                self.heard_all = true;
                self.finish();
            }
            Ok(count) => {
                self.write(&bytes[..count]);
                self.send();
            }
            Err(error) if matches!(error.kind(), ErrorKind::WouldBlock | ErrorKind::Interrupted) => {}
            Err(_) => self.give_up(Cause::Broken),
        }
    }

    fn wanted(&self) -> u32 {
        let hears = !self.heard_all && (self.may_write || self.connection.is_finishing());
        (if hears { IN } else { 0 }) | (if self.blocked { OUT } else { 0 })
    }
}

struct Server {
    poll: Poll,
    clients: Vec<Client>,
    /// Of all that are gone.
    gone: Sums,
    keys: u64,
    marks: Marks,
    limits: Limits,
    drain: u64,
}

impl Server {
    fn welcome(&mut self, listener: &TcpListener) -> Result<&mut Client, Box<dyn Error>> {
        let (socket, _) = listener.accept()?;
        socket.set_nonblocking(true)?;
        let connection = ManagedConnection::open(self.marks, Estimate::default(), self.limits, now())?;
        self.keys += 1;
        self.poll.add(&socket, self.keys);
        self.clients.push(Client::new(self.keys, socket, connection));
        Ok(self.clients.last_mut().expect("it was pushed"))
    }

    /// The numbers of all clients that were ever here.
    fn sums(&self) -> Sums {
        let mut sums = self.gone.clone();
        sums.clients = self.clients.len() as u64;
        self.clients.iter().for_each(|client| sums.add(client));
        sums
    }

    /// Whoever asks for the numbers is a client too: it is sent them, and then the end.
    fn tell(&mut self, listener: &TcpListener) -> Result<(), Box<dyn Error>> {
        let page = format!("HTTP/1.0 200 OK\r\nContent-Type: text/plain; version=0.0.4\r\n\r\n{}", self.sums());
        let client = self.welcome(listener)?;
        client.write(page.as_bytes());
        client.finish();
        client.send();
        Ok(())
    }

    fn serve(&mut self, key: u64, ready: u32) {
        if let Some(client) = self.clients.iter_mut().find(|client| client.key == key) {
            if ready & client.wanted() & IN != 0 { client.hear() } else { client.send() }
        }
    }

    /// Gives up who stalls, and who is late.
    fn tick(&mut self, now: u64, deadline: u64) {
        for client in &mut self.clients {
            if now >= deadline || client.said_all.is_some_and(|said| now >= said + self.drain) {
                client.give_up(Cause::Late);
            } else if client.connection.tick(now) {
                client.give_up(Cause::Stalled);
            }
        }
    }

    /// Lets go of all that are done, and asks for what the others want.
    fn sweep(&mut self) {
        self.clients.retain(|client| {
            if client.is_done() {
                self.gone.add(client);
            } else {
                self.poll.want(&client.socket, client.key, client.wanted());
            }
            !client.is_done()
        });
    }

    fn run(&mut self, echo: TcpListener, numbers: &TcpListener) {
        let (mut echo, mut ticked, mut deadline) = (Some(echo), 0, u64::MAX);
        while echo.is_some() || !self.clients.is_empty() {
            for (key, ready) in self.poll.wait(TICK) {
                // a client that cannot be taken in is no end of the others
                match (key, &echo) {
                    (ECHO, Some(echo)) => drop(self.welcome(echo)),
                    (NUMBERS, _) => drop(self.tell(numbers)),
                    _ => self.serve(key, ready),
                }
            }
            let now = now();
            if ASKED.load(Ordering::Relaxed) && echo.take().is_some() {
                deadline = now + self.drain;
                self.clients.iter_mut().for_each(Client::finish);
            }
            if now >= ticked + TICK {
                ticked = now;
                self.tick(now, deadline);
            }
            self.sweep();
        }
    }
}

fn main() -> Result<(), Box<dyn Error>> {
    let mut words = std::env::args().skip(1);
    let mut option = |default: u64| words.next().map_or(Ok(default), |word| word.parse());
    let high = option(65536)? as u32;
    let limits = Limits { most_pending: option(1 << 20)? as u32, window: option(5000)?, least_bytes: option(1024)? };
    let (marks, drain) = (Marks { low: high / 2, high }, option(5000)?);
    let (echo, numbers) = (TcpListener::bind("127.0.0.1:0")?, TcpListener::bind("127.0.0.1:0")?);
    println!("echoes on {}\nnumbers on {}", echo.local_addr()?, numbers.local_addr()?);
    let poll = Poll::new(ask)?;
    poll.add(&echo, ECHO);
    poll.add(&numbers, NUMBERS);
    let mut server = Server { poll, clients: Vec::new(), gone: Sums::default(), keys: NUMBERS, marks, limits, drain };
    server.run(echo, &numbers);
    print!("{}", server.sums());
    Ok(())
}
